//! Both checkers on random triples: every answer has to be the same.

use std::fs;
use std::ops::Range;
use std::path::PathBuf;
use std::time::Instant;

use crate::aims;
use crate::blocks;
use crate::cases;
use crate::check;
use crate::cuts;
use crate::damage::Triple;
use crate::library;
use crate::or_blocks;
use crate::random::Random;
use crate::recounts;
use crate::tally::Tally;
use crate::thresholds;
use crate::verdict::Verdict;
use crate::windows;

/// The cases of documents 01 and 02, every percentage, the places of tables, then so many random triples; false once a difference was told.
pub fn gate(cases: u64, seed: u64) -> bool {
    let told = cases::run()
        .map(|count| println!("{count} cases of documents 01 and 02"))
        .and_then(|_| thresholds::run())
        .map(|thresholds| thresholds.print())
        .and_then(|_| blocks::run())
        .map(|blocks| blocks.print())
        .and_then(|_| or_blocks::run())
        .map(|blocks| blocks.print())
        .and_then(|_| windows::run())
        .map(|windows| windows.print())
        .and_then(|_| cuts::run())
        .map(|cuts| cuts.print())
        .and_then(|_| recounts::run())
        .map(|recounts| recounts.print());
    if let Err(text) = told {
        println!("second: {text}");
        return false;
    }
    let mut tally = Tally::default();
    run(0..cases, seed, &mut tally) && tally.told(cases)
}

/// The same triples and those after them, with a line for each million.
pub fn soak(cases: u64, seed: u64) -> bool {
    let mut tally = Tally::default();
    let begun = Instant::now();
    for from in (0..cases).step_by(1_000_000) {
        let end = cases.min(from + 1_000_000);
        if !run(from..end, seed, &mut tally) {
            return false;
        }
        println!("{end} cases, {:.0} seconds", begun.elapsed().as_secs_f64());
    }
    tally.told(cases)
}

fn run(cases: Range<u64>, seed: u64, tally: &mut Tally) -> bool {
    for case in cases {
        let _within = Within { seed, case };
        let triple = aims::triple(&mut Random::new(seed, case));
        if let Err(text) = compare(&triple, tally) {
            tell(&triple, seed, case, &text);
            return false;
        }
    }
    true
}

/// One triple, and if it is accepted the same with each smaller drift.
fn compare(triple: &Triple, tally: &mut Tally) -> Result<(), String> {
    let verdict = both(triple)?;
    tally.numbers[verdict.number as usize] += 1;
    if verdict == Verdict::ACCEPTED {
        tally.note_limits(triple);
        tally.smaller += smaller_drifts(triple)?;
    }
    match verdict.number {
        0 | 17 => tally.note_clauses(triple, verdict),
        20 => tally.note_conflict(triple),
        21 => tally.note_lacking(triple, verdict),
        _ => tally.note_written(triple, verdict),
    }
    Ok(())
}

/// The answer of both checkers.
pub fn both(triple: &Triple) -> Result<Verdict, String> {
    let Triple { floor, plan, rules } = triple;
    let second = check::check(floor, plan, rules);
    let (first, untouched) = library::check(floor, plan, rules);
    if first != second {
        return Err(format!("second checker: {second}, library: {first}"));
    }
    if !untouched {
        return Err(format!("{first}, but a lent buffer has changed"));
    }
    Ok(first)
}

/// The library has to give this answer.
pub fn expect(triple: &Triple, wanted: Verdict) -> Result<(), String> {
    let (verdict, _) = library::check(&triple.floor, &triple.plan, &triple.rules);
    if verdict == wanted {
        return Ok(());
    }
    let rules = String::from_utf8_lossy(&triple.rules);
    Err(format!("{rules:?}: {verdict}, but {wanted} is wanted"))
}

/// An accepted plan is accepted with every smaller drift; the number of them.
pub fn smaller_drifts(triple: &Triple) -> Result<usize, String> {
    let mut lower = triple.clone();
    // The head is an accepted plan's first record; d is its last field.
    let d = triple.plan[8];
    for smaller in 0..d {
        lower.plan[8] = smaller;
        let verdict = both(&lower).map_err(|text| format!("at drift {smaller}: {text}"))?;
        if verdict != Verdict::ACCEPTED {
            return Err(format!("accepted at drift {d}, but at {smaller} {verdict}"));
        }
    }
    Ok(d as usize)
}

/// Names the case if the program breaks off within it.
pub struct Within {
    pub seed: u64,
    pub case: u64,
}

impl Drop for Within {
    fn drop(&mut self) {
        if std::thread::panicking() {
            println!(
                "second: broken off at seed {}, case {}",
                self.seed, self.case
            );
        }
    }
}

/// Tells a difference and saves its three files.
pub fn tell(triple: &Triple, seed: u64, case: u64, text: &str) {
    let text: String = text.chars().take(2000).collect();
    println!("second: a difference at seed {seed}, case {case}: {text}");
    match save(triple, seed, case) {
        Ok(folder) => println!(
            "its files floor, plan and rules are in {}",
            folder.display()
        ),
        Err(error) => println!("its files could not be saved: {error}"),
    }
}

fn save(triple: &Triple, seed: u64, case: u64) -> std::io::Result<PathBuf> {
    let folder = std::env::temp_dir().join(format!("second-{seed}-{case}"));
    fs::create_dir_all(&folder)?;
    fs::write(folder.join("floor"), &triple.floor)?;
    fs::write(folder.join("plan"), &triple.plan)?;
    fs::write(folder.join("rules"), &triple.rules)?;
    Ok(folder)
}
