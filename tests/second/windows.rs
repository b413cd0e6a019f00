//! The window of the drift on all rows of up to 8 steps, with every lap and every drift: a verdict for each step.
//!
//! Three carts go along one row. A fourth never satisfies a text of theirs, so that no threshold of 1 is met by all carts at a step. Each step
//! has a mark of its own, which all carts bear: to count it is true there and nowhere else.

use crate::compare::expect;
use crate::damage::Triple;
use crate::plan::step_of;
use crate::running::{self, Met};
use crate::verdict::{Refusal, Verdict, RULES};
use crate::world::{encode, Written};

const MOST_STEPS: usize = 8;
const MOST_DRIFT: usize = 16;

/// Rows, laps, steps and drifts as document 02's window has them.
const WINDOWS: usize = 443_802;

/// Each way to get the running count wrong has to change so many.
const LEAST: usize = 500;

/// Counts that are true exactly where the row is throughout the window: a mark of the row, one of all that is not on it, a text that is no
/// mark, one that the fourth cart satisfies, and joined ones that share the row's steps.
const COUNTS: [&str; 9] = [
    "[m0,3]",
    "[m0,2]",
    "[m0,1]",
    "[!m1,2]",
    "![m1,2]",
    "![m1,4]",
    "[m0 & true,2]",
    "[m2,4]",
    "([m3,2] | [m4,2])",
];

/// What the row's carts bear where the row is false, and the fourth cart always.
const OFF_ROW: u32 = 1 << 1;

/// The first of the steps' marks.
const CLOCK: usize = 8;

#[derive(Default)]
pub struct Windows {
    windows: usize,
    held: usize,
    checks: usize,
    changed: Met,
}

/// Looks at all of them; the first check that comes out otherwise is told.
pub fn run() -> Result<Windows, String> {
    let mut windows = Windows::default();
    let clauses = Clauses::new();
    for h in 1..=MOST_STEPS {
        for (row, l) in (0..1 << h).flat_map(|row| (0..h).map(move |l| (row, l))) {
            let row: Vec<bool> = (0..h).map(|step| row >> step & 1 == 1).collect();
            windows
                .look(&clauses, &row, l)
                .map_err(|text| format!("windows of {row:?}, lap from {l}: {text}"))?;
        }
    }
    assert_eq!(windows.windows, WINDOWS, "rows, laps, steps and drifts");
    running::told(&windows.changed, LEAST).map(|_| windows)
}

impl Windows {
    pub fn print(&self) {
        println!(
            "{} windows of all rows of up to {MOST_STEPS} steps in {} checks, each told as it is, {} of them true; wrong by {}",
            self.windows,
            self.checks,
            self.held,
            running::told(&self.changed, 0).expect("no least number")
        );
    }

    fn look(&mut self, clauses: &Clauses, row: &[bool], l: usize) -> Result<(), String> {
        let mut triple = Triple {
            floor: floor(row, l),
            plan: plan(row.len(), l),
            rules: Vec::new(),
        };
        for d in 0..=MOST_DRIFT {
            triple.plan[8] = d as u8;
            let held: Vec<bool> = (0..row.len()).map(|s| is_window(row, l, s, d)).collect();
            self.note(row, l, d, &held);
            self.tell_apart(clauses, &mut triple, &held)
                .map_err(|text| format!("drift {d}: {text}"))?;
        }
        Ok(())
    }

    /// All steps with a window in one sheet, the lowest without one in the next, and each step without one by itself.
    fn tell_apart(
        &mut self,
        clauses: &Clauses,
        triple: &mut Triple,
        held: &[bool],
    ) -> Result<(), String> {
        let (with, without): (Vec<usize>, Vec<usize>) = (0..held.len()).partition(|s| held[*s]);
        let all = |s: &usize| clauses.all[*s].as_str();
        triple.rules = with
            .iter()
            .map(all)
            .chain(["true\n"])
            .collect::<String>()
            .into();
        self.expect(triple, None)?;
        for body in ["[m0,2]", "![m1,3]", "([m3,2] | [m4,2])"] {
            triple.rules = format!("G {body}\n").into();
            self.expect(triple, without.first().copied())?;
        }
        for s in without {
            triple.rules = clauses.any[s].clone().into();
            self.expect(triple, Some(0))?;
        }
        Ok(())
    }

    /// Accepted, or refused for the first clause at a step.
    fn expect(&mut self, triple: &Triple, refused: Option<usize>) -> Result<(), String> {
        let wanted = match refused {
            Some(step) => Verdict::refused(RULES, Refusal(17, 0, step)),
            None => Verdict::ACCEPTED,
        };
        self.checks += 1;
        expect(triple, wanted)
    }

    /// Counts the windows, and those that are wrong ones by each way to get the running count wrong.
    fn note(&mut self, row: &[bool], l: usize, d: usize, held: &[bool]) {
        let wrong = |way| {
            let told = running::windows(row, l, d, way);
            (0..held.len()).filter(|s| told[*s] != held[*s]).count()
        };
        assert_eq!(wrong(None), 0, "the running count itself");
        self.windows += held.len();
        self.held += held.iter().filter(|held| **held).count();
        for (count, (way, _)) in self.changed.iter_mut().zip(running::WAYS) {
            *count += wrong(Some(way));
        }
    }
}

/// Whether the row is true at all of counters s to s + d.
pub fn is_window(row: &[bool], l: usize, s: usize, d: usize) -> bool {
    (s..=s + d).all(|v| row[step_of(v, row.len(), l)])
}

/// For each step a clause that is true if all counts are there, and one that is true if any is: they are not joined.
struct Clauses {
    all: Vec<String>,
    any: Vec<String>,
}

impl Clauses {
    fn new() -> Clauses {
        let (all, any) = (COUNTS.join(" & "), COUNTS.join(" | "));
        let at = |s: usize| format!("[m{},1]", CLOCK + s);
        let clause = |make: &dyn Fn(usize) -> String| (0..MOST_STEPS).map(make).collect();
        Clauses {
            all: clause(&|s| format!("F ({} & {all})\n", at(s))),
            any: clause(&|s| format!("F ({} & (!true | {any}))\n", at(s))),
        }
    }
}

/// A place for each step of the row, and behind them one for each step of the fourth cart.
fn floor(row: &[bool], l: usize) -> Vec<u8> {
    let h = row.len();
    let on_row = |step: usize| match row[step] {
        true => 1 | 1 << 2 | 1 << (3 + step % 2),
        false => OFF_ROW,
    };
    let marks = (0..h).map(on_row).chain((0..h).map(|_| OFF_ROW | 1 << 2));
    let clock = (0..2 * h).map(|place| 1u32 << (CLOCK + place % h));
    let place = |(marks, clock): (u32, u32)| (1, (marks | clock).to_le_bytes().to_vec());
    let mut records: Vec<Written> = marks.zip(clock).map(place).collect();
    for from in 0..2 * h {
        let to = from / h * h + step_of(from % h + 1, h, l);
        records.push((2, vec![from as u8, to as u8, 1]));
    }
    records.extend([0, 0, 0, h as u8].map(|start| (3, vec![0, start])));
    encode(&records)
}

fn plan(h: usize, l: usize) -> Vec<u8> {
    let row = |first: usize| (5, (first..first + h).map(|place| place as u8).collect());
    let head = (4, vec![h as u8, 0, l as u8, 0, 0, 0]);
    encode(&[head, row(0), row(0), row(0), row(h)])
}
