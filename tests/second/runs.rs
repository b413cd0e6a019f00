//! Verdicts beside runs: accepted plans and conflicts on random runs, plans at drift 0 in step, small plans on all runs.

use std::time::Instant;

use crate::aims;
use crate::compare::{both, tell, Within};
use crate::damage::Triple;
use crate::floor::Floor;
use crate::formula::{Clause, Op};
use crate::grouped::{self, Grouped};
use crate::joined::{self, Joined};
use crate::plan::Plan;
use crate::random::Random;
use crate::run::Run;
use crate::sheet;
use crate::small;
use crate::truth::Meaning;
use crate::verdict::{Refusal, Verdict, PLAN, RULES};

/// A triple that can be read.
pub struct Read {
    pub floor: Floor,
    pub plan: Plan,
    pub clauses: Vec<Clause>,
}

impl Read {
    pub fn of(triple: &Triple) -> Read {
        let floor = Floor::read(&triple.floor).expect("a floor");
        Read {
            plan: Plan::read(&triple.plan, &floor).expect("a plan"),
            clauses: sheet::read(&triple.rules).expect("a sheet"),
            floor,
        }
    }

    /// Whether a cart comes to a narrow place.
    fn visits_narrow(&self) -> bool {
        let mut places = self.plan.rows.iter().flatten();
        places.any(|place| self.floor.narrow.contains(place))
    }

    pub fn meaning<'a>(&'a self, clause: &'a Clause) -> Meaning<'a> {
        Meaning::new(clause, &self.plan, &self.floor)
    }
}

/// What was looked at.
#[derive(Default)]
pub struct Tally {
    pub plans: usize,
    pub runs: usize,
    pub full_spread: usize,
    pub clauses: usize,
    pub in_step: usize,
    pub searched: usize,
    pub standings: usize,
    pub accepted: usize,
    pub refused: usize,
    pub refused_broken: usize,
    pub globally: usize,
    pub globally_refused: usize,
    pub smaller: usize,
    pub narrow: usize,
    pub met: usize,
    pub shown: usize,
    pub clear: usize,
    pub conflicts: usize,
    pub joined: Joined,
    pub grouped: Grouped,
}

pub type Outcome = Result<(), String>;

type Part = fn(&mut Random, &mut Tally) -> (Triple, Outcome);

const PARTS: [Part; 8] = [
    on_runs,
    met_on_runs,
    in_step,
    small::searched,
    small::globally_one_count,
    small::conflicts,
    joined::searched,
    grouped::searched,
];

/// All parts for so many cases; false once a difference was told.
pub fn run(cases: u64, seed: u64) -> bool {
    let begun = Instant::now();
    let mut tally = Tally::default();
    for case in 0..cases {
        let _within = Within { seed, case };
        for (number, part) in PARTS.iter().enumerate() {
            let mut random = Random::new(seed, PARTS.len() as u64 * case + number as u64);
            let (triple, outcome) = part(&mut random, &mut tally);
            if let Err(text) = outcome {
                tell(&triple, seed, case, &text);
                return false;
            }
        }
    }
    tally.print();
    tally.joined.print();
    tally.grouped.print();
    println!("{:.0} seconds", begun.elapsed().as_secs_f64());
    if !tally.joined.enough(cases) || !tally.grouped.enough(cases) {
        println!("second: too few clauses that only joined counts let through, over groups, or that misreadings change");
        return false;
    }
    println!("{cases} cases of runs, 0 differences");
    true
}

impl Tally {
    fn print(&self) {
        println!(
            "accepted plans on drifting runs: {} plans, {} runs, {} with all the spread allowed; {} times a clause held",
            self.plans, self.runs, self.full_spread, self.clauses
        );
        println!("plans at drift 0, judged as in step: {}", self.in_step);
        println!(
            "small plans on all runs: {} over {} standings; {} accepted, broken by none; {} refused, {} of them broken by one",
            self.searched, self.standings, self.accepted, self.refused, self.refused_broken
        );
        println!(
            "G over one count on all runs: {}; {} refused, each broken at the step told; the others broken by none",
            self.globally, self.globally_refused
        );
        println!(
            "narrow places on drifting runs: {} accepted plans, no conflict; {} refused, shown by {} runs, none with lower numbers",
            self.narrow, self.met, self.shown
        );
        println!(
            "narrow places on all runs: {} plans clear of conflicts, {} with the lowest cart and its earliest counter",
            self.clear, self.conflicts
        );
        println!(
            "smaller drifts of small accepted plans, all accepted: {}",
            self.smaller
        );
    }
}

/// An accepted plan of any size on some drifting runs.
fn on_runs(random: &mut Random, tally: &mut Tally) -> (Triple, Outcome) {
    let triple = aims::accepted(random);
    let outcome = hold_on_runs(random, &triple, tally);
    (triple, outcome)
}

fn hold_on_runs(random: &mut Random, triple: &Triple, tally: &mut Tally) -> Outcome {
    let verdict = both(triple)?;
    if verdict != Verdict::ACCEPTED {
        return Err(format!("made to be accepted, but {verdict}"));
    }
    let read = Read::of(triple);
    let next_inside = |clause: &&Clause| !clause.next_outside(clause.root);
    let clauses = read.clauses.iter().filter(next_inside);
    let meanings: Vec<Meaning> = clauses.map(|clause| read.meaning(clause)).collect();
    tally.plans += 1;
    tally.narrow += read.visits_narrow() as usize;
    for _ in 0..4 {
        let run = Run::random(random, &read.plan);
        for meaning in &meanings {
            hold_on(meaning, &run)?;
        }
        if let Some(conflict) = run.lowest_conflict(&read.plan, &read.floor) {
            return Err(format!("accepted, but {}", shown(&run, conflict)));
        }
        tally.runs += 1;
        tally.full_spread += (run.spread() == read.plan.d) as usize;
        tally.clauses += meanings.len();
        let over_groups = |meaning: &&Meaning| !meaning.clause.groups().is_empty();
        tally.grouped.held += meanings.iter().filter(over_groups).count();
    }
    Ok(())
}

fn shown(run: &Run, (cart, counter): (usize, usize)) -> String {
    let moments = &run.moments;
    format!("cart {cart} is in conflict at counter {counter} on the run {moments:?}")
}

/// A plan refused for a conflict: no run shows one of a lower cart, or an earlier one of that cart.
fn met_on_runs(random: &mut Random, tally: &mut Tally) -> (Triple, Outcome) {
    let triple = aims::conflicting(random);
    let outcome = no_lower_on_runs(random, &triple, tally);
    (triple, outcome)
}

fn no_lower_on_runs(random: &mut Random, triple: &Triple, tally: &mut Tally) -> Outcome {
    let verdict = both(triple)?;
    if verdict.number != 20 {
        return Ok(());
    }
    let floor = Floor::read(&triple.floor).expect("a floor");
    let plan = Plan::read(&triple.plan, &floor).expect("a plan");
    let told = (verdict.first as usize, verdict.second as usize);
    tally.met += 1;
    for _ in 0..4 {
        let run = Run::random(random, &plan);
        let Some((cart, counter)) = run.lowest_conflict(&plan, &floor) else {
            continue;
        };
        // A counter is never below its step.
        if (cart, counter) < told {
            return Err(format!("{verdict}, but {}", shown(&run, (cart, counter))));
        }
        tally.shown += ((cart, plan.step(counter)) == told) as usize;
    }
    Ok(())
}

/// Whether a run leaves a clause true.
pub fn hold_on(meaning: &Meaning, run: &Run) -> Outcome {
    if meaning.on_run(meaning.clause.root, run)[0] {
        return Ok(());
    }
    let (moments, back) = (&run.moments, run.back);
    Err(format!(
        "broken by the run {moments:?}, from there back to moment {back}"
    ))
}

/// A plan at drift 0 is judged exactly as its conflicts and clauses are in step.
fn in_step(random: &mut Random, tally: &mut Tally) -> (Triple, Outcome) {
    let mut triple = aims::judged(random);
    triple.plan[8] = 0;
    let outcome = as_in_step(&triple);
    tally.in_step += 1;
    (triple, outcome)
}

fn as_in_step(triple: &Triple) -> Outcome {
    let verdict = both(triple)?;
    let read = Read::of(triple);
    let run = Run::in_step(&read.plan);
    let mut wanted = Verdict::ACCEPTED;
    for (i, clause) in read.clauses.iter().enumerate().rev() {
        if let Some(step) = breaks_in_step(&read.meaning(clause), &run) {
            wanted = Verdict::refused(RULES, Refusal(17, i, step));
        }
    }
    if let Some((cart, counter)) = run.lowest_conflict(&read.plan, &read.floor) {
        wanted = Verdict::refused(PLAN, Refusal(20, cart, read.plan.step(counter)));
    }
    if verdict == wanted {
        return Ok(());
    }
    Err(format!("{verdict}, but in step {wanted}"))
}

/// The step of a clause that is not true in step.
fn breaks_in_step(meaning: &Meaning, run: &Run) -> Option<usize> {
    let clause = meaning.clause;
    if meaning.on_run(clause.root, run)[0] {
        return None;
    }
    let root = clause.nodes[clause.root];
    if root.op != Op::Globally {
        return Some(0);
    }
    let body = meaning.on_run(root.left, run);
    body.iter().position(|holds| !holds)
}
