//! What was met while plans were moved on, and what ways to get it wrong would have changed.

use crate::formula::Clause;
use crate::move_on::{file_of, misread, moved, Way, WAYS};
use crate::moved_truth::{Found, READINGS};
use crate::plan::Plan;

/// A run of so many cases has to meet each kind of move so often, and each misreading has to change so many of them, or clauses.
const LONG: u64 = 100_000;
const LEAST: usize = 500;

/// The same for misreadings that by themselves do not add up.
const LEAST_UNEQUAL: usize = 100;

/// Kinds of moves.
const KINDS: [&str; 17] = [
    "s = 0",
    "u = 0",
    "s = l above 0",
    "s = l = 0",
    "s + u = l",
    "s below l, s + u beyond",
    "s beyond l, u above 0",
    "both of no whole laps",
    "s = h",
    "s laps beyond h",
    "s = l, then a lap",
    "s + u = 65,535, both above 0",
    "s = 65,535",
    "a lap of one step",
    "of 64 steps",
    "a shorter last result",
    "drift",
];

/// What is counted of clauses.
#[derive(Default)]
struct Clauses {
    /// True ones, and those that aren't.
    holds: [usize; 2],
    next_outside: usize,
    groups: usize,
    changed: [usize; READINGS.len()],
}

#[derive(Default)]
pub struct Tally {
    plans: usize,
    kinds: [usize; KINDS.len()],
    clauses: Clauses,
    /// Cases in which a way changes bytes, and in which by itself it doesn't add up or give the plan back.
    changed: [usize; WAYS.len()],
    unequal: [usize; WAYS.len()],
}

impl Tally {
    pub fn note_clause(&mut self, clause: &Clause, found: &Found) {
        let clauses = &mut self.clauses;
        clauses.holds[!found.holds as usize] += 1;
        clauses.next_outside += clause.next_outside(clause.root) as usize;
        clauses.groups += !clause.groups().is_empty() as usize;
        add(&mut clauses.changed, found.changed);
    }

    pub fn note_moves(&mut self, plan: &Plan, s: usize, u: usize) {
        self.plans += 1;
        add(&mut self.kinds, kinds(plan, s, u));
        let right = files(plan, s, u, &|plan, by, _| moved(plan, by));
        for (i, (way, _)) in WAYS.iter().enumerate() {
            let wrong = files(plan, s, u, &|plan, by, before| {
                misread(plan, by, before, *way)
            });
            self.changed[i] += (wrong != right) as usize;
            let [_, last, at_once, back] = wrong;
            self.unequal[i] += (last != at_once || back != right[3]) as usize;
        }
    }

    pub fn print(&self) {
        println!(
            "plans moved on: {}, by s and then u as by s + u: {}",
            self.plans,
            listed(&KINDS, &self.kinds)
        );
        let ways = WAYS.map(|(_, name)| name);
        println!("moves changed by {}", listed(&ways, &self.changed));
        println!("of these not adding up: {}", listed(&ways, &self.unequal));
        let [kept, broken] = self.clauses.holds;
        println!(
            "clauses at the start as at counter s: {kept} true, {broken} not; {} with X outside counts, {} over groups",
            self.clauses.next_outside, self.clauses.groups
        );
        println!(
            "truth changed by {}",
            listed(&READINGS, &self.clauses.changed)
        );
    }

    /// Whether a long run has met enough.
    pub fn enough(&self, cases: u64) -> bool {
        let clauses = &self.clauses;
        let few = clauses.holds.iter().chain(&clauses.changed);
        let few = few.chain([&clauses.next_outside, &clauses.groups]);
        let few = few.chain(&self.kinds).chain(&self.changed);
        let unequal = WAYS.iter().zip(&self.unequal);
        let mut unequal = unequal.filter(|((way, _), _)| !adds_up(*way));
        cases < LONG
            || few.min() >= Some(&LEAST) && unequal.all(|(_, count)| *count >= LEAST_UNEQUAL)
    }
}

/// Whether a way adds up all the same, so that the paper's bytes alone tell it.
fn adds_up(way: Way) -> bool {
    let turns = matches!(way, Way::TurnedBack | Way::NotTurned | Way::FirstRowAlone);
    turns || way == Way::DriftDroppedInLap
}

type MoveOn<'a> = dyn Fn(&Plan, usize, Option<(&Plan, usize)>) -> Plan + 'a;

/// The plan moved on by s, that by u, the plan moved on by s + u, and by 0.
fn files(plan: &Plan, s: usize, u: usize, move_on: &MoveOn) -> [Vec<u8>; 4] {
    let first = move_on(plan, s, None);
    let last = move_on(&first, u, Some((plan, s)));
    let at_once = move_on(plan, s + u, None);
    let back = move_on(plan, 0, None);
    [first, last, at_once, back].map(|plan| file_of(&plan))
}

fn kinds(plan: &Plan, s: usize, u: usize) -> [bool; KINDS.len()] {
    let Plan { h, l, d, .. } = *plan;
    let lap = h - l;
    [
        s == 0,
        u == 0,
        s == l && l > 0,
        s == l && l == 0,
        s + u == l && s > 0 && u > 0,
        s < l && s + u > l,
        s > l && u > 0,
        s > l && (s - l) % lap > 0 && u % lap > 0,
        s == h,
        s > h + lap,
        s == l && u == lap,
        s + u == 65_535 && s > 0 && u > 0,
        s == 65_535,
        lap == 1,
        h == 64,
        s < l && u > 0,
        d > 0,
    ]
}

fn add<const N: usize>(counts: &mut [usize; N], found: [bool; N]) {
    for (count, found) in counts.iter_mut().zip(found) {
        *count += found as usize;
    }
}

fn listed(names: &[&str], counts: &[usize]) -> String {
    let both = names.iter().zip(counts);
    let each: Vec<String> = both
        .map(|(name, count)| format!("{name} {count}"))
        .collect();
    each.join(", ")
}
