//! Counts over groups: small plans on all their runs.

use crate::clauses::Clauses;
use crate::compare::{both, smaller_drifts};
use crate::damage::Triple;
use crate::formula::{Clause, Op};
use crate::group_readings::{self, WAYS};
use crate::groups;
use crate::random::Random;
use crate::readings::{self, Reading};
use crate::runs::{Outcome, Read, Tally};
use crate::search::{some_run_breaks, temporal_nodes};
use crate::small::triple_of;
use crate::standings::Standings;
use crate::tables;
use crate::verdict::Verdict;
use crate::world::World;

/// A run of so many cases has to search so many accepted clauses of each kind and to see so many Gs of each kind, and each misreading has
/// to change so many verdicts.
const LONG: u64 = 40_000;
const LEAST: usize = 500;
const LEAST_CHANGED: usize = 100;

/// So many clauses are tried for one that is accepted.
const TRIES: usize = 5;

/// So many clauses that a misreading lets through are searched.
const MISREAD: usize = 200;

/// What a clause speaks of.
const KINDS: [&str; 6] = [
    "over no cart",
    "over some carts",
    "over all, by a group",
    "a percentage",
    "negated",
    "let through only since a group's counts are joined",
];

/// What a G over one count is over.
const OVER: [&str; 3] = ["no cart", "some carts", "all, by a group"];

/// What was looked at.
#[derive(Default)]
pub struct Grouped {
    clauses: usize,
    searched: usize,
    standings: usize,
    kinds: [usize; KINDS.len()],
    /// Accepted and refused ones.
    globally: [[usize; 2]; OVER.len()],
    /// Times that a clause over groups held on a drifting run.
    pub held: usize,
    changed: [usize; WAYS.len()],
    let_through: [usize; WAYS.len()],
    broken: [usize; WAYS.len()],
}

/// Clauses over groups, until one is accepted: it has to be true of every run.
pub fn searched(random: &mut Random, tally: &mut Tally) -> (Triple, Outcome) {
    let mut world = tables::small(random, [4, 5, 2]);
    let count = random.range(1, 4);
    world.floor.groups = groups::some(random, world.floor.carts.len(), count);
    let mut tried = 1;
    loop {
        let clause = about_groups(random, &world);
        let triple = triple_of(random, &world, &clause);
        match tally.grouped.look(&world, &clause, &triple) {
            Ok(false) if tried < TRIES => tried += 1,
            looked => return (triple, looked.map(|_| ())),
        }
    }
}

fn about_groups(random: &mut Random, world: &World) -> Clause {
    let collection = world.collection();
    let mut clauses = Clauses::new(random, world, &collection);
    clauses.grouped = 90;
    match clauses.random.chance(50) {
        true => clauses.about_ors(),
        false => {
            let nodes = clauses.random.range(2, 9);
            clauses.clause(nodes)
        }
    }
}

impl Grouped {
    /// Whether the clause is over groups, accepted and searched, and then that no run breaks it.
    fn look(&mut self, world: &World, clause: &Clause, triple: &Triple) -> Result<bool, String> {
        let collection = world.collection();
        let broken = collection.broken_at(clause);
        let accepted = both(triple)? == Verdict::ACCEPTED;
        if accepted != broken.is_none() {
            return Err("judged otherwise once it is written".into());
        }
        self.clauses += 1;
        let read = Read::of(triple);
        let meaning = read.meaning(&read.clauses[0]);
        if temporal_nodes(&meaning).len() > 4 {
            return Ok(false);
        }
        let standings = Standings::of(&read.plan);
        let breaks = || some_run_breaks(&standings, &meaning);
        let changes = group_readings::changes(&collection, clause, broken);
        for (i, (changed, let_through)) in changes.into_iter().enumerate() {
            self.changed[i] += changed as usize;
            if changed && let_through && self.let_through[i] < MISREAD {
                self.let_through[i] += 1;
                self.broken[i] += breaks() as usize;
            }
        }
        if !accepted || clause.groups().is_empty() {
            return Ok(false);
        }
        if breaks() {
            return Err("accepted, but the search finds a run that breaks it".into());
        }
        smaller_drifts(triple)?;
        self.searched += 1;
        self.standings += standings.list.len();
        self.note_kinds(world, clause);
        Ok(true)
    }

    /// Counts what an accepted clause speaks of.
    fn note_kinds(&mut self, world: &World, clause: &Clause) {
        let collection = world.collection();
        let mut found = [false; KINDS.len()];
        collection.broken_by(clause, &mut |count| {
            if let (Some(_), carts) = (count.written.group, count.carts.len()) {
                found[kind(carts, collection.carts())] = true;
                found[3] |= count.written.percent;
                found[4] |= count.negated;
            }
            collection.count(count)
        });
        let apart = readings::broken_at(&collection, clause, Reading::Apart);
        found[5] = apart.is_some();
        for (count, found) in self.kinds.iter_mut().zip(found) {
            *count += found as usize;
        }
    }

    /// Counts a G over one count, which was found accepted or refused exactly.
    pub fn note_globally(&mut self, read: &Read, refused: bool) {
        for node in &read.clauses[0].nodes {
            if let Op::Count(threshold) = node.op {
                if let Some(group) = threshold.group {
                    let carts = read.floor.groups[group].count_ones() as usize;
                    let kind = kind(carts, read.floor.carts.len());
                    self.globally[kind][refused as usize] += 1;
                }
            }
        }
    }

    pub fn print(&self) {
        let kinds: Vec<String> = KINDS
            .iter()
            .zip(self.kinds)
            .map(|(kind, count)| format!("{kind} {count}"))
            .collect();
        println!(
            "groups on small plans: {} clauses; {} accepted and searched on {} standings, broken by none: {}; held on drifting runs {} times",
            self.clauses,
            self.searched,
            self.standings,
            kinds.join(", "),
            self.held
        );
        let globally: Vec<String> = OVER
            .iter()
            .zip(self.globally)
            .map(|(over, [kept, refused])| format!("{over} {kept} accepted, {refused} refused"))
            .collect();
        println!("G over one count of a group: {}", globally.join("; "));
        for (i, (_, name)) in WAYS.iter().enumerate() {
            println!(
                "verdicts changed by {name}: {}; a run breaks {} of {} let through so",
                self.changed[i], self.broken[i], self.let_through[i]
            );
        }
    }

    /// Whether a long run has met enough.
    pub fn enough(&self, cases: u64) -> bool {
        let counts = self.kinds.iter().chain(self.globally.as_flattened());
        let rare = |count: &usize| *count < LEAST_CHANGED;
        cases < LONG || counts.min() >= Some(&LEAST) && !self.changed.iter().any(rare)
    }
}

/// Of so many of all carts: none, some, all.
fn kind(carts: usize, all: usize) -> usize {
    match carts {
        0 => 0,
        carts if carts < all => 1,
        _ => 2,
    }
}
