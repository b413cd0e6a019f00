//! Clauses that joined counts let through: small plans on all their runs.

use crate::clauses::Clauses;
use crate::compare::{both, smaller_drifts};
use crate::damage::Triple;
use crate::formula::Clause;
use crate::random::Random;
use crate::readings::{self, Reading, WAYS};
use crate::runs::{Outcome, Read, Tally};
use crate::search::{some_run_breaks, temporal_nodes};
use crate::small::triple_of;
use crate::standings::Standings;
use crate::tables;
use crate::verdict::Verdict;
use crate::world::World;

/// A run of so many cases has to search so many clauses that only joined counts let through, and each misreading has to change so many
/// verdicts.
const LONG: u64 = 40_000;
const LEAST: usize = 10_000;
const LEAST_CHANGED: usize = 100;

/// So many clauses are tried for one that only joined counts let through.
const TRIES: usize = 14;

/// So many clauses that a misreading lets through are searched.
const MISREAD: usize = 200;

/// What was looked at.
#[derive(Default)]
pub struct Joined {
    clauses: usize,
    accepted: usize,
    let_through: usize,
    standings: usize,
    smaller: usize,
    changed: [usize; WAYS.len()],
    searched: [usize; WAYS.len()],
    broken: [usize; WAYS.len()],
}

/// Clauses about ors of counts, until one is let through that would not have been before: it has to be true of every run.
pub fn searched(random: &mut Random, tally: &mut Tally) -> (Triple, Outcome) {
    let mut world = tables::small(random, [4, 5, 2]);
    for _ in 1..TRIES {
        let clause = Clauses::new(random, &world, &world.collection()).about_ors();
        let triple = triple_of(random, &world, &clause);
        match tally.joined.look(&mut world, &clause, &triple) {
            Ok(false) => {}
            Ok(true) => return (triple, Ok(())),
            Err(text) => return (triple, Err(text)),
        }
    }
    let clause = Clauses::new(random, &world, &world.collection()).about_ors();
    let triple = triple_of(random, &world, &clause);
    let outcome = tally.joined.look(&mut world, &clause, &triple);
    let outcome = outcome.and_then(|_| both(&triple)).map(|_| ());
    (triple, outcome)
}

impl Joined {
    /// Whether the clause is let through only by joined counts, and then that no run breaks it.
    fn look(
        &mut self,
        world: &mut World,
        clause: &Clause,
        triple: &Triple,
    ) -> Result<bool, String> {
        let collection = world.collection();
        let broken = collection.broken_at(clause);
        let before = readings::broken_at(&collection, clause, Reading::Apart);
        if broken.is_some() && before.is_none() {
            return Err("refused only by the new rules".into());
        }
        self.clauses += 1;
        self.accepted += broken.is_none() as usize;
        self.smaller += with_smaller_drifts(world, clause, broken.is_none())?;
        self.misread(world, clause, triple, broken);
        if broken.is_some() || before.is_none() {
            return Ok(false);
        }
        self.search(triple)
    }

    /// A clause that only joined counts let through; false if it is too long for the search.
    fn search(&mut self, triple: &Triple) -> Result<bool, String> {
        let verdict = both(triple)?;
        if verdict != Verdict::ACCEPTED {
            return Err(format!("{verdict}, but its clause is true"));
        }
        let read = Read::of(triple);
        let meaning = read.meaning(&read.clauses[0]);
        if temporal_nodes(&meaning).len() > 4 {
            return Ok(false);
        }
        let standings = Standings::of(&read.plan);
        if some_run_breaks(&standings, &meaning) {
            return Err("let through by joined counts, but a run breaks it".into());
        }
        smaller_drifts(triple)?;
        self.let_through += 1;
        self.standings += standings.list.len();
        Ok(true)
    }

    /// Counts the misreadings that change the verdict, and the runs that break what they let through.
    fn misread(&mut self, world: &World, clause: &Clause, triple: &Triple, broken: Option<usize>) {
        let changes = readings::changes(&world.collection(), clause, broken);
        for (i, (changed, accepted)) in changes.into_iter().enumerate() {
            self.changed[i] += changed as usize;
            if changed && accepted && self.searched[i] < MISREAD {
                let read = Read::of(triple);
                let meaning = read.meaning(&read.clauses[0]);
                if temporal_nodes(&meaning).len() <= 4 {
                    self.searched[i] += 1;
                    let breaks = some_run_breaks(&Standings::of(&read.plan), &meaning);
                    self.broken[i] += breaks as usize;
                }
            }
        }
    }

    pub fn print(&self) {
        println!(
            "ors of counts on small plans: {} clauses, {} accepted; {} only since counts are joined, on {} standings, broken by none",
            self.clauses, self.accepted, self.let_through, self.standings
        );
        println!(
            "the accepted ones with smaller drifts, all accepted: {}; at drift 0 all judged as before",
            self.smaller
        );
        for (i, (_, name)) in WAYS.iter().enumerate() {
            println!(
                "verdicts changed by {name}: {}; a run breaks {} of {} let through so",
                self.changed[i], self.broken[i], self.searched[i]
            );
        }
    }

    /// Whether a long run has met enough.
    pub fn enough(&self, cases: u64) -> bool {
        let rare = |count: &usize| *count < LEAST_CHANGED;
        cases < LONG || self.let_through >= LEAST && !self.changed.iter().any(rare)
    }
}

/// An accepted clause is accepted with every smaller drift, and at drift 0 each clause is judged as before; the number of drifts.
fn with_smaller_drifts(
    world: &mut World,
    clause: &Clause,
    accepted: bool,
) -> Result<usize, String> {
    let d = world.plan.d;
    let mut told = Ok(d * accepted as usize);
    for smaller in 0..d {
        world.plan.d = smaller;
        let collection = world.collection();
        let broken = collection.broken_at(clause);
        if accepted && broken.is_some() {
            told = Err(format!("accepted at drift {d}, but not at {smaller}"));
        }
        if smaller == 0 && broken != readings::broken_at(&collection, clause, Reading::Apart) {
            told = Err("judged otherwise at drift 0".into());
        }
    }
    world.plan.d = d;
    told
}
