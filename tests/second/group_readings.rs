//! Groups read otherwise than document 02 has them, so that the verdicts can be counted that tell these readings apart.

use crate::formula::Clause;
use crate::logic::{same_carts, Collection, Count, Pnf, Row};
use crate::runs::Read;
use crate::verdict::Refusal;

#[derive(Clone, Copy, PartialEq)]
pub enum Reading {
    Ignored,
    ShareOfFleet,
    NegatedInFleet,
    AllOfGroup,
    AllOfFleet,
    AllUnnamed,
    JoinedApart,
    JoinedAcross,
    JoinedByFirst,
    JoinedByNumber,
    JoinedUnnamed,
    JoinedInFleet,
}

/// All of them, with what is counted.
pub const WAYS: [(Reading, &str); 12] = [
    (Reading::Ignored, "groups ignored"),
    (Reading::ShareOfFleet, "a percentage of all carts"),
    (Reading::NegatedInFleet, "a negation by all carts"),
    (Reading::AllOfGroup, "the all-carts case for any group"),
    (Reading::AllOfFleet, "the same if all carts satisfy it"),
    (Reading::AllUnnamed, "the all-carts case without @ alone"),
    (Reading::JoinedApart, "different groups joined"),
    (Reading::JoinedAcross, "the same, whoever is in which"),
    (Reading::JoinedByFirst, "the same over the first's carts"),
    (Reading::JoinedByNumber, "groups joined by their numbers"),
    (Reading::JoinedUnnamed, "counts joined without @ alone"),
    (
        Reading::JoinedInFleet,
        "a group's counts joined for all carts",
    ),
];

/// For each reading whether it changes what is said of a clause, and whether it is let through then.
pub fn changes(
    collection: &Collection,
    clause: &Clause,
    broken: Option<usize>,
) -> [(bool, bool); WAYS.len()] {
    if clause.groups().is_empty() {
        return [(false, false); WAYS.len()];
    }
    WAYS.map(|(reading, _)| {
        let other = broken_at(collection, clause, reading);
        (other != broken, other.is_none())
    })
}

/// Which readings would change what is said of one of these clauses.
pub fn ways(collection: &Collection, clauses: &[Clause]) -> [bool; WAYS.len()] {
    let mut ways = [false; WAYS.len()];
    for clause in clauses {
        let broken = collection.broken_at(clause);
        for (way, (found, _)) in ways.iter_mut().zip(changes(collection, clause, broken)) {
            *way |= found;
        }
    }
    ways
}

/// As `Collection::broken_at`, by another reading.
fn broken_at(collection: &Collection, clause: &Clause, reading: Reading) -> Option<usize> {
    let judge = Judge {
        collection,
        reading,
    };
    let mut pnf = collection.pnf(clause, clause.root, false);
    judge.recount(&mut pnf);
    collection.broken_as(clause, &pnf, &mut |count| judge.count(count), &|counts| {
        judge.joined(counts)
    })
}

struct Judge<'a> {
    collection: &'a Collection,
    reading: Reading,
}

impl Judge<'_> {
    /// Gives each count the carts and the number that the reading has for it.
    fn recount(&self, pnf: &mut Pnf) {
        match pnf {
            Pnf::Constant(_) => {}
            Pnf::Count(count) => self.misread(count),
            Pnf::Next(one) => self.recount(one),
            Pnf::And(_, both) | Pnf::Or(_, both) | Pnf::Until(_, both) | Pnf::Release(both) => {
                both.iter_mut().for_each(|part| self.recount(part));
            }
        }
    }

    fn misread(&self, count: &mut Count) {
        let fleet = self.collection.carts();
        if self.reading == Reading::Ignored {
            count.carts = self.collection.over(None);
        }
        let own = count.carts.len();
        let share_of = match self.reading {
            Reading::ShareOfFleet => fleet,
            _ => own,
        };
        let of = match self.reading {
            Reading::NegatedInFleet => fleet,
            _ => own,
        };
        count.m = match (count.written.of(share_of), count.negated) {
            (m, true) => (of + 1).saturating_sub(m),
            (m, false) => m,
        };
    }

    fn count(&self, count: &Count) -> Row {
        let this = self.collection;
        let sums = this.sums(count);
        let all = match self.reading {
            Reading::AllOfGroup => this.row(|t| count.carts.iter().all(|n| count.z[*n][t])),
            Reading::AllOfFleet => this.row(|t| count.z.iter().all(|z| z[t])),
            Reading::AllUnnamed if count.written.group.is_some() => this.row(|_| false),
            _ => return this.enough(count, &sums),
        };
        this.row(|t| sums[t] >= count.m || count.m == 1 && all[t])
    }

    fn joined(&self, counts: &[&Count]) -> Row {
        let this = self.collection;
        let named = |count: &&Count| count.written.group.is_some();
        let first = counts[0];
        let other_number = |count: &&Count| count.written.group != first.written.group;
        match self.reading {
            Reading::JoinedApart => self.each_in_its_own(counts),
            Reading::JoinedAcross => this.joined_over(counts, &any_of(this, counts)),
            Reading::JoinedByFirst => this.joined_over(counts, &first.carts),
            Reading::JoinedByNumber if counts.iter().any(other_number) => this.row(|_| false),
            Reading::JoinedUnnamed if counts.iter().any(named) => this.row(|_| false),
            Reading::JoinedInFleet if same_carts(counts).is_some() => {
                this.joined_over(counts, &this.over(None))
            }
            _ => this.joined(counts),
        }
    }

    /// The sum of equation 25 where a cart satisfies the texts of those counts alone that it is counted by.
    fn each_in_its_own(&self, counts: &[&Count]) -> Row {
        let this = self.collection;
        let bound: isize = counts.iter().map(|count| count.m as isize - 1).sum();
        let mut sum_r = [0; 64];
        for n in any_of(this, counts) {
            let own = || counts.iter().filter(|count| count.carts.contains(&n));
            let r = this.r(&this.row(|t| own().any(|count| count.z[n][t])));
            (0..this.steps()).for_each(|t| sum_r[t] += r[t] as isize);
        }
        this.row(|t| sum_r[t] > bound)
    }
}

/// The carts that any of these counts is over.
fn any_of(collection: &Collection, counts: &[&Count]) -> Vec<usize> {
    let counted = |n: &usize| counts.iter().any(|count| count.carts.contains(n));
    (0..collection.carts()).filter(counted).collect()
}

/// What is counted of sheets that name a group which the floor lacks: readings that give another answer.
pub const ORDERS: [&str; 8] = [
    "an empty group in its place: accepted",
    "all carts in its place: accepted",
    "16 before 21",
    "21 where the clauses before it are true alone",
    "the last clause with one",
    "a clause's last one",
    "its lowest one",
    "its highest one",
];

/// Which of them give another answer than this 21.
pub fn orders(read: &mut Read, refused: Refusal) -> [bool; ORDERS.len()] {
    let Refusal(_, clause, group) = refused;
    let have = read.floor.groups.len();
    let lacking = |clause: &Clause| -> Vec<usize> {
        let groups = clause.groups().into_iter();
        groups.filter(|group| *group >= have).collect()
    };
    let own = lacking(&read.clauses[clause]);
    let later = &read.clauses[clause + 1..];
    let next_outside = |clause: &Clause| clause.next_outside(clause.root);
    let collection = Collection::new(&read.floor, &read.plan);
    let mut orders = [
        false,
        false,
        read.plan.d > 0 && read.clauses.iter().any(next_outside),
        collection.check(&read.clauses[..clause]).is_err(),
        later.iter().any(|clause| !lacking(clause).is_empty()),
        own.last() != Some(&group),
        own.iter().min() != Some(&group),
        own.iter().max() != Some(&group),
    ];
    let all = ((1u64 << read.floor.carts.len()) - 1) as u32;
    for (order, carts) in orders.iter_mut().zip([0, all]) {
        read.floor.groups.resize(have, 0);
        read.floor.groups.resize(8, carts);
        let filled = Collection::new(&read.floor, &read.plan);
        *order = filled.check(&read.clauses).is_ok();
    }
    orders
}
