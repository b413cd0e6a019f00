//! Ors and untils read otherwise than by equations 25 and 27: by the rules before them, and by ways to misread them, so that the
//! verdicts can be counted that tell these apart.

use crate::formula::{Clause, Op};
use crate::logic::{same_carts, Collection, Count, Pnf, Row};

#[derive(Clone, Copy, PartialEq)]
pub enum Reading {
    /// Equations 26 and 11 alone.
    Apart,
    AtLeast,
    ShortWindow,
    AllCarts,
    WholeChain,
    Subsets,
    Mixed,
    OneText,
    AndWrittenOr,
    OrWrittenAnd,
    AskAlone,
    AskWrittenRelease,
    NeverReached,
    ReleaseAsks,
    StepApart,
}

/// All of them, with what is counted.
pub const WAYS: [(Reading, &str); 15] = [
    (Reading::Apart, "no or of counts joined"),
    (Reading::AtLeast, "at least for more than"),
    (Reading::ShortWindow, "a window one counter short"),
    (Reading::AllCarts, "the all-carts case for joined counts"),
    (Reading::WholeChain, "nested ors not joined by themselves"),
    (Reading::Subsets, "any counts of an or joined"),
    (Reading::Mixed, "the counts of a mixed or joined"),
    (Reading::OneText, "one inner text for the whole window"),
    (Reading::AndWrittenOr, "an and joined that is written |"),
    (Reading::OrWrittenAnd, "an or not joined that is written &"),
    (Reading::AskAlone, "an until that asks for its left side"),
    (Reading::AskWrittenRelease, "the same where it is written R"),
    (
        Reading::NeverReached,
        "a joined until without its right side",
    ),
    (Reading::ReleaseAsks, "a release with the until's ask"),
    (Reading::StepApart, "the step of 17 by the old rules"),
];

/// Subsets of longer lists are too many.
const MOST_SUBSETS: usize = 8;

/// As `Collection::broken_at`, by another reading.
pub fn broken_at(collection: &Collection, clause: &Clause, reading: Reading) -> Option<usize> {
    let pnf = collection.pnf(clause, clause.root, false);
    Judge::new(collection, reading).broken_at(clause, &pnf)
}

/// Which readings would change what is said of one of these clauses.
pub fn ways(collection: &Collection, clauses: &[Clause]) -> [bool; WAYS.len()] {
    let mut ways = [false; WAYS.len()];
    for clause in clauses {
        let broken = collection.broken_at(clause);
        for (way, (found, _)) in ways.iter_mut().zip(changes(collection, clause, broken)) {
            *way |= found;
        }
    }
    ways
}

/// For each reading whether it changes what is said of a clause, and whether it is let through then.
pub fn changes(
    collection: &Collection,
    clause: &Clause,
    broken: Option<usize>,
) -> [(bool, bool); WAYS.len()] {
    let pnf = collection.pnf(clause, clause.root, false);
    if collection.drift() == 0 || !speaks_of_either(&pnf) {
        return [(false, false); WAYS.len()];
    }
    WAYS.map(|(reading, _)| {
        let other = Judge::new(collection, reading).broken_at(clause, &pnf);
        (other != broken, other.is_none())
    })
}

/// Whether there is an or, or an until of two sides: else all readings agree.
fn speaks_of_either(pnf: &Pnf) -> bool {
    match pnf {
        Pnf::Constant(_) | Pnf::Count(_) => false,
        Pnf::Next(one) => speaks_of_either(one),
        Pnf::Or(..) => true,
        Pnf::And(op, both) | Pnf::Until(op, both) => {
            matches!(op, Op::Or | Op::Until | Op::Release) || both.iter().any(speaks_of_either)
        }
        Pnf::Release(both) => {
            !matches!(both[0], Pnf::Constant(_)) || both.iter().any(speaks_of_either)
        }
    }
}

struct Judge<'a> {
    collection: &'a Collection,
    reading: Reading,
}

impl<'a> Judge<'a> {
    fn new(collection: &'a Collection, reading: Reading) -> Judge<'a> {
        Judge {
            collection,
            reading,
        }
    }

    fn broken_at(&self, clause: &Clause, pnf: &Pnf) -> Option<usize> {
        let whole = match self.reading {
            Reading::StepApart => self.collection.y(pnf),
            _ => self.y(pnf),
        };
        if whole[0] {
            return None;
        }
        let body = match pnf {
            Pnf::Release(both) if clause.nodes[clause.root].op == Op::Globally => self.y(&both[1]),
            _ => return Some(0),
        };
        let steps = 0..self.collection.steps();
        steps.into_iter().find(|t| !body[*t])
    }

    fn y(&self, pnf: &Pnf) -> Row {
        let this = self.collection;
        let two = |both: &[Pnf; 2]| both.each_ref().map(|part| self.y(part));
        match pnf {
            Pnf::Constant(value) => this.row(|_| *value),
            Pnf::Count(count) => this.count(count),
            Pnf::And(op, both) => {
                let [a, b] = two(both);
                let y = this.and(&a, &b);
                match self.reading {
                    Reading::AndWrittenOr if *op == Op::Or => this.or(&y, &self.joined(both)),
                    _ => y,
                }
            }
            Pnf::Or(op, both) => self.either(*op, both, &two(both)),
            Pnf::Next(one) => this.next(&self.y(one)),
            Pnf::Until(op, both) => self.until(*op, both, &two(both)),
            Pnf::Release(both) => {
                let [a, b] = two(both);
                match self.reading {
                    Reading::ReleaseAsks => this.release(&a, &self.either(Op::Or, both, &[a, b])),
                    _ => this.release(&a, &b),
                }
            }
        }
    }

    fn either(&self, op: Op, both: &[Pnf; 2], [a, b]: &[Row; 2]) -> Row {
        let this = self.collection;
        match (self.reading, self.counts(both)) {
            (Reading::Apart | Reading::StepApart, _) => this.or(a, b),
            (Reading::OrWrittenAnd, _) if op == Op::And => this.or(a, b),
            (Reading::WholeChain, Some(counts)) => {
                let alone = counts.iter().map(|count| this.count(count));
                alone.fold(self.joined(both), |all, one| this.or(&all, &one))
            }
            _ => this.or(&this.or(a, b), &self.joined(both)),
        }
    }

    fn until(&self, op: Op, both: &[Pnf; 2], y: &[Row; 2]) -> Row {
        let this = self.collection;
        let alone = match self.reading {
            Reading::AskAlone => true,
            Reading::AskWrittenRelease => op == Op::Release,
            _ => false,
        };
        if alone {
            return this.until(&y[0], &y[1]);
        }
        let ask = self.either(Op::Or, both, y);
        if self.reading == Reading::NeverReached && self.counts(both).is_some() {
            return this.release(&y[1], &ask);
        }
        this.until(&ask, &y[1])
    }

    fn counts<'b>(&self, both: &'b [Pnf; 2]) -> Option<Vec<&'b Count>> {
        let mut counts = Vec::new();
        for part in both {
            match self.reading {
                Reading::Mixed => among(part, &mut counts),
                _ => counts.extend(part.counts()?),
            }
        }
        Some(counts)
    }

    /// Where the counts of the two are enough if they are joined.
    fn joined(&self, both: &[Pnf; 2]) -> Row {
        let this = self.collection;
        let Some(counts) = self.counts(both) else {
            return this.row(|_| false);
        };
        match self.reading {
            Reading::Subsets if counts.len() <= MOST_SUBSETS => {
                let subsets = (1..1 << counts.len()).map(|subset: usize| {
                    let chosen = counts.iter().enumerate();
                    let chosen = chosen.filter(|(i, _)| subset >> i & 1 == 1);
                    let chosen: Vec<&Count> = chosen.map(|(_, count)| *count).collect();
                    this.joined(&chosen)
                });
                subsets.fold(this.row(|_| false), |all, one| this.or(&all, &one))
            }
            Reading::AtLeast | Reading::ShortWindow | Reading::AllCarts | Reading::OneText => {
                self.misjoined(&counts)
            }
            _ => this.joined(&counts),
        }
    }

    fn misjoined(&self, counts: &[&Count]) -> Row {
        let this = self.collection;
        let Some(carts) = same_carts(counts) else {
            return this.row(|_| false);
        };
        let bound: isize = counts.iter().map(|count| count.m as isize - 1).sum();
        let mut sum_z = [0; 64];
        let mut sum_r = [0; 64];
        for &n in carts {
            let z = this.row(|t| counts.iter().any(|count| count.z[n][t]));
            let r = match self.reading {
                Reading::ShortWindow => this.r_within(&z, this.drift() - 1),
                Reading::OneText => {
                    let own: Vec<Row> = counts.iter().map(|count| this.r(&count.z[n])).collect();
                    this.row(|t| own.iter().any(|r| r[t]))
                }
                _ => this.r(&z),
            };
            for t in 0..this.steps() {
                sum_z[t] += z[t] as usize;
                sum_r[t] += r[t] as isize;
            }
        }
        match self.reading {
            Reading::AtLeast => this.row(|t| sum_r[t] >= bound),
            Reading::AllCarts if counts.iter().all(|count| count.m == 1) => {
                this.row(|t| sum_r[t] > bound || sum_z[t] == carts.len())
            }
            _ => this.row(|t| sum_r[t] > bound),
        }
    }
}

/// The counts of an or, whatever else is in it.
fn among<'b>(pnf: &'b Pnf, counts: &mut Vec<&'b Count>) {
    match pnf {
        Pnf::Count(count) => counts.push(count),
        Pnf::Or(_, both) => both.iter().for_each(|part| among(part, counts)),
        _ => {}
    }
}
