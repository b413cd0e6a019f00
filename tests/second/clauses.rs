//! Random clauses with thresholds close to what the rows make of them.

use crate::formula::{Clause, Op, Threshold};
use crate::logic::Collection;
use crate::random::Random;
use crate::world::World;

pub struct Clauses<'a> {
    pub random: &'a mut Random,
    pub collection: &'a Collection,
    pub marks: &'a [u32],
    /// Whether X may stand outside a count.
    pub next_outside: bool,
    /// How often a part is an or of counts or an until between such ors, in percent, and the most nodes of one where it is asked for.
    pub joined: usize,
    pub sizes: [usize; 4],
    /// How often a count, or an or of counts, is over groups of the floor, in percent.
    pub grouped: usize,
    /// The least number of nodes of a clause.
    pub least: usize,
}

pub const UNARY: [Op; 4] = [Op::Not, Op::Finally, Op::Globally, Op::Next];
pub const BINARY: [Op; 4] = [Op::And, Op::Or, Op::Until, Op::Release];

impl<'a> Clauses<'a> {
    pub fn new(random: &'a mut Random, world: &'a World, collection: &'a Collection) -> Self {
        Clauses {
            random,
            collection,
            marks: &world.marks,
            next_outside: false,
            joined: 15,
            sizes: [11; 4],
            grouped: 50,
            least: 1,
        }
    }

    /// A clause of exactly so many nodes.
    pub fn clause(&mut self, nodes: usize) -> Clause {
        let mut clause = Clause::default();
        clause.root = if nodes > 2 && self.random.chance(35) {
            let body = self.outer(&mut clause, nodes - 1);
            let op = self.random.pick(&[Op::Globally, Op::Globally, Op::Finally]);
            clause.push(op, body, 0)
        } else {
            self.outer(&mut clause, nodes)
        };
        clause
    }

    /// A number of nodes: mostly few, at times as many as there may be.
    pub fn nodes(&mut self) -> usize {
        let (low, high) =
            [(2, 8), (9, 20), (21, 60), (61, 128)][self.random.weighted(&[62, 26, 9, 3])];
        self.random.range(low, high).max(self.least)
    }

    /// A part outside counts of so many nodes.
    pub fn outer(&mut self, clause: &mut Clause, nodes: usize) -> usize {
        if nodes >= 5 && self.random.chance(self.joined) {
            return match self.random.below(10) {
                0 if nodes >= 8 => self.mixed(clause, nodes),
                0..=6 => self.either(clause, nodes),
                _ => self.until_of_counts(clause, nodes),
            };
        }
        let count = match nodes {
            1 => return clause.push(Op::True, 0, 0),
            2 => 95,
            3..=5 => 50,
            6..=8 => 25,
            9..=12 => 10,
            _ => 2,
        };
        if self.random.chance(count) {
            return self.count(clause, nodes - 1);
        }
        let unary = if self.next_outside {
            &UNARY
        } else {
            &UNARY[..3]
        };
        let op = self.operator(unary, nodes);
        self.operands(clause, nodes, op, Clauses::outer)
    }

    /// A part within a count of so many nodes.
    pub fn inner(&mut self, clause: &mut Clause, nodes: usize) -> usize {
        if nodes == 1 {
            let op = match self.random.below(20) {
                0 => Op::True,
                1 => Op::Mark(self.random.below(32) as u32),
                _ => Op::Mark(self.random.pick(self.marks)),
            };
            return clause.push(op, 0, 0);
        }
        let op = self.operator(&UNARY, nodes);
        self.operands(clause, nodes, op, Clauses::inner)
    }

    fn operator(&mut self, unary: &[Op], nodes: usize) -> Op {
        if nodes == 2 || self.random.chance(if nodes < 10 { 45 } else { 10 }) {
            self.random.pick(unary)
        } else {
            self.random.pick(&BINARY)
        }
    }

    /// An operator over operands that share the other nodes.
    fn operands(
        &mut self,
        clause: &mut Clause,
        nodes: usize,
        op: Op,
        part: fn(&mut Self, &mut Clause, usize) -> usize,
    ) -> usize {
        if op.operands() == 1 {
            let operand = part(self, clause, nodes - 1);
            return clause.push(op, operand, 0);
        }
        let share = self.random.range(1, nodes - 2);
        let left = part(self, clause, share);
        let right = part(self, clause, nodes - 1 - share);
        clause.push(op, left, right)
    }

    /// A count over an inner formula of so many nodes.
    pub fn count(&mut self, clause: &mut Clause, nodes: usize) -> usize {
        let inner = self.inner(clause, nodes);
        self.counted(clause, inner)
    }

    /// A count over this inner formula.
    pub fn counted(&mut self, clause: &mut Clause, inner: usize) -> usize {
        let group = self.maybe_group();
        let threshold = self.threshold(clause, inner, group).over(group);
        clause.push(Op::Count(threshold), inner, 0)
    }

    fn threshold(&mut self, clause: &Clause, inner: usize, group: Option<usize>) -> Threshold {
        let over = self.collection.over(group);
        let number = match self.random.below(20) {
            0 => self.random.below(1000),
            1 => self.random.below(over.len() + 2),
            2 | 3 => 1,
            4 => over.len(),
            _ => self.telling(clause, inner, &over),
        };
        if number <= over.len() && self.random.chance(35) {
            return self.percentage(number, over.len());
        }
        Threshold::plain(number)
    }

    /// A number at which the count over these carts, or its negation, just turns at some step.
    fn telling(&mut self, clause: &Clause, inner: usize, over: &[usize]) -> usize {
        let negated = self.random.chance(40);
        let step = self.random.below(self.collection.steps());
        let holds = |&&n: &&usize| {
            let mut z = self.collection.z(clause, inner, n);
            z.iter_mut().for_each(|value| *value ^= negated);
            self.collection.r(&z)[step]
        };
        let robust = over.iter().filter(holds).count();
        let number = if negated {
            over.len() + 1 - robust
        } else {
            robust
        };
        (number + self.random.pick(&[1, 1, 1, 0, 2])).saturating_sub(1)
    }

    /// A percentage of so many carts beside the half at which this number is reached: the lowest that gives it, the one below, or the nearest of those
    /// that leave half a cart over; now and then any.
    fn percentage(&mut self, number: usize, carts: usize) -> Threshold {
        let percent = Threshold::share_of;
        let reaches = |p: &usize| percent(*p).of(carts) >= number;
        let lowest = (0..=100).find(reaches).expect("all of the carts");
        let halves = (0..=100).filter(|p| percent(*p).share(carts) % 100 == 50);
        let half = halves.min_by_key(|p| p.abs_diff(lowest));
        percent(match self.random.below(20) {
            0 => self.random.below(101),
            1..=4 => half.unwrap_or(lowest),
            5..=11 => lowest.saturating_sub(1),
            _ => lowest,
        })
    }
}
