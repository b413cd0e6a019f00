//! Ors of counts, untils between them, and clauses about both.

use crate::clauses::Clauses;
use crate::formula::{Clause, Node, Op, Threshold};
use crate::sums::Leaf;

/// What stands before a part about ors.
const ONE: [Op; 5] = [
    Op::Not,
    Op::Finally,
    Op::Finally,
    Op::Globally,
    Op::Globally,
];

impl Clauses<'_> {
    /// An or of counts of exactly so many nodes, which is then negated or not.
    pub fn either(&mut self, clause: &mut Clause, nodes: usize) -> usize {
        let mut leaves = Vec::new();
        let root = self.or_of_counts(clause, nodes, false, &mut leaves);
        self.over_groups(clause, &leaves);
        let step = self.telling_step(clause, &leaves);
        self.join(clause, &leaves, step);
        root
    }

    /// An or of counts with something else among them, of exactly so many nodes, from 8 on: it is not joined as a whole.
    pub fn mixed(&mut self, clause: &mut Clause, nodes: usize) -> usize {
        let mut leaves = Vec::new();
        let share = self.random.range(2, nodes - 6);
        let left = self.or_of_counts(clause, share, false, &mut leaves);
        let right = self.or_of_counts(clause, nodes - 4 - share, false, &mut leaves);
        self.over_groups(clause, &leaves);
        let step = self.telling_step(clause, &leaves);
        self.join(clause, &leaves, step);
        let other = self.never(clause);
        let (first, second) = match self.random.chance(50) {
            true => (left, other),
            false => (other, left),
        };
        let part = clause.push(Op::Or, first, second);
        match self.random.chance(50) {
            true => clause.push(Op::Or, part, right),
            false => clause.push(Op::Or, right, part),
        }
    }

    /// Two nodes that are no count and never true.
    fn never(&mut self, clause: &mut Clause) -> usize {
        let constant = clause.push(Op::True, 0, 0);
        clause.push(Op::Not, constant, 0)
    }

    /// An until between ors of counts, of exactly so many nodes: its right side comes by itself somewhere.
    pub fn until_of_counts(&mut self, clause: &mut Clause, nodes: usize) -> usize {
        let written_release = nodes >= 6 && self.random.chance(40);
        let left_out = 1 + written_release as usize;
        let share = self.random.range(2, nodes - left_out - 2);
        let mut leaves = Vec::new();
        let left = self.or_of_counts(clause, share, written_release, &mut leaves);
        let own = leaves.len();
        let rest = nodes - left_out - share;
        let right = self.or_of_counts(clause, rest, written_release, &mut leaves);
        self.over_groups(clause, &leaves);
        let step = self.telling_step(clause, &leaves);
        let reached = self.random.below(self.collection.steps());
        self.join(clause, &leaves, step);
        if self.random.chance(70) {
            self.reach(clause, &leaves, own, [step, reached]);
        }
        if !written_release {
            return clause.push(Op::Until, left, right);
        }
        let release = clause.push(Op::Release, left, right);
        clause.push(Op::Not, release, 0)
    }

    /// A tree of so many nodes that is an or of counts once it is negated or not: `|` below an even number of negations, else `&`.
    fn or_of_counts(
        &mut self,
        clause: &mut Clause,
        nodes: usize,
        negated: bool,
        leaves: &mut Vec<Leaf>,
    ) -> usize {
        if nodes >= 3 && self.random.chance(20) {
            let part = self.or_of_counts(clause, nodes - 1, !negated, leaves);
            return clause.push(Op::Not, part, 0);
        }
        if nodes < 5 || nodes < 20 && self.random.chance(10) {
            let inner = self.inner_beside(clause, nodes - 1, leaves, negated);
            let count = clause.push(uncounted(), inner, 0);
            leaves.push((count, negated));
            return count;
        }
        // Chains to the left, as `a | b | c` is read, to the right, and other trees.
        let share = match self.random.below(3) {
            0 => nodes - 3,
            1 => 2,
            _ => self.random.range(2, nodes - 3),
        };
        let left = self.or_of_counts(clause, share, negated, leaves);
        let right = self.or_of_counts(clause, nodes - 1 - share, negated, leaves);
        clause.push(if negated { Op::And } else { Op::Or }, left, right)
    }

    /// An inner formula of so many nodes; now and then true where that of an earlier count is not, which both together always are.
    fn inner_beside(
        &mut self,
        clause: &mut Clause,
        nodes: usize,
        leaves: &[Leaf],
        negated: bool,
    ) -> usize {
        if nodes == 1 && self.random.chance(50) {
            let mark = self.marks[leaves.len() % self.marks.len()];
            return clause.push(Op::Mark(mark), 0, 0);
        }
        if leaves.is_empty() || !self.random.chance(35) {
            return self.inner(clause, nodes);
        }
        let (count, its) = self.random.pick(leaves);
        let inner = clause.nodes[count].left;
        let size = size(clause, inner);
        if its != negated && size == nodes {
            return copy(clause, inner);
        }
        if its == negated && size + 1 == nodes {
            let part = copy(clause, inner);
            return clause.push(Op::Not, part, 0);
        }
        self.inner(clause, nodes)
    }

    /// A short clause about ors of counts: alone, or below operators and beside others.
    pub fn about_ors(&mut self) -> Clause {
        let mut clause = Clause::default();
        let mut root = self.or_or_until(&mut clause);
        for _ in 0..self.random.pick(&[0, 0, 1, 1, 1, 2]) {
            root = match self.random.below(8) {
                0..=4 => {
                    let op = self.random.pick(&ONE);
                    clause.push(op, root, 0)
                }
                5 => {
                    let never = self.never(&mut clause);
                    self.beside(&mut clause, root, never)
                }
                _ => {
                    let other = self.or_or_until(&mut clause);
                    self.beside(&mut clause, root, other)
                }
            };
        }
        if self.random.chance(45) {
            root = clause.push(Op::Globally, root, 0);
        }
        clause.root = root;
        clause
    }

    fn or_or_until(&mut self, clause: &mut Clause) -> usize {
        let most = self.random.pick(&self.sizes);
        let nodes = self.random.range(5, most);
        match self.random.below(10) {
            0..=4 => self.either(clause, nodes),
            5 => self.mixed(clause, nodes + 3),
            6..=8 => self.until_of_counts(clause, nodes),
            _ => self.count(clause, 1),
        }
    }

    fn beside(&mut self, clause: &mut Clause, a: usize, b: usize) -> usize {
        let op = self
            .random
            .pick(&[Op::Or, Op::Or, Op::And, Op::Until, Op::Release]);
        match self.random.chance(50) {
            true => clause.push(op, a, b),
            false => clause.push(op, b, a),
        }
    }
}

/// A count that gets its number later.
pub fn uncounted() -> Op {
    Op::Count(Threshold::plain(0))
}

pub fn size(clause: &Clause, node: usize) -> usize {
    let Node { op, left, right } = clause.nodes[node];
    let operands = [left, right].into_iter().take(op.operands());
    1 + operands.map(|operand| size(clause, operand)).sum::<usize>()
}

/// The same formula once more.
pub fn copy(clause: &mut Clause, node: usize) -> usize {
    let Node { op, left, right } = clause.nodes[node];
    let left = match op.operands() {
        0 => 0,
        _ => copy(clause, left),
    };
    let right = match op.operands() {
        2 => copy(clause, right),
        _ => 0,
    };
    clause.push(op, left, right)
}
