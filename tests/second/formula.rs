//! Formulas: the clause of a line as a tree in one vector.

#[derive(Clone, Copy, Debug, PartialEq, Eq)]
pub enum Op {
    True,
    Mark(u32),
    Not,
    Next,
    Finally,
    Globally,
    And,
    Or,
    Until,
    Release,
    /// A temporal counting proposition; `left` is the inner formula.
    Count(Threshold),
}

/// The number of a count as written, and the group that it is over, if it names one.
#[derive(Clone, Copy, Debug, PartialEq, Eq)]
pub struct Threshold {
    pub number: u32,
    pub percent: bool,
    pub group: Option<usize>,
}

impl Threshold {
    pub fn plain(number: usize) -> Threshold {
        Threshold {
            number: number as u32,
            percent: false,
            group: None,
        }
    }

    pub fn share_of(number: usize) -> Threshold {
        Threshold {
            percent: true,
            ..Threshold::plain(number)
        }
    }

    /// The same over a group, or over all carts.
    pub fn over(self, group: Option<usize>) -> Threshold {
        Threshold { group, ..self }
    }

    /// The number of carts that is asked for, of so many that it is over: of a percentage the whole carts, and one more where at least
    /// half a cart is left.
    pub fn of(self, carts: usize) -> usize {
        if !self.percent {
            return self.number as usize;
        }
        let (whole, rest) = (self.share(carts) / 100, self.share(carts) % 100);
        if 2 * rest < 100 {
            whole
        } else {
            whole + 1
        }
    }

    /// A percentage of so many carts, in hundredths of a cart.
    pub fn share(self, carts: usize) -> usize {
        self.number as usize * carts
    }
}

/// An operator with its operands; one operand is `left`, and what isn't there is 0.
#[derive(Clone, Copy, Debug)]
pub struct Node {
    pub op: Op,
    pub left: usize,
    pub right: usize,
}

#[derive(Clone, Debug, Default)]
pub struct Clause {
    pub nodes: Vec<Node>,
    pub root: usize,
    /// The highest level of document 01 met while reading it.
    pub level: usize,
}

impl Op {
    pub fn operands(self) -> usize {
        match self {
            Op::True | Op::Mark(_) => 0,
            Op::And | Op::Or | Op::Until | Op::Release => 2,
            _ => 1,
        }
    }
}

impl Clause {
    pub fn push(&mut self, op: Op, left: usize, right: usize) -> usize {
        self.nodes.push(Node { op, left, right });
        self.nodes.len() - 1
    }

    /// Whether X stands outside a count at or below this node.
    pub fn next_outside(&self, node: usize) -> bool {
        let Node { op, left, right } = self.nodes[node];
        match op {
            Op::Next => true,
            Op::Count(_) => false,
            _ if op.operands() == 2 => self.next_outside(left) || self.next_outside(right),
            _ if op.operands() == 1 => self.next_outside(left),
            _ => false,
        }
    }

    /// The groups that its counts name, in the order of the text.
    pub fn groups(&self) -> Vec<usize> {
        let mut groups = Vec::new();
        self.collect_groups(self.root, &mut groups);
        groups
    }

    fn collect_groups(&self, node: usize, groups: &mut Vec<usize>) {
        let Node { op, left, right } = self.nodes[node];
        if let Op::Count(threshold) = op {
            groups.extend(threshold.group);
            return;
        }
        let operands = [left, right].into_iter().take(op.operands());
        operands.for_each(|operand| self.collect_groups(operand, groups));
    }

    /// Whether two trees are alike, however they are stored.
    pub fn same(&self, node: usize, other: &Clause, its: usize) -> bool {
        let (a, b) = (self.nodes[node], other.nodes[its]);
        a.op == b.op
            && (a.op.operands() < 1 || self.same(a.left, other, b.left))
            && (a.op.operands() < 2 || self.same(a.right, other, b.right))
    }
}
