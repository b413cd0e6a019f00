//! Clauses written out, with spaces and needless parentheses as chance has it.

use crate::formula::{Clause, Node, Op};
use crate::random::Random;

pub struct Printer<'a> {
    pub random: &'a mut Random,
    /// How often a token has a space before it, and an operand needless parentheses, in percent.
    pub spaces: usize,
    pub parens: usize,
    text: Vec<u8>,
}

/// How tightly a formula holds together: or 1, and 2, until 3, smallest parts 4.
fn binds(op: Op) -> u32 {
    match op {
        Op::Or => 1,
        Op::And => 2,
        Op::Until | Op::Release => 3,
        _ => 4,
    }
}

fn symbol(op: Op) -> &'static str {
    match op {
        Op::True => "true",
        Op::Not => "!",
        Op::Next => "X",
        Op::Finally => "F",
        Op::Globally => "G",
        Op::And => "&",
        Op::Or => "|",
        Op::Until => "U",
        Op::Release => "R",
        Op::Mark(_) | Op::Count(_) => unreachable!("not a fixed word"),
    }
}

impl<'a> Printer<'a> {
    pub fn new(random: &'a mut Random) -> Printer<'a> {
        let spaces = random.pick(&[0, 10, 50]);
        let parens = random.pick(&[0, 0, 5, 20]);
        let text = Vec::new();
        Printer {
            random,
            spaces,
            parens,
            text,
        }
    }

    /// The clause's line with its byte 10.
    pub fn line(&mut self, clause: &Clause) -> Vec<u8> {
        self.text.clear();
        self.formula(clause, clause.root, 1);
        self.token("\n");
        self.text.clone()
    }

    fn token(&mut self, token: &str) {
        while self.random.chance(self.spaces) {
            self.text.push(b' ');
        }
        self.text.extend(token.as_bytes());
    }

    fn formula(&mut self, clause: &Clause, node: usize, least: u32) {
        let op = clause.nodes[node].op;
        if binds(op) < least || self.random.chance(self.parens) {
            self.token("(");
            self.bare(clause, node);
            self.token(")");
        } else {
            self.bare(clause, node);
        }
    }

    fn bare(&mut self, clause: &Clause, node: usize) {
        let Node { op, left, .. } = clause.nodes[node];
        match op {
            Op::Mark(mark) => self.token(&format!("m{mark}")),
            Op::Count(threshold) => {
                self.token("[");
                self.formula(clause, left, 1);
                self.token(",");
                let percent = if threshold.percent { "%" } else { "" };
                self.token(&format!("{}{percent}", threshold.number));
                if let Some(group) = threshold.group {
                    self.token(&format!("@{group}"));
                }
                self.token("]");
            }
            _ if op.operands() == 2 => self.binary(clause, clause.nodes[node]),
            _ if op.operands() == 1 => {
                self.token(symbol(op));
                self.formula(clause, left, 4);
            }
            _ => self.token(symbol(op)),
        }
    }

    /// Until-chains group to the right, the others to the left.
    fn binary(&mut self, clause: &Clause, node: Node) {
        let own = binds(node.op);
        let right = own == 3;
        self.formula(clause, node.left, own + right as u32);
        self.token(symbol(node.op));
        self.formula(clause, node.right, own + !right as u32);
    }
}
