//! Nodes and nesting level of the clause that is being read, token by token.

use crate::tokens::Kind;

/// What adds to the nesting level.
#[derive(Clone, Copy, PartialEq, Eq, Debug)]
pub enum Open {
    Parenthesis,
    Count,
    /// A prefix operator that awaits its operand.
    Prefix,
    /// U or R that awaits the end of its right side.
    Until,
}

#[derive(Default)]
pub struct Clause {
    nodes: usize,
    open: Vec<Open>,
}

impl Clause {
    pub fn nodes(&self) -> usize {
        self.nodes
    }

    pub fn level(&self) -> usize {
        self.open.len()
    }

    /// What the last token opened, if it is one that opens.
    pub fn innermost(&self) -> Option<Open> {
        self.open.last().copied()
    }

    fn end(&mut self, what: Open) {
        while self.open.last() == Some(&what) {
            self.open.pop();
        }
    }

    /// Ends the parenthesis or count, which with its prefix operators is a complete operand.
    fn close(&mut self) {
        self.end(Open::Until);
        self.open.pop();
        self.end(Open::Prefix);
    }

    /// Takes a token that the grammar allows here.
    pub fn take(&mut self, kind: Kind) {
        match kind {
            Kind::True | Kind::Mark => {
                self.nodes += 1;
                self.end(Open::Prefix);
            }
            Kind::Number | Kind::Percentage | Kind::Group => (),
            Kind::Sign(b'(') => self.open.push(Open::Parenthesis),
            Kind::Sign(b')' | b']') => self.close(),
            Kind::Sign(b',') => self.end(Open::Until),
            Kind::Sign(b'[') => {
                self.nodes += 1;
                self.open.push(Open::Count);
            }
            Kind::Sign(b'U' | b'R') => {
                self.nodes += 1;
                self.open.push(Open::Until);
            }
            Kind::Sign(b'&' | b'|') => {
                self.nodes += 1;
                self.end(Open::Until);
            }
            Kind::Sign(b'!' | b'X' | b'F' | b'G') => {
                self.nodes += 1;
                self.open.push(Open::Prefix);
            }
            Kind::Sign(b'\n') => *self = Clause::default(),
            Kind::Sign(other) => panic!("the grammar has no byte {other}"),
        }
    }
}
