//! Earley's recogniser for the rules of `grammar`: a second finder of the first wrong byte, slower
//! than the automaton, and with nothing in it but the rules.

use crate::grammar::{self, Part, Rule, Symbol};

/// A rule that is read up to `dot`, begun at offset `origin`.
#[derive(Clone, Copy)]
struct Item {
    rule: usize,
    dot: usize,
    origin: usize,
}

pub struct Earley {
    rules: Vec<Rule>,
    /// The items of each offset, one after the other, and where those of each offset begin.
    items: Vec<Item>,
    starts: Vec<usize>,
}

impl Earley {
    pub fn new() -> Earley {
        Earley {
            rules: grammar::rules(),
            items: Vec::new(),
            starts: Vec::new(),
        }
    }

    fn awaited(&self, item: Item) -> Option<Symbol> {
        self.rules[item.rule].symbols.get(item.dot).copied()
    }

    fn predict(&mut self, part: Part, offset: usize) {
        for (rule, _) in (0..).zip(&self.rules).filter(|(_, r)| r.part == part) {
            self.items.push(Item {
                rule,
                dot: 0,
                origin: offset,
            });
        }
    }

    /// Moves on every item that awaited at `origin` the part that is now complete.
    fn complete(&mut self, part: Part, origin: usize) {
        let end = self.starts.get(origin + 1).copied();
        for at in self.starts[origin]..end.unwrap_or(self.items.len()) {
            let item = self.items[at];
            if self.awaited(item) == Some(Symbol::Of(part)) {
                let dot = item.dot + 1;
                self.items.push(Item { dot, ..item });
            }
        }
    }

    /// Adds all items that follow from those at this offset; `predicted` are the parts whose rules
    /// are there already. No part is empty and no text has two readings, so that only prediction
    /// could give an item twice.
    fn close(&mut self, offset: usize, mut predicted: Vec<Part>) {
        let mut at = self.starts[offset];
        while at < self.items.len() {
            let item = self.items[at];
            match self.awaited(item) {
                Some(Symbol::Of(part)) if !predicted.contains(&part) => {
                    predicted.push(part);
                    self.predict(part, offset);
                }
                Some(_) => (),
                None => self.complete(self.rules[item.rule].part, item.origin),
            }
            at += 1;
        }
    }

    /// Begins the items behind the byte at `offset`, and says whether there are any.
    fn scan(&mut self, offset: usize, byte: u8) -> bool {
        let here = self.starts[offset]..self.items.len();
        self.starts.push(here.end);
        for at in here {
            let item = self.items[at];
            let dot = match self.awaited(item) {
                Some(Symbol::Token(_)) if byte == b' ' => item.dot,
                Some(Symbol::Token(set) | Symbol::Joined(set)) if set.contains(&byte) => {
                    item.dot + 1
                }
                _ => continue,
            };
            self.items.push(Item { dot, ..item });
        }
        self.items.len() > self.starts[offset + 1]
    }

    fn is_sheet(&self, item: Item) -> bool {
        self.rules[item.rule].part == Part::Sheet && self.awaited(item).is_none()
    }

    /// As `automaton::first_wrong`.
    pub fn first_wrong(&mut self, sheet: &[u8]) -> Option<usize> {
        self.items.clear();
        self.starts.clear();
        self.starts.push(0);
        self.predict(Part::Sheet, 0);
        self.close(0, vec![Part::Sheet]);
        for (offset, &byte) in sheet.iter().enumerate() {
            if !self.scan(offset, byte) {
                return Some(offset);
            }
            self.close(offset + 1, Vec::new());
        }
        let last = &self.items[self.starts[sheet.len()]..];
        let complete = last.iter().any(|&item| self.is_sheet(item));
        (!complete).then_some(sheet.len())
    }
}
