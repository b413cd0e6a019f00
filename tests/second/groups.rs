//! Groups of carts, and counts over them.

use crate::clauses::Clauses;
use crate::formula::{Clause, Op};
use crate::random::Random;
use crate::sums::{written, Leaf};

pub const MOST_GROUPS: usize = 8;

/// Groups of a floor with so many carts: often none, now and then as many as there may be.
pub fn random(random: &mut Random, carts: usize) -> Vec<u32> {
    let (low, high) = [(0, 0), (1, 3), (4, 7), (8, 8)][random.weighted(&[50, 40, 7, 3])];
    let count = random.range(low, high);
    some(random, carts, count)
}

/// So many groups: no cart, all of them, one, all but one, some, or the carts of an earlier group again.
pub fn some(random: &mut Random, carts: usize, count: usize) -> Vec<u32> {
    let all = ((1u64 << carts) - 1) as u32;
    let mut groups = Vec::new();
    for _ in 0..count {
        let one = 1 << random.below(carts);
        let any = random.next() as u32;
        groups.push(match random.below(12) {
            0 => 0,
            1 | 2 => all,
            3 | 4 => one,
            5 | 6 => all & !one,
            7 | 8 if !groups.is_empty() => random.pick(&groups),
            _ => all & any,
        });
    }
    groups
}

impl Clauses<'_> {
    /// The group of a count, now and then.
    pub fn maybe_group(&mut self) -> Option<usize> {
        match self.collection.groups() {
            0 => None,
            _ if !self.random.chance(self.grouped) => None,
            groups => Some(self.random.below(groups)),
        }
    }

    /// Any group, or all carts.
    fn any_over(&mut self) -> Option<usize> {
        let groups = self.collection.groups();
        self.random.below(groups + 1).checked_sub(1)
    }

    /// Lets counts name groups that the floor lacks, so often in percent; whether one does.
    pub fn lacking_groups(&mut self, clause: &mut Clause, often: usize) -> bool {
        let have = self.collection.groups();
        let mut named = false;
        for node in &mut clause.nodes {
            if let Op::Count(threshold) = &mut node.op {
                if self.random.chance(often) {
                    let group = self.random.range(have, MOST_GROUPS - 1);
                    *threshold = threshold.over(Some(group));
                    named = true;
                }
            }
        }
        named
    }

    /// Lets the counts of an or be over groups, now and then: all over the same carts, named in one way or in any, all but one, or each over any.
    pub fn over_groups(&mut self, clause: &mut Clause, leaves: &[Leaf]) {
        let Some(first) = self.maybe_group().map(Some) else {
            return;
        };
        let same: Vec<Option<usize>> = (0..=self.collection.groups())
            .map(|i| i.checked_sub(1))
            .filter(|group| self.collection.over(*group) == self.collection.over(first))
            .collect();
        let way = self.random.below(10);
        let odd = self.random.below(leaves.len());
        for (i, (count, _)) in leaves.iter().enumerate() {
            let group = match way {
                0..=2 => first,
                3..=5 => self.random.pick(&same),
                6..=8 if i != odd => first,
                _ => self.any_over(),
            };
            let threshold = written(clause, *count).over(group);
            clause.nodes[*count].op = Op::Count(threshold);
        }
    }
}
