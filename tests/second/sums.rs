//! Numbers for the counts of an or: about where these are just enough if they are joined.

use crate::clauses::Clauses;
use crate::formula::{Clause, Op, Threshold};
use crate::logic::Row;

/// A count's node, and whether it is negated once negations are driven inward.
pub type Leaf = (usize, bool);

impl Clauses<'_> {
    /// The step at which the counts are just enough: the first, that with the fewest carts, or any.
    pub fn telling_step(&mut self, clause: &Clause, leaves: &[Leaf]) -> usize {
        let steps = self.collection.steps();
        match self.random.below(5) {
            0 => self.random.below(steps),
            1 | 2 => 0,
            _ => {
                let together = self.together(&self.zs(clause, leaves));
                let carts = |step: &usize| self.robust(&together, *step);
                (0..steps).min_by_key(carts).expect("a step")
            }
        }
    }

    /// Gives the counts numbers with which they are, as a rule, not enough by themselves at a step, and just enough together or just not.
    pub fn join(&mut self, clause: &mut Clause, leaves: &[Leaf], step: usize) {
        let zs = self.zs(clause, leaves);
        let mut less_one: Vec<usize> = zs.iter().map(|z| self.robust(z, step)).collect();
        // The counts that are joined: all of them or some in a row, the others far off.
        let (from, end) = self.some_in_a_row(leaves.len());
        let together = self.together(&zs[from..end]);
        let joined = self.robust(&together, step);
        let all_here = together.iter().all(|z| z[step]);
        let short = self.random.pick(&[1, 1, 1, 1, 0, 0, 2]);
        let own: usize = less_one[from..end].iter().sum();
        for _ in own + short..joined {
            let to = self.random.range(from, end - 1);
            less_one[to] += 1;
        }
        // One cart each, which all carts together would be if they were one count.
        let ones = if all_here && joined == 0 { 60 } else { 3 };
        if self.random.chance(ones) {
            less_one.fill(0);
        }
        for (i, leaf) in leaves.iter().enumerate() {
            let far = (i < from || i >= end) && self.random.chance(60);
            let m = less_one[i] + 1 + far as usize * self.random.below(3);
            self.ask_for(clause, *leaf, m);
        }
    }

    /// A part of a list, often all of it.
    fn some_in_a_row(&mut self, len: usize) -> (usize, usize) {
        if len < 3 || self.random.chance(60) {
            return (0, len);
        }
        let from = self.random.below(len - 1);
        (from, self.random.range(from + 2, len))
    }

    /// Gives a count of an until's right side a number with which it is true at one step, and one of the left side what is left at another.
    pub fn reach(&mut self, clause: &mut Clause, leaves: &[Leaf], own: usize, steps: [usize; 2]) {
        let [step, reached] = steps;
        let right = leaves[self.random.range(own, leaves.len() - 1)];
        let z = self.z_of(clause, right);
        let m = self.robust(&z, reached).max(1);
        self.ask_for(clause, right, m);
        let left = leaves[self.random.below(own)];
        let joined = self.robust(&self.together(&self.zs(clause, leaves)), step);
        let others = leaves.iter().filter(|leaf| leaf.0 != left.0);
        let others: usize = others
            .map(|leaf| self.asked_for(clause, *leaf).saturating_sub(1))
            .sum();
        let m = joined.saturating_sub(others).max(1);
        self.ask_for(clause, left, m);
    }

    fn zs(&self, clause: &Clause, leaves: &[Leaf]) -> Vec<Vec<Row>> {
        leaves.iter().map(|leaf| self.z_of(clause, *leaf)).collect()
    }

    /// z of the or of inner formulas, for each cart.
    fn together(&self, zs: &[Vec<Row>]) -> Vec<Row> {
        let any = |n: usize| self.collection.row(|t| zs.iter().any(|z| z[n][t]));
        (0..self.collection.carts()).map(any).collect()
    }

    /// z of a count's inner formula, or of its negation, for each cart; of one outside its group it is nowhere true.
    fn z_of(&self, clause: &Clause, (count, negated): Leaf) -> Vec<Row> {
        let inner = clause.nodes[count].left;
        let over = self.collection.over(written(clause, count).group);
        let of_cart = |n: usize| {
            let z = self.collection.z(clause, inner, n);
            let counted = over.contains(&n);
            self.collection.row(|t| counted && z[t] != negated)
        };
        (0..self.collection.carts()).map(of_cart).collect()
    }

    /// How many carts satisfy a formula throughout the window at a step.
    fn robust(&self, z: &[Row], step: usize) -> usize {
        z.iter().filter(|z| self.collection.r(z)[step]).count()
    }

    fn asked_for(&self, clause: &Clause, (count, negated): Leaf) -> usize {
        let threshold = written(clause, count);
        let carts = self.collection.over(threshold.group).len();
        match threshold.of(carts) {
            m if negated => (carts + 1).saturating_sub(m),
            m => m,
        }
    }

    /// Lets a count, or its negation, ask for so many carts; now and then as a percentage.
    fn ask_for(&mut self, clause: &mut Clause, (count, negated): Leaf, m: usize) {
        let group = written(clause, count).group;
        let carts = self.collection.over(group).len();
        let number = match negated {
            true => (carts + 1).saturating_sub(m),
            false => m,
        };
        let percent = Threshold::share_of;
        let share = (0..=100).find(|p| percent(*p).of(carts) == number);
        let threshold = match share {
            Some(share) if self.random.chance(15) => percent(share),
            _ => Threshold::plain(number),
        };
        clause.nodes[count].op = Op::Count(threshold.over(group));
    }
}

/// What stands behind a count's comma.
pub fn written(clause: &Clause, count: usize) -> Threshold {
    match clause.nodes[count].op {
        Op::Count(threshold) => threshold,
        _ => unreachable!("no count"),
    }
}
