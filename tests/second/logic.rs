//! Clauses judged by the encodings of document 002: z, r and y variables over the steps, loops by z_loop.
//!
//! Where documents 01 and 02 narrow them: the window of equation 22 includes step s + d; an or is equation 25 if all it is
//! made of, through nested ors, are counts, and each of these nested ors is one itself; an or of anything else is equation 26
//! and is not rewritten. Equation 25 is only for counts over the same carts, and equation 24 only for those over all carts.

use crate::floor::Floor;
use crate::formula::{Clause, Node, Op, Threshold};
use crate::plan::Plan;
use crate::running::{self, Way};
use crate::verdict::Refusal;

/// One Boolean variable for each step; those from h on are not used.
pub type Row = [bool; 64];

/// The trajectories of all carts in prefix-suffix form.
pub struct Collection {
    h: usize,
    d: usize,
    /// Equation 5c: one step alone, to which the loop goes back.
    z_loop: Row,
    /// The step on each counter up to h + d.
    step: Vec<usize>,
    /// The trace of each cart (definition 2).
    traces: Vec<Vec<u32>>,
    /// The carts of each group.
    groups: Vec<Vec<usize>>,
    /// A wrong way to find windows, if one is tried.
    way: Option<Way>,
}

/// A clause in positive normal form (equation 21), with False for a negated True.
pub enum Pnf {
    Constant(bool),
    Count(Count),
    /// These three with the operator as written, which says nothing of them.
    And(Op, Box<[Pnf; 2]>),
    Or(Op, Box<[Pnf; 2]>),
    Until(Op, Box<[Pnf; 2]>),
    Next(Box<Pnf>),
    Release(Box<[Pnf; 2]>),
}

/// A temporal counting proposition: z of its inner formula for each cart, the carts that it is over, and how many of them it asks for.
pub struct Count {
    pub z: Vec<Row>,
    pub carts: Vec<usize>,
    pub m: usize,
    /// As it is written, and whether it is negated.
    pub written: Threshold,
    pub negated: bool,
    /// The mark that is its whole inner formula, and whether that is negated.
    pub lone: Option<(u32, bool)>,
}

impl Pnf {
    /// The tcps of equation 25, if the formula is one or an or of nothing else.
    pub fn counts(&self) -> Option<Vec<&Count>> {
        match self {
            Pnf::Count(count) => Some(vec![count]),
            Pnf::Or(_, both) => {
                let [mut counts, more] = [both[0].counts()?, both[1].counts()?];
                counts.extend(more);
                Some(counts)
            }
            _ => None,
        }
    }
}

impl Collection {
    pub fn new(floor: &Floor, plan: &Plan) -> Collection {
        let mut z_loop = [false; 64];
        z_loop[plan.l] = true;
        let label = |place: &u8| floor.places[*place as usize];
        let trace = |row: &Vec<u8>| row.iter().map(label).collect();
        Collection {
            h: plan.h,
            d: plan.d,
            z_loop,
            step: (0..plan.h + plan.d).map(|v| plan.step(v)).collect(),
            traces: plan.rows.iter().map(trace).collect(),
            groups: floor.groups.iter().map(|group| carts_of(*group)).collect(),
            way: None,
        }
    }

    /// The same with windows found in a wrong way.
    pub fn misread(self, way: Way) -> Collection {
        Collection {
            way: Some(way),
            ..self
        }
    }

    pub fn drift(&self) -> usize {
        self.d
    }

    pub fn carts(&self) -> usize {
        self.traces.len()
    }

    pub fn groups(&self) -> usize {
        self.groups.len()
    }

    /// The carts that a count is over: those of its group, which the floor has, or all.
    pub fn over(&self, group: Option<usize>) -> Vec<usize> {
        match group {
            None => (0..self.carts()).collect(),
            Some(group) => self.groups[group].clone(),
        }
    }

    pub fn steps(&self) -> usize {
        self.h
    }

    pub fn row(&self, value: impl Fn(usize) -> bool) -> Row {
        let mut row = [false; 64];
        for t in 0..self.h {
            row[t] = value(t);
        }
        row
    }

    /// The or over all t of z_loop(t) and x(t).
    fn looped(&self, x: &Row) -> bool {
        (0..self.h).any(|t| self.z_loop[t] && x[t])
    }

    /// z of an inner formula for cart n: equations 6 to 11.
    pub fn z(&self, clause: &Clause, node: usize, n: usize) -> Row {
        let Node { op, left, right } = clause.nodes[node];
        let z = |operand| self.z(clause, operand, n);
        match op {
            Op::True => self.row(|_| true),
            Op::Mark(a) => self.row(|t| self.traces[n][t] >> a & 1 == 1),
            Op::Not => self.not(&z(left)),
            Op::And => self.and(&z(left), &z(right)),
            Op::Or => self.or(&z(left), &z(right)),
            Op::Next => self.next(&z(left)),
            Op::Until => self.until(&z(left), &z(right)),
            Op::Finally => self.finally(&z(left)),
            Op::Globally => self.not(&self.finally(&self.not(&z(left)))),
            Op::Release => self.not(&self.until(&self.not(&z(left)), &self.not(&z(right)))),
            Op::Count(_) => unreachable!("a count within a count"),
        }
    }

    fn not(&self, x: &Row) -> Row {
        self.row(|t| !x[t])
    }

    pub fn and(&self, a: &Row, b: &Row) -> Row {
        self.row(|t| a[t] && b[t])
    }

    pub fn or(&self, a: &Row, b: &Row) -> Row {
        self.row(|t| a[t] || b[t])
    }

    /// Equation 10.
    pub fn next(&self, x: &Row) -> Row {
        self.row(|t| {
            if t + 1 < self.h {
                x[t + 1]
            } else {
                self.looped(x)
            }
        })
    }

    /// Equation 11.
    pub fn until(&self, a: &Row, b: &Row) -> Row {
        let last = self.h - 1;
        let mut auxiliary = [false; 64];
        auxiliary[last] = b[last];
        for t in (0..last).rev() {
            auxiliary[t] = b[t] || a[t] && auxiliary[t + 1];
        }
        let mut z = [false; 64];
        z[last] = b[last] || a[last] && self.looped(&auxiliary);
        for t in (0..last).rev() {
            z[t] = b[t] || a[t] && z[t + 1];
        }
        z
    }

    /// F a is true U a.
    fn finally(&self, a: &Row) -> Row {
        self.until(&self.row(|_| true), a)
    }

    /// Equation 27: `either` is y of "a or b".
    fn robust_until(&self, either: &Row, b: &Row) -> Row {
        let last = self.h - 1;
        let mut auxiliary = [false; 64];
        auxiliary[last] = b[last];
        for t in (0..last).rev() {
            auxiliary[t] = either[t] && (b[t] || auxiliary[t + 1]);
        }
        let mut y = [false; 64];
        y[last] = either[last] && (b[last] || self.looped(&auxiliary));
        for t in (0..last).rev() {
            y[t] = either[t] && (b[t] || y[t + 1]);
        }
        y
    }

    /// Equation 28.
    pub fn release(&self, a: &Row, b: &Row) -> Row {
        let last = self.h - 1;
        let mut auxiliary = [false; 64];
        auxiliary[last] = b[last];
        for t in (0..last).rev() {
            auxiliary[t] = b[t] && (a[t] || auxiliary[t + 1]);
        }
        let mut y = [false; 64];
        y[last] = b[last] && (a[last] || self.looped(&auxiliary));
        for t in (0..last).rev() {
            y[t] = b[t] && (a[t] || y[t + 1]);
        }
        y
    }

    /// r: equation 22.
    pub fn r(&self, z: &Row) -> Row {
        if self.way.is_none() {
            return self.r_within(z, self.d);
        }
        let l = self.z_loop.iter().position(|first| *first);
        running::windows(&z[..self.h], l.expect("a lap"), self.d, self.way)
    }

    pub fn r_within(&self, z: &Row, d: usize) -> Row {
        self.row(|t| (0..=d).all(|k| z[self.step[t + k]]))
    }

    /// y of a clause in positive normal form.
    pub fn y(&self, pnf: &Pnf) -> Row {
        self.y_by(pnf, &mut |count| self.count(count), &|counts| {
            self.joined(counts)
        })
    }

    /// The same with these rows for its counts, and for counts that are joined.
    fn y_by(
        &self,
        pnf: &Pnf,
        counted: &mut dyn FnMut(&Count) -> Row,
        joined: &dyn Fn(&[&Count]) -> Row,
    ) -> Row {
        let mut two =
            |both: &[Pnf; 2]| both.each_ref().map(|part| self.y_by(part, counted, joined));
        match pnf {
            Pnf::Constant(value) => self.row(|_| *value),
            Pnf::Count(count) => counted(count),
            Pnf::And(_, both) => {
                let [a, b] = two(both);
                self.and(&a, &b)
            }
            Pnf::Or(_, both) => self.either(both, &two(both), joined),
            Pnf::Next(one) => self.next(&self.y_by(one, counted, joined)),
            Pnf::Until(_, both) => {
                let y = two(both);
                self.robust_until(&self.either(both, &y, joined), &y[1])
            }
            Pnf::Release(both) => {
                let [a, b] = two(both);
                self.release(&a, &b)
            }
        }
    }

    /// Equation 36, which is 23 over the count's own carts, and equation 24.
    pub fn count(&self, count: &Count) -> Row {
        self.enough(count, &self.sums(count))
    }

    /// The sum of r over the count's carts, at each step.
    pub fn sums(&self, count: &Count) -> [usize; 64] {
        let mut sums = [0; 64];
        for n in &count.carts {
            let r = self.r(&count.z[*n]);
            (0..self.h).for_each(|t| sums[t] += r[t] as usize);
        }
        sums
    }

    /// Whether such sums are enough, or z of all carts is: the hindmost has to be one that is counted.
    pub fn enough(&self, count: &Count, sums: &[usize; 64]) -> Row {
        let whole_fleet = count.carts.len() == self.carts();
        let all = |t: usize| whole_fleet && count.z.iter().all(|z| z[t]);
        self.row(|t| sums[t] >= count.m || count.m == 1 && all(t))
    }

    /// Equation 25 or 26 for "a or b", from y of the two.
    fn either(&self, both: &[Pnf; 2], [a, b]: &[Row; 2], joined: &dyn Fn(&[&Count]) -> Row) -> Row {
        let alone = self.or(a, b);
        let [Some(mut counts), Some(more)] = both.each_ref().map(Pnf::counts) else {
            return alone;
        };
        counts.extend(more);
        self.or(&alone, &joined(&counts))
    }

    /// The sum of equation 25; nowhere enough if the counts are not all over the same carts.
    pub fn joined(&self, counts: &[&Count]) -> Row {
        match same_carts(counts) {
            Some(carts) => self.joined_over(counts, carts),
            None => self.row(|_| false),
        }
    }

    /// That sum over these carts.
    pub fn joined_over(&self, counts: &[&Count], carts: &[usize]) -> Row {
        let bound: isize = counts.iter().map(|count| count.m as isize - 1).sum();
        let mut sum_r = [0; 64];
        for &n in carts {
            let z = self.row(|t| counts.iter().any(|count| count.z[n][t]));
            let r = self.r(&z);
            for t in 0..self.h {
                sum_r[t] += r[t] as isize;
            }
        }
        self.row(|t| sum_r[t] > bound)
    }

    /// Remark 2: negations driven inward down to the counts, where N + 1 - m takes over, N being the carts that a count is over.
    pub fn pnf(&self, clause: &Clause, node: usize, negate: bool) -> Pnf {
        let Node { op, left, right } = clause.nodes[node];
        let one = |operand| self.pnf(clause, operand, negate);
        let both = || Box::new([one(left), one(right)]);
        let lone = |value: bool| Box::new([Pnf::Constant(value), one(left)]);
        match (op, negate) {
            (Op::True, _) => Pnf::Constant(!negate),
            (Op::Count(_), _) => Pnf::Count(self.counted(clause, node, negate)),
            (Op::Not, _) => self.pnf(clause, left, !negate),
            (Op::Next, _) => Pnf::Next(Box::new(one(left))),
            (Op::And, false) | (Op::Or, true) => Pnf::And(op, both()),
            (Op::Or, false) | (Op::And, true) => Pnf::Or(op, both()),
            (Op::Until, false) | (Op::Release, true) => Pnf::Until(op, both()),
            (Op::Release, false) | (Op::Until, true) => Pnf::Release(both()),
            (Op::Finally, false) | (Op::Globally, true) => Pnf::Until(op, lone(true)),
            (Op::Globally, false) | (Op::Finally, true) => Pnf::Release(lone(false)),
            (Op::Mark(_), _) => unreachable!("a mark outside a count"),
        }
    }

    fn counted(&self, clause: &Clause, node: usize, negated: bool) -> Count {
        let Node { op, left, .. } = clause.nodes[node];
        let Op::Count(threshold) = op else {
            unreachable!("no count")
        };
        let of_cart = |n: usize| {
            let z = self.z(clause, left, n);
            if negated {
                self.not(&z)
            } else {
                z
            }
        };
        let carts = self.over(threshold.group);
        let m = threshold.of(carts.len());
        let lone = match clause.nodes[left].op {
            Op::Mark(mark) => Some((mark, negated)),
            _ => None,
        };
        Count {
            lone,
            z: (0..self.carts()).map(of_cart).collect(),
            m: if negated {
                (carts.len() + 1).saturating_sub(m)
            } else {
                m
            },
            carts,
            written: threshold,
            negated,
        }
    }

    /// None if the clause is true at step 0, else the step of its refusal.
    pub fn broken_at(&self, clause: &Clause) -> Option<usize> {
        self.broken_by(clause, &mut |count| self.count(count))
    }

    /// The same with these rows for its counts.
    pub fn broken_by(
        &self,
        clause: &Clause,
        counted: &mut dyn FnMut(&Count) -> Row,
    ) -> Option<usize> {
        let pnf = self.pnf(clause, clause.root, false);
        self.broken_as(clause, &pnf, counted, &|counts| self.joined(counts))
    }

    /// The same of this positive normal form, with these rows for joined counts too.
    pub fn broken_as(
        &self,
        clause: &Clause,
        pnf: &Pnf,
        counted: &mut dyn FnMut(&Count) -> Row,
        joined: &dyn Fn(&[&Count]) -> Row,
    ) -> Option<usize> {
        if self.y_by(pnf, counted, joined)[0] {
            return None;
        }
        let body = match pnf {
            Pnf::Release(both) if clause.nodes[clause.root].op == Op::Globally => &both[1],
            _ => return Some(0),
        };
        let body = self.y_by(body, counted, joined);
        Some((0..self.h).find(|t| !body[*t]).expect("a body that fails"))
    }

    /// Refusals 21, 16 and 17.
    pub fn check(&self, clauses: &[Clause]) -> Result<(), Refusal> {
        for (i, clause) in clauses.iter().enumerate() {
            let lacking = |group: &usize| *group >= self.groups.len();
            if let Some(group) = clause.groups().into_iter().find(lacking) {
                return Err(Refusal(21, i, group));
            }
        }
        let next_outside = |c: &Clause| c.next_outside(c.root);
        if let (true, Some(i)) = (self.d > 0, clauses.iter().position(next_outside)) {
            return Err(Refusal(16, i, 0));
        }
        for (i, clause) in clauses.iter().enumerate() {
            if let Some(step) = self.broken_at(clause) {
                return Err(Refusal(17, i, step));
            }
        }
        Ok(())
    }
}

/// The carts that all of these counts are over.
pub fn same_carts<'a>(counts: &[&'a Count]) -> Option<&'a [usize]> {
    let carts = &counts.first()?.carts;
    let same = counts.iter().all(|count| count.carts == *carts);
    same.then_some(carts)
}

/// The carts of a group by its bits.
fn carts_of(group: u32) -> Vec<usize> {
    (0..32).filter(|n| group >> n & 1 == 1).collect()
}
