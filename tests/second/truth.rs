//! The meaning of clauses, by document 01's section on runs and document 002's semantics alone.

use crate::floor::Floor;
use crate::formula::{Clause, Node, Op};
use crate::plan::Plan;
use crate::run::Run;

/// A clause with the truth of its inner formulas on every cart's row.
pub struct Meaning<'a> {
    pub clause: &'a Clause,
    plan: &'a Plan,
    floor: &'a Floor,
    /// For each count's node: the steps of each cart at which the inner formula holds.
    counts: Vec<Vec<Vec<bool>>>,
}

impl<'a> Meaning<'a> {
    pub fn new(clause: &'a Clause, plan: &'a Plan, floor: &'a Floor) -> Meaning<'a> {
        let counts = vec![Vec::new(); clause.nodes.len()];
        let mut meaning = Meaning {
            clause,
            plan,
            floor,
            counts,
        };
        for (i, node) in clause.nodes.iter().enumerate() {
            if let Op::Count(_) = node.op {
                let carts = 0..plan.rows.len();
                meaning.counts[i] = carts.map(|n| meaning.inner(node.left, n)).collect();
            }
        }
        meaning
    }

    fn steps(&self, holds: impl Fn(usize) -> bool) -> Vec<bool> {
        (0..self.plan.h).map(holds).collect()
    }

    /// An inner formula from every step of one cart's row.
    fn inner(&self, node: usize, n: usize) -> Vec<bool> {
        let Node { op, left, right } = self.clause.nodes[node];
        if op.operands() == 0 {
            let row = &self.plan.rows[n];
            return match op {
                Op::Mark(mark) => {
                    self.steps(|t| self.floor.places[row[t] as usize] >> mark & 1 == 1)
                }
                _ => self.steps(|_| true),
            };
        }
        let a = self.inner(left, n);
        let b = if op.operands() == 2 {
            self.inner(right, n)
        } else {
            Vec::new()
        };
        match op {
            Op::Not => self.steps(|t| !a[t]),
            Op::And => self.steps(|t| a[t] && b[t]),
            Op::Or => self.steps(|t| a[t] || b[t]),
            Op::Next => self.steps(|t| a[self.plan.step(t + 1)]),
            Op::Until => self.steps(|t| self.reached(t, |u| a[u], |u| b[u])),
            Op::Finally => self.steps(|t| self.reached(t, |_| true, |u| a[u])),
            Op::Globally => self.steps(|t| !self.reached(t, |_| true, |u| !a[u])),
            _ => self.steps(|t| !self.reached(t, |u| !a[u], |u| !b[u])),
        }
    }

    /// Until on counters: no step is new after h of them.
    fn reached(&self, from: usize, a: impl Fn(usize) -> bool, b: impl Fn(usize) -> bool) -> bool {
        let mut steps = (from..from + self.plan.h).map(|v| self.plan.step(v));
        steps.find(|u| b(*u) || !a(*u)).is_some_and(b)
    }

    /// Whether a count holds at a standing: by the carts of its group alone, as in section VI B.
    pub fn count(&self, node: usize, standing: &[usize]) -> bool {
        let Op::Count(threshold) = self.clause.nodes[node].op else {
            unreachable!("no count")
        };
        let counted = |n: &usize| match threshold.group {
            None => true,
            Some(group) => self.floor.groups[group] & 1 << n != 0,
        };
        let carts = || (0..standing.len()).filter(counted);
        let holds = |n: &usize| self.counts[node][*n][self.plan.step(standing[*n])];
        carts().filter(holds).count() >= threshold.of(carts().count())
    }

    /// A formula outside counts at every moment of a run.
    pub fn on_run(&self, node: usize, run: &Run) -> Vec<bool> {
        let Node { op, left, right } = self.clause.nodes[node];
        let moments = 0..run.moments.len();
        let part = |operand| self.on_run(operand, run);
        let always = vec![true; run.moments.len()];
        match op {
            Op::True => always,
            Op::Count(_) => run.moments.iter().map(|s| self.count(node, s)).collect(),
            Op::Not => negated(&part(left)),
            Op::Next => {
                let a = part(left);
                moments.map(|t| a[run.next(t)]).collect()
            }
            Op::And | Op::Or => {
                let (a, b) = (part(left), part(right));
                let either = |t: usize| {
                    if op == Op::And {
                        a[t] && b[t]
                    } else {
                        a[t] || b[t]
                    }
                };
                moments.map(either).collect()
            }
            Op::Until => until(run, &part(left), &part(right)),
            Op::Finally => until(run, &always, &part(left)),
            Op::Globally => negated(&until(run, &always, &negated(&part(left)))),
            Op::Release => negated(&until(run, &negated(&part(left)), &negated(&part(right)))),
            Op::Mark(_) => unreachable!("a mark outside a count"),
        }
    }
}

fn negated(values: &[bool]) -> Vec<bool> {
    values.iter().map(|value| !value).collect()
}

/// Where b comes with a at every moment before it: found backwards, twice round the repeated part.
fn until(run: &Run, a: &[bool], b: &[bool]) -> Vec<bool> {
    let mut holds = vec![false; a.len()];
    for _ in 0..2 {
        for t in (0..a.len()).rev() {
            holds[t] = b[t] || a[t] && holds[run.next(t)];
        }
    }
    holds
}
