//! All runs of a small plan, tick by tick and without taking laps off: where its carts get into conflict.

use crate::floor::Floor;
use crate::plan::Plan;
use crate::run::spread;
use crate::traffic::Traffic;

/// The standings that were come to. A standing's number has its lowest counter and, digit by digit, how far each cart is ahead of it.
struct Known {
    base: usize,
    carts: u32,
    seen: Vec<bool>,
}

impl Known {
    /// Whether the standing is new.
    fn add(&mut self, standing: &[usize]) -> bool {
        let least = *standing.iter().min().unwrap();
        let ahead = standing.iter().map(|counter| counter - least);
        let digits = ahead.fold(0, |number, digit| number * self.base + digit);
        let number = least * self.base.pow(self.carts) + digits;
        !std::mem::replace(&mut self.seen[number], true)
    }
}

/// The lowest cart that some run brings into conflict, and its earliest counter in one.
pub fn lowest_conflict(plan: &Plan, floor: &Floor) -> Option<(usize, usize)> {
    if floor.narrow.is_empty() {
        return None;
    }
    // So late nothing is met for the first time: the hindmost cart has gone round twice.
    let end = plan.h + plan.d + 2 * (plan.h - plan.l);
    let carts = plan.rows.len() as u32;
    let base = plan.d + 1;
    let seen = vec![false; (end + 2) * base.pow(carts)];
    let mut known = Known { base, carts, seen };
    let mut traffic = Traffic::new(plan, floor);
    let mut open = vec![vec![0; plan.rows.len()]];
    known.add(&open[0]);
    while let Some(now) = open.pop() {
        for movers in 0..1 << now.len() {
            let moved = |n: usize| now[n] + (movers >> n & 1);
            let then: Vec<usize> = (0..now.len()).map(moved).collect();
            if spread(&then) > plan.d {
                continue;
            }
            traffic.look(&now, &then);
            if *then.iter().min().unwrap() <= end && known.add(&then) {
                open.push(then);
            }
        }
    }
    traffic.lowest()
}
