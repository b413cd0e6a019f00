//! What document 02 forbids in narrow places, looked for at the moments and in the ticks of a run.

use crate::floor::Floor;
use crate::plan::Plan;

/// The conflicts met so far.
pub struct Traffic<'a> {
    plan: &'a Plan,
    narrow: Vec<bool>,
    /// For each cart the lowest counter at which it was in one.
    earliest: Vec<Option<usize>>,
}

impl<'a> Traffic<'a> {
    pub fn new(plan: &'a Plan, floor: &Floor) -> Traffic<'a> {
        let places = 0..floor.places.len();
        Traffic {
            plan,
            narrow: places
                .map(|place| floor.narrow.contains(&(place as u8)))
                .collect(),
            earliest: vec![None; plan.rows.len()],
        }
    }

    fn place(&self, cart: usize, counter: usize) -> usize {
        self.plan.rows[cart][self.plan.step(counter)] as usize
    }

    fn note(&mut self, cart: usize, counter: usize) {
        let earlier = self.earliest[cart].map_or(counter, |other| other.min(counter));
        self.earliest[cart] = Some(earlier);
    }

    /// Looks at a moment and the tick after it: two carts in one narrow place, or exchanged between two.
    pub fn look(&mut self, now: &[usize], then: &[usize]) {
        let mut inside: Vec<(usize, usize)> = Vec::new();
        for b in 0..now.len() {
            let from = self.place(b, now[b]);
            if !self.narrow[from] {
                continue;
            }
            for &(a, other) in &inside {
                let exchanged =
                    || self.place(a, then[a]) == from && self.place(b, then[b]) == other;
                if from == other || exchanged() {
                    self.note(a, now[a]);
                    self.note(b, now[b]);
                }
            }
            inside.push((b, from));
        }
    }

    /// The lowest cart that was in conflict, and its earliest counter in one.
    pub fn lowest(&self) -> Option<(usize, usize)> {
        let mut carts = self.earliest.iter().enumerate();
        carts.find_map(|(cart, counter)| counter.map(|v| (cart, v)))
    }
}
