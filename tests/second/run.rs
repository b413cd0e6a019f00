//! Runs that come back to an earlier standing: collective executions (definitions 3 to 5) as a finite
//! stretch of moments whose end is repeated for ever.

use crate::floor::Floor;
use crate::plan::Plan;
use crate::random::Random;
use crate::traffic::Traffic;

/// The counters of all carts at each moment. After the last moment the standing is that of moment
/// `back`, each counter grown by the same number of whole laps.
pub struct Run {
    pub moments: Vec<Vec<usize>>,
    pub back: usize,
    /// How much each counter has grown then.
    pub growth: usize,
}

impl Run {
    /// Every cart moves in every tick.
    pub fn in_step(plan: &Plan) -> Run {
        let carts = plan.rows.len();
        Run {
            moments: (0..plan.h).map(|t| vec![t; carts]).collect(),
            back: plan.l,
            growth: plan.h - plan.l,
        }
    }

    pub fn random(random: &mut Random, plan: &Plan) -> Run {
        let mut run = Run {
            moments: vec![vec![0; plan.rows.len()]],
            back: 0,
            growth: 0,
        };
        let goal = plan.l + random.below(plan.h);
        run.drift(random, plan.d, goal);
        run.back = run.moments.len() - 1;
        let lap = plan.h - plan.l;
        let stretch = random.range(1, 3 * lap + plan.d);
        run.drift(random, plan.d, goal + stretch);
        run.close(plan);
        assert!(run.keeps(plan.d), "not a run");
        run
    }

    pub fn next(&self, moment: usize) -> usize {
        if moment + 1 < self.moments.len() {
            moment + 1
        } else {
            self.back
        }
    }

    /// Goes on at random until every counter has reached a goal.
    fn drift(&mut self, random: &mut Random, d: usize, goal: usize) {
        while self.last().iter().any(|counter| *counter < goal) {
            let chances = phase(random, self.last().len());
            for _ in 0..random.range(1, 2 * d + 2) {
                let wishes = chances
                    .iter()
                    .map(|chance| random.chance(*chance))
                    .collect();
                self.tick(wishes, d);
            }
        }
    }

    fn last(&self) -> &[usize] {
        &self.moments[self.moments.len() - 1]
    }

    /// Each cart that wishes so moves, unless it would get too far ahead.
    fn tick(&mut self, wishes: Vec<bool>, d: usize) {
        let wished = |(n, counter): (usize, &usize)| counter + wishes[n] as usize;
        let least = self.last().iter().enumerate().map(wished).min().unwrap();
        let moved = |(n, counter)| {
            let grown = wished((n, counter));
            if grown > least + d {
                *counter
            } else {
                grown
            }
        };
        let next = self.last().iter().enumerate().map(moved).collect();
        self.moments.push(next);
    }

    /// Brings every cart whole laps on from where it was at moment `back`; those behind go first.
    fn close(&mut self, plan: &Plan) {
        let lap = plan.h - plan.l;
        let at_back = self.moments[self.back].clone();
        let behind = self
            .last()
            .iter()
            .zip(&at_back)
            .map(|(now, then)| now - then);
        let laps = behind.max().unwrap().div_ceil(lap).max(1);
        self.growth = laps * lap;
        let target = self.come_back();
        while self.last() != target {
            let open = |n: &usize| self.last()[*n] < target[*n];
            let all = 0..target.len();
            let least = all.clone().filter(open).map(|n| self.last()[n]).min();
            let goes = |n: usize| self.last()[n] < target[n] && Some(self.last()[n]) == least;
            let wishes = all.map(goes).collect();
            self.tick(wishes, plan.d);
        }
        self.moments.pop();
    }

    /// The standing after the last moment.
    fn come_back(&self) -> Vec<usize> {
        let then = self.moments[self.back].iter();
        then.map(|counter| counter + self.growth).collect()
    }

    /// The lowest cart in conflict on this run, and its earliest counter in one.
    pub fn lowest_conflict(&self, plan: &Plan, floor: &Floor) -> Option<(usize, usize)> {
        let mut traffic = Traffic::new(plan, floor);
        let end = self.come_back();
        let then = self.moments[1..].iter().chain([&end]);
        for (now, then) in self.moments.iter().zip(then) {
            traffic.look(now, then);
        }
        traffic.lowest()
    }

    /// The greatest distance of two counters.
    pub fn spread(&self) -> usize {
        self.moments.iter().map(|s| spread(s)).max().unwrap()
    }

    /// Document 01's demands on a run, for the stretch.
    fn keeps(&self, d: usize) -> bool {
        let one_move = |pair: &[Vec<usize>]| {
            let mut both = pair[0].iter().zip(&pair[1]);
            both.all(|(now, then)| *then == *now || *then == now + 1)
        };
        self.spread() <= d && self.moments.windows(2).all(one_move)
    }
}

pub fn spread(standing: &[usize]) -> usize {
    standing.iter().max().unwrap() - standing.iter().min().unwrap()
}

/// How readily each cart moves for a while: all alike, all, none, all but a laggard, one alone, some.
fn phase(random: &mut Random, carts: usize) -> Vec<usize> {
    let one = random.below(carts);
    match random.below(6) {
        0 => vec![random.range(5, 95); carts],
        1 => vec![100; carts],
        2 => vec![0; carts],
        3 => (0..carts).map(|n| if n == one { 0 } else { 100 }).collect(),
        4 => (0..carts).map(|n| if n == one { 100 } else { 0 }).collect(),
        _ => (0..carts).map(|_| random.pick(&[0, 50, 100])).collect(),
    }
}
