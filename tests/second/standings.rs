//! The standings of a small plan: where its counters may be within the drift.

use std::collections::HashMap;

use crate::formula::{Node, Op};
use crate::plan::Plan;
use crate::run::spread;
use crate::truth::Meaning;

/// All standings that some run comes through, whole laps taken off, and the ticks between them.
pub struct Standings {
    pub list: Vec<Vec<usize>>,
    /// The standings one tick later, each with whether any cart moves.
    pub ticks: Vec<Vec<(usize, bool)>>,
}

impl Standings {
    pub fn of(plan: &Plan) -> Standings {
        let first = vec![0; plan.rows.len()];
        let mut known = HashMap::from([(first.clone(), 0)]);
        let mut standings = Standings {
            list: vec![first],
            ticks: Vec::new(),
        };
        let mut at = 0;
        while at < standings.list.len() {
            let mut ticks = Vec::new();
            for (next, moved) in ticks_from(&standings.list[at], plan) {
                let fresh = standings.list.len();
                let number = *known.entry(next.clone()).or_insert(fresh);
                if number == fresh {
                    standings.list.push(next);
                }
                ticks.push((number, moved));
            }
            standings.ticks.push(ticks);
            at += 1;
        }
        standings
    }

    /// The lowest anchor step (definition 6) at which the clause's one count, or its negation, fails at
    /// some standing.
    pub fn lowest_failing(&self, meaning: &Meaning, negated: bool) -> Option<usize> {
        let is_count = |node: &Node| matches!(node.op, Op::Count(_));
        let count = meaning.clause.nodes.iter().position(is_count)?;
        let fails = |s: &&Vec<usize>| meaning.count(count, s) == negated;
        let anchor = |s: &Vec<usize>| *s.iter().min().unwrap();
        self.list.iter().filter(fails).map(anchor).min()
    }
}

/// Every set of carts may move if the drift allows it.
fn ticks_from(standing: &[usize], plan: &Plan) -> Vec<(Vec<usize>, bool)> {
    let grown = |movers: usize| -> Vec<usize> {
        let counters = standing.iter().enumerate();
        counters
            .map(|(n, counter)| counter + (movers >> n & 1))
            .collect()
    };
    (0..1 << standing.len())
        .map(|movers| (grown(movers), movers != 0))
        .filter(|(next, _)| spread(next) <= plan.d)
        .map(|(next, moved)| (laps_off(next, plan), moved))
        .collect()
}

fn laps_off(standing: Vec<usize>, plan: &Plan) -> Vec<usize> {
    let least = *standing.iter().min().unwrap();
    let off = least - plan.step(least);
    standing.iter().map(|counter| counter - off).collect()
}
