//! Conflicts in narrow places (document 02), found from the pairs of counters that two carts may have at one moment.

use crate::floor::Floor;
use crate::plan::Plan;
use crate::verdict::Refusal;

pub struct Conflicts<'a> {
    plan: &'a Plan,
    narrow: Vec<bool>,
    /// For each counter and place the carts that stand there: bit n for cart n.
    carts_at: Vec<Vec<u32>>,
    /// For each counter of one cart, the counters that another may have at the same moment.
    beside: Vec<Vec<usize>>,
}

/// Refusal 20: the lowest cart in any conflict, the step of its earliest counter in one.
pub fn check(floor: &Floor, plan: &Plan) -> Result<(), Refusal> {
    let conflicts = Conflicts::new(plan, &floor.narrow, floor.places.len());
    match conflicts.lowest(true) {
        Some((cart, counter)) => Err(Refusal(20, cart, plan.step(counter))),
        None => Ok(()),
    }
}

impl<'a> Conflicts<'a> {
    pub fn new(plan: &'a Plan, places: &[u8], count: usize) -> Conflicts<'a> {
        let mut narrow = vec![false; count];
        places.iter().for_each(|p| narrow[*p as usize] = true);
        // Two laps more than the run-in, a lap and the drift: whatever comes later has come before.
        let end = plan.h + plan.d + 2 * (plan.h - plan.l);
        let end = if places.is_empty() { 0 } else { end };
        let carts = |v| carts_at(plan, v, count);
        Conflicts {
            plan,
            narrow,
            carts_at: (0..=end).map(carts).collect(),
            beside: beside(plan.d, end),
        }
    }

    /// The carts and their counters in conflicts, lowest first; swap conflicts are left out if not asked for.
    pub fn all(&self, swaps: bool) -> impl Iterator<Item = (usize, usize)> + '_ {
        let carts = 0..self.plan.rows.len();
        let counters = 0..self.beside.len();
        let pairs = carts.flat_map(move |n| counters.clone().map(move |v| (n, v)));
        pairs.filter(move |(n, v)| self.vertex(*n, *v) || swaps && self.swap(*n, *v))
    }

    pub fn lowest(&self, swaps: bool) -> Option<(usize, usize)> {
        self.all(swaps).next()
    }

    pub fn place(&self, cart: usize, counter: usize) -> usize {
        self.plan.rows[cart][self.plan.step(counter)] as usize
    }

    /// Another cart may be in the same narrow place.
    fn vertex(&self, cart: usize, counter: usize) -> bool {
        let place = self.place(cart, counter);
        let met = |w: &usize| self.carts_at[*w][place] & !(1 << cart) != 0;
        self.narrow[place] && self.beside[counter].iter().any(met)
    }

    /// Another cart may come the other way between two narrow places. Both move in that tick, so that their distance stays.
    fn swap(&self, cart: usize, counter: usize) -> bool {
        let [from, to] = [counter, counter + 1].map(|v| self.place(cart, v));
        let crossing = |w: &usize| self.carts_at[*w][to] & self.carts_at[w + 1][from];
        let met = |w: &usize| crossing(w) & !(1 << cart) != 0;
        let both = from != to && self.narrow[from] && self.narrow[to];
        both && self.beside[counter].iter().any(met)
    }
}

fn carts_at(plan: &Plan, counter: usize, places: usize) -> Vec<u32> {
    let mut carts = vec![0; places];
    for (n, row) in plan.rows.iter().enumerate() {
        carts[row[plan.step(counter)] as usize] |= 1 << n;
    }
    carts
}

/// Found tick by tick from the start. The other carts may all go along with one of the two, so that only their distance counts.
fn beside(d: usize, end: usize) -> Vec<Vec<usize>> {
    let mut found = vec![vec![]; end];
    let mut known = vec![vec![false; end]; end];
    let mut open = vec![(0, 0)];
    while let Some((v, w)) = open.pop() {
        let within = v < end && w < end && v.abs_diff(w) <= d;
        if !within || known[v][w] {
            continue;
        }
        known[v][w] = true;
        found[v].push(w);
        open.extend([(v + 1, w), (v, w + 1), (v + 1, w + 1)]);
    }
    found
}
