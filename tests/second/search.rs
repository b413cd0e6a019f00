//! Exact search: whether some run of a small plan breaks a clause.
//!
//! Runs are the ways through a graph of standings. A clause fails on one of them exactly if the graph,
//! joined with a guess of what each temporal operator says of the next moment, has a way from the first
//! standing into a part where every guess comes true and carts keep moving.

use crate::formula::{Node, Op};
use crate::standings::Standings;
use crate::truth::Meaning;

/// The graph of standings with guesses; a state is a standing's number times the guesses, plus a guess.
struct Joined<'a> {
    standings: &'a Standings,
    meaning: &'a Meaning<'a>,
    /// A guess has a bit for each of these nodes.
    temporal: Vec<usize>,
    /// For each state, in the same bits: which of the nodes hold.
    says: Vec<usize>,
    /// For each state: which of them put nothing off.
    settled: Vec<usize>,
    /// For each state: whether the clause holds.
    root: Vec<bool>,
}

/// The nodes outside counts with U, R, F or G, operands first.
pub fn temporal_nodes(meaning: &Meaning) -> Vec<usize> {
    let mut found = Vec::new();
    collect(meaning, meaning.clause.root, &mut found);
    found
}

fn collect(meaning: &Meaning, node: usize, found: &mut Vec<usize>) {
    let Node { op, left, right } = meaning.clause.nodes[node];
    if let Op::Count(_) = op {
        return;
    }
    if op.operands() >= 1 {
        collect(meaning, left, found);
    }
    if op.operands() == 2 {
        collect(meaning, right, found);
    }
    if let Op::Until | Op::Release | Op::Finally | Op::Globally = op {
        found.push(node);
    }
}

/// Whether some run breaks the clause, which has no X outside counts.
pub fn some_run_breaks(standings: &Standings, meaning: &Meaning) -> bool {
    let joined = Joined::new(standings, meaning);
    let guesses = joined.guesses();
    let begin = (0..guesses).filter(|state| !joined.root[*state]).collect();
    Components::new(&joined).any_lasting(begin)
}

impl<'a> Joined<'a> {
    fn new(standings: &'a Standings, meaning: &'a Meaning<'a>) -> Joined<'a> {
        let temporal = temporal_nodes(meaning);
        let (says, settled, root) = (Vec::new(), Vec::new(), Vec::new());
        let mut joined = Joined {
            standings,
            meaning,
            temporal,
            says,
            settled,
            root,
        };
        for standing in &standings.list {
            for guess in 0..joined.guesses() {
                joined.add(standing, guess);
            }
        }
        joined
    }

    fn guesses(&self) -> usize {
        1 << self.temporal.len()
    }

    fn add(&mut self, standing: &[usize], guess: usize) {
        let (mut says, mut settled) = (0, 0);
        for (bit, node) in self.temporal.iter().enumerate() {
            says |= (self.value(*node, standing, guess) as usize) << bit;
            settled |= (self.nothing_put_off(*node, standing, guess) as usize) << bit;
        }
        let root = self.value(self.meaning.clause.root, standing, guess);
        self.says.push(says);
        self.settled.push(settled);
        self.root.push(root);
    }

    /// A formula at a standing, if the guess says what its temporal parts are at the next moment.
    fn value(&self, node: usize, standing: &[usize], guess: usize) -> bool {
        let Node { op, left, right } = self.meaning.clause.nodes[node];
        let part = |operand| self.value(operand, standing, guess);
        let later = || {
            let bit = self.temporal.iter().position(|other| *other == node);
            guess >> bit.expect("a temporal node") & 1 == 1
        };
        match op {
            Op::True => true,
            Op::Count(_) => self.meaning.count(node, standing),
            Op::Not => !part(left),
            Op::And => part(left) && part(right),
            Op::Or => part(left) || part(right),
            Op::Until => part(right) || part(left) && later(),
            Op::Finally => part(left) || later(),
            Op::Globally => part(left) && later(),
            Op::Release => part(right) && (part(left) || later()),
            Op::Next | Op::Mark(_) => unreachable!("not searched"),
        }
    }

    /// An until that holds has its right side here, a release that fails lacks it here.
    fn nothing_put_off(&self, node: usize, standing: &[usize], guess: usize) -> bool {
        let Node { op, left, right } = self.meaning.clause.nodes[node];
        let holds = self.value(node, standing, guess);
        let goal = if op.operands() == 2 { right } else { left };
        let reached = self.value(goal, standing, guess);
        match op {
            Op::Until | Op::Finally => !holds || reached,
            _ => holds || !reached,
        }
    }

    /// The states one tick later that say what this state's guess says, each with whether a cart moves.
    fn after(&self, state: usize) -> Vec<(usize, bool)> {
        let guesses = self.guesses();
        let guess = state % guesses;
        let mut after = Vec::new();
        for (standing, moved) in &self.standings.ticks[state / guesses] {
            let states = standing * guesses..(standing + 1) * guesses;
            let fitting = states.filter(|next| self.says[*next] == guess);
            after.extend(fitting.map(|next| (next, *moved)));
        }
        after
    }
}

const UNSEEN: usize = usize::MAX;

/// Strongly connected components by Tarjan's method, with a stack of its own.
struct Components<'a> {
    joined: &'a Joined<'a>,
    order: Vec<usize>,
    low: Vec<usize>,
    done: Vec<bool>,
    pending: Vec<usize>,
    seen: usize,
}

/// A state on the way, the states after it and how many of these have been gone to.
struct Visit {
    state: usize,
    after: Vec<(usize, bool)>,
    gone: usize,
}

impl<'a> Components<'a> {
    fn new(joined: &'a Joined<'a>) -> Components<'a> {
        let states = joined.says.len();
        Components {
            joined,
            order: vec![UNSEEN; states],
            low: vec![0; states],
            done: vec![false; states],
            pending: Vec::new(),
            seen: 0,
        }
    }

    /// Whether a component reached from these states can hold a run for ever.
    fn any_lasting(&mut self, begin: Vec<usize>) -> bool {
        let unseen = |this: &Self, state: usize| this.order[state] == UNSEEN;
        begin
            .into_iter()
            .any(|state| unseen(self, state) && self.explore(state))
    }

    fn visit(&mut self, state: usize) -> Visit {
        self.order[state] = self.seen;
        self.low[state] = self.seen;
        self.seen += 1;
        self.pending.push(state);
        let after = self.joined.after(state);
        Visit {
            state,
            after,
            gone: 0,
        }
    }

    fn explore(&mut self, begin: usize) -> bool {
        let mut way = vec![self.visit(begin)];
        while let Some(visit) = way.last_mut() {
            let state = visit.state;
            if let Some((next, _)) = visit.after.get(visit.gone).copied() {
                visit.gone += 1;
                if self.order[next] == UNSEEN {
                    let next = self.visit(next);
                    way.push(next);
                } else if !self.done[next] {
                    self.low[state] = self.low[state].min(self.order[next]);
                }
                continue;
            }
            way.pop();
            if let Some(visit) = way.last() {
                self.low[visit.state] = self.low[visit.state].min(self.low[state]);
            }
            if self.low[state] == self.order[state] && self.close(state) {
                return true;
            }
        }
        false
    }

    /// Ends the component that begins at this state; whether it can hold a run for ever.
    fn close(&mut self, state: usize) -> bool {
        let from = self
            .pending
            .iter()
            .rposition(|other| *other == state)
            .unwrap();
        let members = self.pending.split_off(from);
        let first = self.order[state];
        let inside = |next: usize| !self.done[next] && self.order[next] >= first;
        let moving = |&member: &usize| {
            let after = self.joined.after(member);
            after.iter().any(|(next, moved)| *moved && inside(*next))
        };
        let met = members
            .iter()
            .fold(0, |all, member| all | self.joined.settled[*member]);
        let lasting = met == self.joined.guesses() - 1 && members.iter().any(moving);
        members.iter().for_each(|member| self.done[*member] = true);
        lasting
    }
}
