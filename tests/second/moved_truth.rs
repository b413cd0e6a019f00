//! Clauses in step at the start of a moved plan, beside the old plan at counter s; and other readings of that, so that the clauses can be
//! counted that tell these apart.

use crate::formula::{Clause, Node, Op};
use crate::logic::Collection;
use crate::plan::Plan;
use crate::run::Run;
use crate::runs::Read;
use crate::truth::Meaning;

/// Other readings of when a clause has to be true.
pub const READINGS: [&str; 8] = [
    "the old plan's start",
    "the old plan's l",
    "counter s modulo h",
    "the last step for any beyond",
    "a counter late",
    "step 0 behind the last",
    "the same for X alone",
    "the plan's drift",
];

/// Up to this counter the run is written out from its start.
const NEAR: usize = 150;

/// A plan that was moved on by s, with runs in which every cart moves in every tick.
pub struct Both<'a> {
    read: &'a Read,
    moved: &'a Plan,
    s: usize,
    old_run: Run,
    moved_run: Run,
    /// The old plan's run written out from its start, and from counter s on.
    from_start: Option<Run>,
    from_counter: Run,
    /// The old plan's run with step 0 behind the last.
    round: Run,
    /// The encodings of the old plan, and of the moved one at drift 0.
    drifting: Collection,
    encoded: Collection,
}

/// Whether a clause is true at the start of the moved plan, and the readings that say otherwise.
pub struct Found {
    pub holds: bool,
    pub changed: [bool; READINGS.len()],
}

impl<'a> Both<'a> {
    pub fn new(read: &'a Read, moved: &'a Plan, s: usize) -> Both<'a> {
        let Read { floor, plan, .. } = read;
        let in_step = Plan {
            d: 0,
            ..moved.clone()
        };
        Both {
            read,
            moved,
            s,
            old_run: Run::in_step(plan),
            moved_run: Run::in_step(moved),
            from_start: (s <= NEAR).then(|| written_out(plan, 0, s)),
            from_counter: written_out(plan, s, s),
            round: Run {
                back: 0,
                growth: plan.h,
                ..Run::in_step(plan)
            },
            drifting: Collection::new(floor, plan),
            encoded: Collection::new(floor, &in_step),
        }
    }

    /// Looks at a clause: where it is true at the moved plan's start, it has to be at the old plan's counter s.
    pub fn look(&self, clause: &Clause) -> Result<Found, String> {
        let start = Meaning::new(clause, self.moved, &self.read.floor);
        let holds = start.on_run(clause.root, &self.moved_run)[0];
        let meaning = self.read.meaning(clause);
        let on = |run: &Run| meaning.on_run(clause.root, run);
        let step = self.read.plan.step(self.s);
        let in_step = on(&self.old_run);
        let mut others = vec![
            ("on the step of counter s", in_step[step]),
            ("from counter s on", on(&self.from_counter)[0]),
            ("by the encodings", y(&self.encoded, clause)[0]),
        ];
        if let Some(run) = &self.from_start {
            others.push(("at moment s", on(run)[self.s]));
        }
        if let Some((name, _)) = others.iter().find(|(_, other)| *other != holds) {
            return Err(format!("{holds} at the moved plan's start, but not {name}"));
        }
        let round = on(&self.round)[step];
        let readings = self.readings(clause, &in_step, round);
        Ok(Found {
            holds,
            changed: readings.map(|other| other == Some(!holds)),
        })
    }

    /// What each of the other readings says, where it says something.
    fn readings(
        &self,
        clause: &Clause,
        in_step: &[bool],
        round: bool,
    ) -> [Option<bool>; READINGS.len()] {
        let (plan, s) = (&self.read.plan, self.s);
        let next_outside = clause.next_outside(clause.root);
        [
            Some(in_step[0]),
            Some(in_step[plan.l]),
            Some(in_step[s % plan.h]),
            Some(in_step[s.min(plan.h - 1)]),
            Some(in_step[plan.step(s + 1)]),
            Some(round),
            only_next(clause, clause.root).then_some(round),
            (!next_outside).then(|| y(&self.drifting, clause)[plan.step(s)]),
        ]
    }
}

/// The run from a counter on, past counter s until no standing is new.
fn written_out(plan: &Plan, from: usize, s: usize) -> Run {
    let (carts, lap) = (plan.rows.len(), plan.h - plan.l);
    let back = s - from + plan.h;
    Run {
        moments: (0..back + lap).map(|t| vec![from + t; carts]).collect(),
        back,
        growth: lap,
    }
}

fn y(collection: &Collection, clause: &Clause) -> [bool; 64] {
    collection.y(&collection.pnf(clause, clause.root, false))
}

/// Whether outside counts nothing but X looks at other moments.
fn only_next(clause: &Clause, node: usize) -> bool {
    let Node { op, left, right } = clause.nodes[node];
    match op {
        Op::Until | Op::Release | Op::Finally | Op::Globally => false,
        Op::And | Op::Or => only_next(clause, left) && only_next(clause, right),
        Op::Not | Op::Next => only_next(clause, left),
        Op::True | Op::Mark(_) | Op::Count(_) => true,
    }
}
