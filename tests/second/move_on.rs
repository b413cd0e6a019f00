//! A plan moved on, by document 01; and ways to get it wrong, so that the moves can be counted that tell these apart.

use crate::plan::Plan;
use crate::world::{encode, records_of};

#[derive(Clone, Copy, PartialEq)]
pub enum Way {
    TurnedByS,
    TurnedBack,
    NotTurned,
    TurnedTooFar,
    ModuloH,
    LowByte,
    LastStep,
    FirstRowAlone,
    DriftDropped,
    DriftDroppedInLap,
    NotLowered,
    LapKept,
    AllKept,
    FirstPlansL,
    TurnedAgain,
    NeverTwice,
}

/// All of them, with what is counted.
pub const WAYS: [(Way, &str); 16] = [
    (Way::TurnedByS, "the lap turned by s, not s - l"),
    (Way::TurnedBack, "turned the other way"),
    (Way::NotTurned, "not turned"),
    (Way::TurnedTooFar, "turned by s - l modulo h"),
    (Way::ModuloH, "s modulo h"),
    (Way::LowByte, "s modulo 256"),
    (Way::LastStep, "the last step for any beyond"),
    (Way::FirstRowAlone, "the first row turned alone"),
    (Way::DriftDropped, "d dropped"),
    (Way::DriftDroppedInLap, "d dropped beyond l"),
    (Way::NotLowered, "l not lowered before the lap"),
    (Way::LapKept, "l kept beyond the lap"),
    (Way::AllKept, "h and l kept beyond the lap"),
    (Way::FirstPlansL, "then turned by u less the first l"),
    (Way::TurnedAgain, "then turned by s + u - l"),
    (Way::NeverTwice, "a lap with l = 0 never turned"),
];

/// The plan whose place at counter v is this one's at counter s + v.
pub fn moved(plan: &Plan, s: usize) -> Plan {
    let (h, l) = lengths(plan, s);
    taken(plan, (h, l), |v| plan.step(s + v))
}

/// Up to l the first s steps go; beyond it the lap alone is left, and begins the plan.
fn lengths(plan: &Plan, s: usize) -> (usize, usize) {
    if s <= plan.l {
        (plan.h - s, plan.l - s)
    } else {
        (plan.h - plan.l, 0)
    }
}

/// The plan with these of its steps.
fn taken(plan: &Plan, (h, l): (usize, usize), step: impl Fn(usize) -> usize) -> Plan {
    let row = |row: &Vec<u8>| (0..h).map(|v| row[step(v)]).collect();
    let rows = plan.rows.iter().map(row).collect();
    let d = plan.d;
    Plan { h, l, d, rows }
}

/// A plan's bytes.
pub fn file_of(plan: &Plan) -> Vec<u8> {
    encode(&records_of(plan))
}

/// A plan moved on in a wrong way; `before` is the plan that this one was moved on from, and by how much, if it was.
pub fn misread(plan: &Plan, s: usize, before: Option<(&Plan, usize)>, way: Way) -> Plan {
    let right = moved(plan, s);
    let (l, lap) = (plan.l, plan.h - plan.l);
    let beyond = s > l;
    let turned_by = |turn: usize| taken(plan, (lap, 0), |v| l + (turn + v) % lap);
    match way {
        Way::ModuloH => moved(plan, s % plan.h),
        Way::LowByte => moved(plan, s % 256),
        Way::LastStep => moved(plan, s.min(plan.h - 1)),
        Way::DriftDropped => Plan { d: 0, ..right },
        Way::NotLowered if !beyond => Plan {
            l: l.min(right.h - 1),
            ..right
        },
        Way::FirstPlansL | Way::TurnedAgain => again(plan, s, before, way).unwrap_or(right),
        _ if !beyond => right,
        Way::TurnedByS => turned_by(s),
        Way::TurnedBack => turned_by(lap - (s - l) % lap),
        Way::NotTurned => turned_by(0),
        Way::NeverTwice if l == 0 => turned_by(0),
        Way::TurnedTooFar => turned_by((s - l) % plan.h),
        Way::FirstRowAlone => {
            let mut rows = turned_by(0).rows;
            rows[0] = right.rows[0].clone();
            Plan { rows, ..right }
        }
        Way::DriftDroppedInLap => Plan { d: 0, ..right },
        Way::LapKept => Plan {
            l: l.min(lap - 1),
            ..right
        },
        // It goes as the right one does, but isn't written so.
        Way::AllKept => taken(plan, (plan.h, l), |v| plan.step(s + v)),
        _ => right,
    }
}

/// A lap that was reached by an earlier move, moved on as if counters still began where they did before it.
fn again(plan: &Plan, u: usize, before: Option<(&Plan, usize)>, way: Way) -> Option<Plan> {
    let (first, s) = before.filter(|(first, s)| *s >= first.l && u > 0)?;
    let turn = match way {
        Way::TurnedAgain => s + u - first.l,
        _ => u + first.l * (plan.h - 1),
    };
    Some(taken(plan, (plan.h, 0), |v| (turn + v) % plan.h))
}
