//! Document 02's running count: how many counters in a row from each step on keep a text true, cut off at 17; and ways to get it wrong, so
//! that the verdicts can be counted that tell these apart.

use crate::logic::Row;

#[derive(Clone, Copy, PartialEq)]
pub enum Way {
    CutAt16,
    NoFirstPass,
    PlainPasses,
    AtLeast,
    NotReset,
    NotResetInLap,
    FromFirstStep,
    WholeRow,
    LastStepAgain,
}

/// All of them, with what is counted.
pub const WAYS: [(Way, &str); 9] = [
    (Way::CutAt16, "cut off at 16"),
    (Way::NoFirstPass, "0 behind the last step"),
    (Way::PlainPasses, "a lap of trues counted by its length"),
    (Way::AtLeast, "at least d for above d"),
    (Way::NotReset, "a count not reset"),
    (Way::NotResetInLap, "a count not reset in the first pass"),
    (Way::FromFirstStep, "the first pass from step 0"),
    (Way::WholeRow, "17 for a whole row of trues, not a lap"),
    (Way::LastStepAgain, "the last step looked at again"),
];

/// How often each way was met.
pub type Met = [usize; WAYS.len()];

/// The steps from which on the text is true at d + 1 counters, by the running count or by a way to get it wrong.
pub fn windows(text: &[bool], l: usize, d: usize, way: Option<Way>) -> Row {
    let cut = if way == Some(Way::CutAt16) { 16 } else { 17 };
    let mut count = behind(text, l, way).min(cut);
    let mut held = [false; 64];
    for (step, holds) in text.iter().enumerate().rev() {
        count = onward(count, *holds, way == Some(Way::NotReset)).min(cut);
        held[step] = match way {
            Some(Way::AtLeast) => count >= d,
            _ => count > d,
        };
    }
    held
}

/// The count behind the last step, which is that from l on.
fn behind(text: &[bool], l: usize, way: Option<Way>) -> usize {
    let first = match way {
        Some(Way::NoFirstPass) => return 0,
        Some(Way::FromFirstStep) => 0,
        Some(Way::LastStepAgain) => text.len() - 1,
        _ => l,
    };
    let unreset = matches!(way, Some(Way::NotReset | Way::NotResetInLap));
    let looked_at = text[first..].iter().rev();
    let count = looked_at.fold(0, |count, holds| onward(count, *holds, unreset));
    let whole = match way {
        Some(Way::PlainPasses) => return count,
        Some(Way::WholeRow) => text.len(),
        _ => text.len() - first,
    };
    if count == whole {
        17
    } else {
        count
    }
}

fn onward(count: usize, holds: bool, unreset: bool) -> usize {
    match (holds, unreset) {
        (true, _) => count + 1,
        (false, true) => count,
        (false, false) => 0,
    }
}

/// The ways with their counts, for a line; an error if one was met less than so often.
pub fn told(met: &Met, least: usize) -> Result<String, String> {
    let ways = WAYS.iter().zip(met);
    match ways.clone().find(|(_, count)| **count < least) {
        Some(((_, name), count)) => Err(format!("{name} only {count} times")),
        None => Ok(ways
            .map(|((_, name), count)| format!("{name} {count}"))
            .collect::<Vec<String>>()
            .join(", ")),
    }
}
