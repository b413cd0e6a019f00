//! The cases of narrow places: document 02's words, and plans that tell shorter ways of checking from the right one.

use crate::verdict::{Refusal, Verdict, PLAN};
use crate::world::encode;

/// Narrow places, rows, the lap's first step, drift, and the cart and step of 20 if it is refused.
type Case = (
    &'static [u8],
    &'static [&'static [u8]],
    u8,
    u8,
    Option<[usize; 2]>,
);

const PAPER: &[&[u8]] = &[&[0, 1, 1, 0], &[0, 0, 1, 1]];
const APART: &[&[u8]] = &[&[2, 1, 2, 2, 2, 2], &[3, 3, 3, 1, 3, 3]];
const BEHIND: &[&[u8]] = &[&[3, 3, 3, 1, 3, 3], &[2, 1, 2, 2, 2, 2]];

/// Two carts in one place at a moment.
const VERTEX: [Case; 30] = [
    (&[], PAPER, 0, 16, None),
    (&[2], PAPER, 0, 16, None),
    (&[1], PAPER, 0, 0, Some([0, 2])),
    (&[1], PAPER, 0, 1, Some([0, 1])),
    (&[1, 1, 1], PAPER, 0, 1, Some([0, 1])),
    (&[0], PAPER, 0, 0, Some([0, 0])),
    (&[0, 1], PAPER, 0, 0, Some([0, 0])),
    // Met at counters 3 and 2 alone, h being 3.
    (&[1], &[&[1, 0, 0], &[0, 0, 1]], 0, 1, Some([0, 0])),
    (&[1], &[&[0, 0, 1], &[1, 0, 0]], 0, 1, Some([0, 2])),
    (&[1], &[&[1, 0, 0], &[0, 0, 1]], 0, 0, None),
    // A run-in is gone through once: counter 3 stands on step 1.
    (&[1], &[&[1, 0, 0], &[0, 0, 1]], 1, 1, None),
    (&[1], &[&[1, 0, 0], &[0, 0, 1]], 2, 1, None),
    (&[1], &[&[1, 0, 0], &[0, 0, 1]], 2, 2, Some([0, 0])),
    // The step of the earliest counter is not the lowest step.
    (&[0], &[&[0, 0, 0, 1], &[1, 1, 1, 0]], 0, 2, Some([0, 1])),
    (&[0], &[&[0, 0, 0, 1], &[1, 1, 1, 0]], 0, 3, Some([0, 0])),
    // Exactly the drift apart.
    (&[1], APART, 5, 1, None),
    (&[1], APART, 5, 2, Some([0, 1])),
    (&[1], BEHIND, 5, 1, None),
    (&[1], BEHIND, 5, 2, Some([0, 3])),
    // Round the lap of 6 it is 4 steps back, of 5 with step 1 the first 3.
    (
        &[1],
        &[&[2, 1, 2, 2, 2, 2], &[3, 3, 3, 3, 3, 1]],
        0,
        1,
        None,
    ),
    (
        &[1],
        &[&[2, 1, 2, 2, 2, 2], &[3, 3, 3, 3, 3, 1]],
        0,
        2,
        Some([0, 1]),
    ),
    (
        &[1],
        &[&[2, 1, 2, 2, 2, 2], &[3, 3, 3, 3, 3, 1]],
        1,
        1,
        Some([0, 1]),
    ),
    (
        &[1],
        &[&[2, 1, 2, 2, 2, 2], &[3, 3, 3, 3, 3, 1]],
        2,
        3,
        None,
    ),
    (
        &[1],
        &[&[2, 1, 2, 2, 2, 2], &[3, 3, 3, 3, 3, 1]],
        2,
        4,
        Some([0, 1]),
    ),
    // The lowest cart in any conflict, however late.
    (&[1], &[&[0, 0], &[1, 0], &[1, 0]], 1, 0, Some([1, 0])),
    (
        &[1, 2],
        &[&[0, 0, 2], &[1, 0, 3], &[1, 3, 3], &[3, 3, 2]],
        2,
        0,
        Some([0, 2]),
    ),
    // Alone, or parked apart for ever.
    (&[0, 1, 2, 3], &[&[0, 1, 2, 3]], 0, 16, None),
    (&[0, 1, 2, 3], &[&[0], &[1], &[2], &[3]], 0, 16, None),
    (&[0], &[&[0], &[0]], 0, 0, Some([0, 0])),
    (&[3], &[&[0], &[3], &[3]], 0, 16, Some([1, 0])),
];

/// Two carts exchanged between two places in one tick.
const SWAPS: [Case; 16] = [
    (&[0, 1], &[&[0, 1], &[1, 0]], 0, 0, Some([0, 0])),
    (&[0], &[&[0, 1], &[1, 0]], 0, 0, None),
    (&[1], &[&[0, 1], &[1, 0]], 0, 0, None),
    (&[0], &[&[0, 1], &[1, 0]], 0, 1, Some([0, 0])),
    // The number comes by the exchange at counters 0 and 1; both are in place 0 at counter 1 too.
    (&[0, 1], &[&[1, 0, 2, 2], &[3, 0, 1, 3]], 3, 1, Some([0, 0])),
    (&[0], &[&[1, 0, 2, 2], &[3, 0, 1, 3]], 3, 1, Some([0, 1])),
    (&[0, 1], &[&[1, 0, 2, 2], &[3, 0, 1, 3]], 3, 0, Some([0, 1])),
    (&[1], &[&[1, 0, 2, 2], &[3, 0, 1, 3]], 3, 1, None),
    // By the move from the last step to the lap's first.
    (&[0, 1], &[&[0, 2, 1], &[1, 3, 0]], 0, 0, Some([0, 2])),
    (&[0, 1], &[&[0, 2, 1], &[1, 3, 0]], 2, 0, None),
    (&[0, 1], &[&[2, 0, 1], &[3, 1, 0]], 1, 0, Some([0, 1])),
    // One behind the other, in a ring, and into the place just left: no exchange.
    (
        &[0, 1, 2],
        &[&[0, 1, 2], &[1, 2, 0], &[2, 0, 1]],
        0,
        0,
        None,
    ),
    (&[0, 1, 2], &[&[0, 1, 2], &[1, 2, 0]], 0, 1, Some([0, 1])),
    (&[0, 1], &[&[0, 1, 1], &[1, 2, 2]], 2, 0, None),
    // One goes from 0 to 1, the other from 1 to elsewhere or to 0 from elsewhere.
    (&[0, 1, 2, 3], &[&[0, 1, 1], &[1, 3, 3]], 2, 0, None),
    (&[0, 1, 2, 3], &[&[0, 1, 1], &[3, 0, 0]], 2, 0, None),
];

/// The floor with four places and lanes between all of them, and the plan.
fn files(narrow: &[u8], rows: &[&[u8]], l: u8, d: u8) -> (Vec<u8>, Vec<u8>) {
    let mut floor = vec![(1, vec![0; 4]); 4];
    for from in 0..4 {
        floor.extend((0..4).map(|to| (2, vec![from, to, 1])));
    }
    floor.extend(rows.iter().map(|row| (3, vec![0, row[0]])));
    floor.extend(narrow.iter().map(|place| (6, vec![*place])));
    let mut plan = vec![(4, vec![rows[0].len() as u8, 0, l, 0, d, 0])];
    plan.extend(rows.iter().map(|row| (5, row.to_vec())));
    (encode(&floor), encode(&plan))
}

pub fn all() -> impl Iterator<Item = (Vec<u8>, Vec<u8>, Verdict)> {
    let cases = VERTEX.into_iter().chain(SWAPS);
    cases.map(|(narrow, rows, l, d, refused)| {
        let (floor, plan) = files(narrow, rows, l, d);
        let verdict = match refused {
            Some([cart, step]) => Verdict::refused(PLAN, Refusal(20, cart, step)),
            None => Verdict::ACCEPTED,
        };
        (floor, plan, verdict)
    })
}
