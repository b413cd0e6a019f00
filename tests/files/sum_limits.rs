//! Cases of plans moved on twice, written by hand: by s, the result by u, and by s + u at once.

use crate::edit_limits::move_on;
use crate::limits::Limit;
use crate::move_limits::{floor, plan};

/// The three calls, each with just room enough: the plan moved on by s is `first`, that moved on by u and the plan moved on by s + u
/// are `last`. And each of the two moved on by 0 is what it was.
fn twice(
    name: &'static str,
    [floor, old]: [&[u8]; 2],
    [s, u]: [u16; 2],
    [first, last]: [&[u8]; 2],
) -> Vec<Limit> {
    let case =
        |from: &[u8], by: u16, due: &[u8]| move_on(name, [floor, from], by, due.len(), Ok(due));
    vec![
        case(old, s, first),
        case(first, u, last),
        case(old, s + u, last),
        case(old, 0, old),
        case(first, 0, first),
    ]
}

/// Two carts with a run-in of two steps and a lap of three, whose places are 2 3 4 and 7 0 1.
fn about_the_lap() -> Vec<Limit> {
    let floor = floor(8, &[], &[[0, 3], [0, 4]]);
    let old = plan(2, 3, &[&[0, 1, 2, 3, 4], &[5, 6, 7, 0, 1]]);
    let later = plan(1, 3, &[&[1, 2, 3, 4], &[6, 7, 0, 1]]);
    let lap = plan(0, 3, &[&[2, 3, 4], &[7, 0, 1]]);
    let by_1 = plan(0, 3, &[&[3, 4, 2], &[0, 1, 7]]);
    let by_2 = plan(0, 3, &[&[4, 2, 3], &[1, 7, 0]]);
    let case = |name: &'static str, by: [u16; 2], first: &[u8], last: &[u8]| {
        twice(name, [&floor, &old], by, [first, last])
    };
    [
        case("0 and 0", [0, 0], &old, &old),
        case("0 and 1", [0, 1], &old, &later),
        case("1 and 0", [1, 0], &later, &later),
        case("to l by 1 and 1", [1, 1], &later, &lap),
        case("to l by 0 and l", [0, 2], &old, &lap),
        case("l and 0", [2, 0], &lap, &lap),
        case("l and 1", [2, 1], &lap, &by_1),
        case("l and the old l", [2, 2], &lap, &by_2),
        case("l and a lap", [2, 3], &lap, &lap),
        case("across l", [1, 2], &later, &by_1),
        case("across l to the end", [1, 3], &later, &by_2),
        case("l + 1 and 0", [3, 0], &by_1, &by_1),
        case("l + 1 and 1", [3, 1], &by_1, &by_2),
        case("l + 1 and the old l", [3, 2], &by_1, &lap),
        case("l + 1 and a lap", [3, 3], &by_1, &by_1),
        case("h - 1 and 1", [4, 1], &by_2, &lap),
        case("h - 1 and 2", [4, 2], &by_2, &by_1),
        case("h and 0", [5, 0], &lap, &lap),
        case("h and 1", [5, 1], &lap, &by_1),
        case("h and h", [5, 5], &lap, &by_2),
    ]
    .concat()
}

/// The same carts, as far as there is: 65,533 steps beyond l are 21,844 laps and one step.
fn to_the_end() -> Vec<Limit> {
    let floor = floor(8, &[], &[[0, 3], [0, 4]]);
    let old = plan(2, 16, &[&[0, 1, 2, 3, 4], &[5, 6, 7, 0, 1]]);
    let later = plan(1, 16, &[&[1, 2, 3, 4], &[6, 7, 0, 1]]);
    let lap = plan(0, 16, &[&[2, 3, 4], &[7, 0, 1]]);
    let by_1 = plan(0, 16, &[&[3, 4, 2], &[0, 1, 7]]);
    let by_2 = plan(0, 16, &[&[4, 2, 3], &[1, 7, 0]]);
    let case = |s: u16, first: &[u8]| {
        let name = "65,535 in two parts";
        twice(name, [&floor, &old], [s, 65_535 - s], [first, &by_1])
    };
    [
        case(0, &old),
        case(1, &later),
        case(2, &lap),
        case(3, &by_1),
        case(4, &by_2),
        case(5, &lap),
        case(255, &by_1),
        case(256, &by_2),
        case(32_767, &by_2),
        case(32_768, &lap),
        case(65_532, &by_1),
        case(65_533, &by_2),
        case(65_534, &lap),
        case(65_535, &by_1),
    ]
    .concat()
}

/// 64 steps with the lap's beginning at the last and at the first, laps of one step, and a single step.
fn extremes() -> Vec<Limit> {
    let floor = floor(64, &[], &[[0, 0]]);
    let long: Vec<u8> = (0..64).collect();
    let by_1 = [&long[1..], &long[..1]].concat();
    let by_32 = [&long[32..], &long[..32]].concat();
    let by_63 = [&long[63..], &long[..63]].concat();
    let case = |name: &'static str, l: u8, row: &[u8], by, first: (u8, &[u8]), last: &[u8]| {
        let old = plan(l, 0, &[row]);
        let first = plan(first.0, 0, &[first.1]);
        twice(name, [&floor, &old], by, [&first, &plan(0, 0, &[last])])
    };
    [
        case("l 63", 63, &long, [62, 1], (1, &[62, 63]), &[63]),
        case("l 63", 63, &long, [62, 2], (1, &[62, 63]), &[63]),
        case("l 63", 63, &long, [0, 63], (63, &long), &[63]),
        case("l 63", 63, &long, [63, 0], (0, &[63]), &[63]),
        case("l 63", 63, &long, [63, 63], (0, &[63]), &[63]),
        case("l 63", 63, &long, [64, 65_471], (0, &[63]), &[63]),
        case("l 0", 0, &long, [0, 0], (0, &long), &long),
        case("l 0", 0, &long, [0, 64], (0, &long), &long),
        case("l 0", 0, &long, [1, 63], (0, &by_1), &long),
        case("l 0", 0, &long, [63, 1], (0, &by_63), &long),
        case("l 0", 0, &long, [64, 63], (0, &long), &by_63),
        case("l 0", 0, &long, [32, 32], (0, &by_32), &long),
        case("l 0", 0, &long, [32, 33], (0, &by_32), &by_1),
        case("l 0", 0, &long, [1, 65_534], (0, &by_1), &by_63),
        case("one step lap", 2, &[5, 6, 7], [1, 1], (1, &[6, 7]), &[7]),
        case("one step lap", 2, &[5, 6, 7], [2, 9], (0, &[7]), &[7]),
        case("one step lap", 2, &[5, 6, 7], [3, 0], (0, &[7]), &[7]),
        case("h 1", 0, &[9], [0, 0], (0, &[9]), &[9]),
        case("h 1", 0, &[9], [1, 1], (0, &[9]), &[9]),
        case("h 1", 0, &[9], [1, 65_534], (0, &[9]), &[9]),
    ]
    .concat()
}

/// The first result is longer than the last, so that a buffer may hold the last alone.
fn rooms() -> Vec<Limit> {
    let floor = floor(8, &[], &[[0, 3], [0, 4]]);
    let old = plan(2, 3, &[&[0, 1, 2, 3, 4], &[5, 6, 7, 0, 1]]);
    let later = plan(1, 3, &[&[1, 2, 3, 4], &[6, 7, 0, 1]]);
    let lap = plan(0, 3, &[&[2, 3, 4], &[7, 0, 1]]);
    let case = |name: &'static str, from: &[u8], by: u16, room: usize, due: Result<&[u8], u32>| {
        let due = due.map_err(|needed| [2, 18, needed, 0]);
        move_on(name, [&floor, from], by, room, due)
    };
    vec![
        case("room for the last alone, by 0", &old, 0, 24, Err(28)),
        case("room for the last alone, by 1", &old, 1, 24, Err(26)),
        case("room for the last alone, by 2", &old, 2, 24, Ok(&lap)),
        case("room for the last, from the first", &later, 1, 24, Ok(&lap)),
        case("a byte short for the first", &old, 1, 25, Err(26)),
        case("just room for the first", &old, 1, 26, Ok(&later)),
        case("a byte short by the sum", &old, 2, 23, Err(24)),
        case("a byte short from the first", &later, 1, 23, Err(24)),
        case("a byte short, l 0 by 0", &lap, 0, 23, Err(24)),
        case("just room, l 0 by 0", &lap, 0, 24, Ok(&lap)),
    ]
}

pub fn all() -> Vec<Limit> {
    [about_the_lap(), to_the_end(), extremes(), rooms()].concat()
}
