//! Cases of checking moves written by hand, with their verdicts.

use crate::call::{Call, Input};
use crate::limits::{self, paper_floor, paper_plan, record, Limit, DONE};
use crate::reference::Verdict;

/// A floor of so many places, with these lanes and carts.
pub fn floor(places: usize, lanes: &[[u8; 3]], carts: &[[u8; 2]]) -> Vec<u8> {
    let places = record(1, &[0; 4]).repeat(places);
    let lanes: Vec<u8> = lanes.iter().flat_map(|lane| record(2, lane)).collect();
    let carts: Vec<u8> = carts.iter().flat_map(|cart| record(3, cart)).collect();
    [places, lanes, carts].concat()
}

/// A plan with this head, h being the length of the first row.
pub fn plan(l: u8, d: u8, rows: &[&[u8]]) -> Vec<u8> {
    let head = record(4, &[rows[0].len() as u8, 0, l, 0, d, 0]);
    let rows = rows.iter().flat_map(|row| record(5, row));
    head.into_iter().chain(rows).collect()
}

pub fn check(name: &'static str, floor: &[u8], plan: &[u8], verdict: Verdict) -> Limit {
    let (floor, plan) = (floor.to_vec(), plan.to_vec());
    let call = Call::CheckMoves(Input::from(floor), Input::from(plan));
    limits::limit(name, call, verdict)
}

/// Checks the moves of two carts of class 0 from place 0, with these lanes.
fn check_with(
    name: &'static str,
    lanes: &[[u8; 3]],
    l: u8,
    rows: [&[u8]; 2],
    due: Verdict,
) -> Limit {
    let floor = floor(3, lanes, &[[0, 0], [0, 0]]);
    check(name, &floor, &plan(l, 0, &rows), due)
}

fn starts_and_order() -> Vec<Limit> {
    let paper = |name: &'static str, rows: &[&[u8]; 2], due: Verdict| {
        check(name, &paper_floor(), &plan(0, 0, rows), due)
    };
    let row =
        |name: &'static str, rows: [&[u8]; 2], due: Verdict| check_with(name, &[], 0, rows, due);
    vec![
        check("paper's moves", &paper_floor(), &paper_plan(), DONE),
        paper("first cart's start", &[&[1, 0], &[0, 0]], [2, 10, 0, 0]),
        paper("second cart's start", &[&[0, 1], &[1, 0]], [2, 10, 1, 0]),
        paper("both carts' starts", &[&[1, 0], &[1, 0]], [2, 10, 0, 0]),
        row("all parked", [&[0, 0, 0], &[0, 0, 0]], DONE),
        row("parked elsewhere", [&[0, 0], &[1, 1]], [2, 10, 1, 0]),
        row("start before move", [&[1, 0], &[0, 0]], [2, 10, 0, 0]),
        row("cart 0's 11 first", [&[0, 1], &[1, 1]], [2, 11, 0, 0]),
        row("cart 1's 10", [&[0, 0], &[1, 0]], [2, 10, 1, 0]),
        row("cart 1's 11", [&[0, 0], &[0, 1]], [2, 11, 1, 0]),
        row("lowest of two", [&[0, 0, 0], &[0, 0, 1]], [2, 11, 1, 1]),
    ]
}

fn closing_moves() -> Vec<Limit> {
    let way = [[0, 1, 255], [1, 2, 255]];
    let round = [[0, 1, 1], [1, 2, 1], [2, 0, 1]];
    let later = [[0, 1, 1], [1, 2, 1], [2, 1, 1]];
    let self_lane = [[0, 1, 1], [1, 2, 1], [2, 2, 1]];
    let reversed = [[1, 0, 1], [1, 2, 1]];
    let gone = [[0, 1, 1], [2, 2, 1], [2, 1, 1]];
    let case = |name: &'static str, lanes: &[[u8; 3]], l: u8, due: Verdict| {
        check_with(name, lanes, l, [&[0, 1, 2], &[0, 1, 2]], due)
    };
    let shut = [2, 11, 0, 2];
    vec![
        case("no way back", &way, 0, shut),
        case("no lane at all", &[], 0, [2, 11, 0, 0]),
        case("back to 0", &round, 0, DONE),
        case("back to 0 for l 1", &round, 1, shut),
        case("parked at the end", &round, 2, DONE),
        case("back to 1 for l 0", &later, 0, shut),
        case("back to 1", &later, 1, DONE),
        case("parked, no way back", &way, 2, DONE),
        case("no lane, l 2", &[], 2, [2, 11, 0, 0]),
        case("a lane to itself, l 2", &self_lane, 2, DONE),
        case("a lane to itself, l 1", &self_lane, 1, shut),
        case("a lane to itself, l 0", &self_lane, 0, shut),
        case("first lane reversed", &reversed, 2, [2, 11, 0, 0]),
        case("second lane gone", &gone, 2, [2, 11, 0, 1]),
    ]
}

/// A closing move that is the only one, and one of the second cart.
fn other_closing_moves() -> Vec<Limit> {
    let case = check_with;
    let way = [[0, 1, 255], [1, 2, 255]];
    let out = [[0, 1, 1]];
    let back = [[0, 1, 1], [1, 0, 1]];
    let rows: [&[u8]; 2] = [&[0, 0], &[0, 1]];
    vec![
        case("h 1", &way, 0, [&[0], &[0]], DONE),
        case("h 1, no lane", &[], 0, [&[0], &[0]], DONE),
        case("h 1, a lane to itself", &[[0, 0, 1]], 0, [&[0], &[0]], DONE),
        case("h 1, not its start", &[], 0, [&[0], &[1]], [2, 10, 1, 0]),
        case("no way back for cart 1", &out, 0, rows, [2, 11, 1, 1]),
        case("a way back for cart 1", &back, 0, rows, DONE),
    ]
}

/// One cart that goes to place 1 and parks there, and lanes on that way for these classes.
fn classes() -> Vec<Limit> {
    let case = |name: &'static str, class: u8, open: &[u8], due: Verdict| {
        let lanes: Vec<[u8; 3]> = open.iter().map(|&classes| [0, 1, classes]).collect();
        let floor = floor(2, &lanes, &[[class, 0]]);
        check(name, &floor, &plan(1, 16, &[&[0, 1]]), due)
    };
    let shut = [2, 11, 0, 0];
    vec![
        case("open to none", 0, &[0], shut),
        case("class 0", 0, &[1], DONE),
        case("not class 0", 0, &[254], shut),
        case("class 7", 7, &[128], DONE),
        case("not class 7", 7, &[127], shut),
        case("class 3", 3, &[8], DONE),
        case("not class 3", 3, &[247], shut),
        case("3 is no set of classes", 3, &[3], shut),
        case("first of two lanes", 1, &[2, 4], DONE),
        case("second of two lanes", 2, &[2, 4], DONE),
        case("neither of two lanes", 0, &[2, 4], shut),
        case("first, then none", 5, &[32, 0], DONE),
        case("none, then second", 5, &[0, 32], DONE),
        case("both", 5, &[255, 255], DONE),
    ]
}

/// One cart that is parked, and a lane from its place to itself or to another: whatever it opens, each class may park.
fn parked() -> Vec<Limit> {
    let mut cases = Vec::new();
    for class in 0..8 {
        for (to, classes) in [
            (0, 0),
            (0, !(1 << class)),
            (0, 1 << class),
            (1, 0),
            (1, 255),
        ] {
            let floor = floor(2, &[[0, to, classes]], &[[class, 0]]);
            cases.push(check(
                "parked beside a lane",
                &floor,
                &plan(0, 0, &[&[0, 0]]),
                DONE,
            ));
        }
        let floor = floor(256, &[[0, 1, 255]], &[[class, 255]]);
        cases.push(check(
            "parked off every lane",
            &floor,
            &plan(0, 16, &[&[255]]),
            DONE,
        ));
    }
    cases
}

/// 11 at the step left for another place, between steps of a parked cart; the way is open to class 0 alone.
fn parked_and_shut() -> Vec<Limit> {
    let case = |name: &'static str, class: u8, l: u8, row: &[u8], due: Verdict| {
        let floor = floor(2, &[[0, 1, 1]], &[[class, 0]]);
        check(name, &floor, &plan(l, 0, &[row]), due)
    };
    vec![
        case("parked, open, parked", 0, 2, &[0, 0, 1, 1], DONE),
        case("parked, open, back", 0, 0, &[0, 0, 1, 1], [2, 11, 0, 3]),
        case("parked, shut, parked", 3, 2, &[0, 0, 1, 1], [2, 11, 0, 1]),
        case("open, parked, shut", 0, 3, &[0, 1, 1, 0], [2, 11, 0, 2]),
    ]
}

/// Each of two carts has a lane of its own between the same places.
fn shared_lanes() -> Vec<Limit> {
    let case = |name: &'static str, lanes: &[[u8; 3]], due: Verdict| {
        let floor = floor(2, lanes, &[[0, 0], [1, 0]]);
        check(name, &floor, &plan(0, 0, &[&[0, 1], &[0, 1]]), due)
    };
    let all = [[0, 1, 1], [0, 1, 2], [1, 0, 1], [1, 0, 2]];
    let turned = [[0, 1, 2], [0, 1, 1], [1, 0, 2], [1, 0, 1]];
    vec![
        case("a lane for each class", &all, DONE),
        case("the other way round", &turned, DONE),
        case("no way for class 0", &all[1..], [2, 11, 0, 0]),
        case("no way for class 1", &turned[1..], [2, 11, 1, 0]),
        case("no way back for 0", &turned[..3], [2, 11, 0, 1]),
        case("no way back for 1", &all[..3], [2, 11, 1, 1]),
    ]
}

/// Everything at its limit: 32 carts, 64 steps, 1,024 lanes that leave place 255, 256 places.
fn full_checks() -> Vec<Limit> {
    let mut lanes = vec![[255, 254, 127]; 1_024];
    let carts = [[7, 255]; 32];
    let full = |lanes: &[[u8; 3]]| floor(256, lanes, &carts);
    let shut = full(&lanes);
    lanes[1_023] = [255, 254, 128];
    let last = full(&lanes);
    lanes.rotate_right(1);
    let first = full(&lanes);
    let parked = [255; 64];
    let mut away = [254; 64];
    away[0] = 255;
    let mut late = parked;
    late[63] = 254;
    let all = |row: &[u8], l: u8| plan(l, 0, &[row; 32]);
    // The last cart goes to place 254 with its last step, and no lane leads back.
    let mut rows = [&parked[..]; 32];
    rows[31] = &late;
    let (goes, returns) = (plan(63, 0, &rows), plan(0, 0, &rows));
    vec![
        check("none of 1,024 lanes", &shut, &all(&away, 63), [2, 11, 0, 0]),
        check("last of 1,024 lanes", &last, &all(&away, 63), DONE),
        check("first of 1,024 lanes", &first, &all(&away, 63), DONE),
        check("none of 1,024 lanes, parked", &shut, &all(&parked, 0), DONE),
        check("step 62", &shut, &goes, [2, 11, 31, 62]),
        check("step 62, open", &first, &goes, DONE),
        check("step 63", &first, &returns, [2, 11, 31, 63]),
    ]
}

pub fn all() -> Vec<Limit> {
    let parts = [
        starts_and_order(),
        closing_moves(),
        other_closing_moves(),
        classes(),
        parked(),
        parked_and_shut(),
        shared_lanes(),
        full_checks(),
    ];
    parts.into_iter().flatten().collect()
}
