//! Cases of moving on and replacing rows written by hand, with their verdicts and with the plans that
//! they leave.

use crate::call::{Call, Input};
use crate::limits::{self, paper_floor, paper_plan, Limit, DONE};
use crate::move_limits::{check, floor, plan};
use crate::reference::Verdict;

/// Moves on with this room; what is due is the moved plan or a refusal.
pub fn move_on(
    name: &'static str,
    files: [&[u8]; 2],
    s: u16,
    room: usize,
    due: Result<&[u8], Verdict>,
) -> Limit {
    let [floor, plan] = files.map(|file| Input::from(file.to_vec()));
    let call = Call::MoveOn(floor, plan, s, room);
    let verdict = match due {
        Ok(file) => [0, 0, file.len() as u32, 0],
        Err(verdict) => verdict,
    };
    Limit {
        written: due.ok().map(|file| file.to_vec()),
        ..limits::limit(name, call, verdict)
    }
}

/// Replaces a row; what is due is the whole new plan or a refusal.
fn replace(
    name: &'static str,
    files: [&[u8]; 2],
    cart: u32,
    row: &[u8],
    due: Result<&[u8], Verdict>,
) -> Limit {
    let [floor, plan] = files.map(|file| Input::from(file.to_vec()));
    let call = Call::ReplaceRow(floor, plan, cart, row.to_vec());
    Limit {
        written: due.ok().map(|file| file.to_vec()),
        ..limits::limit(name, call, due.err().unwrap_or(DONE))
    }
}

/// The refusals of reading come first, whatever the moves are.
fn reading_first() -> Vec<Limit> {
    let (paper, long) = (paper_floor(), vec![0; 65_537]);
    let files: [(&[u8], &[u8], Verdict); 6] = [
        (&[], &[], [1, 7, 0, 0]),
        (&long, &long, [1, 1, 0, 0]),
        (&paper, &[], [2, 7, 0, 0]),
        (&paper, &long, [2, 1, 0, 0]),
        (&paper, &paper_plan()[..25], [2, 2, 18, 0]),
        // A first row from the wrong place, a second row with an absent one.
        (&paper, &plan(0, 0, &[&[1, 1], &[0, 2]]), [2, 9, 16, 0]),
    ];
    let mut limits = Vec::new();
    for (floor, plan, due) in files {
        let both = [floor, plan];
        limits.push(check("check, reading first", floor, plan, due));
        limits.push(move_on("move on, reading first", both, 9, 0, Err(due)));
        limits.push(replace("replace, reading first", both, 9, &[], Err(due)));
    }
    limits
}

/// Two carts on a floor without lanes; neither starts where its row begins.
fn moved_plans() -> Vec<Limit> {
    let floor = floor(8, &[], &[[0, 3], [0, 4]]);
    let old = plan(2, 3, &[&[0, 1, 2, 3, 4], &[5, 6, 7, 0, 1]]);
    let case = |name: &'static str, s: u16, l: u8, rows: &[&[u8]]| {
        let due = plan(l, 3, rows);
        move_on(name, [&floor, &old], s, 40, Ok(&due))
    };
    let lap: [&[u8]; 2] = [&[2, 3, 4], &[7, 0, 1]];
    let by_1: [&[u8]; 2] = [&[3, 4, 2], &[0, 1, 7]];
    let by_2: [&[u8]; 2] = [&[4, 2, 3], &[1, 7, 0]];
    vec![
        case("by 0", 0, 2, &[&[0, 1, 2, 3, 4], &[5, 6, 7, 0, 1]]),
        case("by l - 1", 1, 1, &[&[1, 2, 3, 4], &[6, 7, 0, 1]]),
        case("by l", 2, 0, &lap),
        case("by l + 1", 3, 0, &by_1),
        case("by h - 1", 4, 0, &by_2),
        case("by h", 5, 0, &lap),
        case("by h + 1", 6, 0, &by_1),
        case("by h + 2", 7, 0, &by_2),
        case("by h and a lap", 8, 0, &lap),
        // 253, 254, 32,766 and 65,533 after the lap's first step, of three steps each.
        case("by 255", 255, 0, &by_1),
        case("by 256", 256, 0, &by_2),
        case("by 32,768", 32_768, 0, &lap),
        case("by 65,535", 65_535, 0, &by_1),
    ]
}

fn rooms() -> Vec<Limit> {
    let files = [&paper_floor()[..], &plan(1, 16, &[&[0, 1, 1], &[1, 0, 0]])];
    let moved = plan(0, 16, &[&[1, 1], &[0, 0]]);
    let case = |name: &'static str, s: u16, room: usize, due: Result<&[u8], Verdict>| {
        move_on(name, files, s, room, due)
    };
    vec![
        case("just room", 1, 22, Ok(&moved)),
        case("more room", 1, 23, Ok(&moved)),
        case("one byte short", 1, 21, Err([2, 18, 22, 0])),
        case("no room", 1, 0, Err([2, 18, 22, 0])),
        case("room for the new head", 1, 10, Err([2, 18, 22, 0])),
        case("just room for the old", 0, 24, Ok(files[1])),
        case("one byte short for the old", 0, 23, Err([2, 18, 24, 0])),
        case("room for the new only", 0, 22, Err([2, 18, 24, 0])),
        case("one byte short, far on", 65_535, 21, Err([2, 18, 22, 0])),
    ]
}

/// Laps of one step and of 64, and a single step.
fn moved_extremes() -> Vec<Limit> {
    let floor = floor(64, &[], &[[0, 0]]);
    let long: Vec<u8> = (0..64).collect();
    let turned = [&long[63..], &long[..63]].concat();
    let case = |name: &'static str, old: (u8, &[u8]), s: u16, new: (u8, &[u8])| {
        let old = plan(old.0, 0, &[old.1]);
        let new = plan(new.0, 0, &[new.1]);
        move_on(name, [&floor, &old], s, new.len(), Ok(&new))
    };
    vec![
        case("l 63 by 0", (63, &long), 0, (63, &long)),
        case("l 63 by 62", (63, &long), 62, (1, &[62, 63])),
        case("l 63 by 63", (63, &long), 63, (0, &[63])),
        case("l 63 by 64", (63, &long), 64, (0, &[63])),
        case("l 63 by 65,535", (63, &long), 65_535, (0, &[63])),
        case("l 0 by 63", (0, &long), 63, (0, &turned)),
        case("l 0 by 64", (0, &long), 64, (0, &long)),
        case("l 0 by 65,535", (0, &long), 65_535, (0, &turned)),
        case("h 1 by 0", (0, &[9]), 0, (0, &[9])),
        case("h 1 by 1", (0, &[9]), 1, (0, &[9])),
        case("h 1 by 65,535", (0, &[9]), 65_535, (0, &[9])),
    ]
}

/// 32 rows of 64 steps.
fn moved_full() -> Vec<Limit> {
    let floor = floor(256, &[], &[[7, 255]; 32]);
    let row: Vec<u8> = (192..=255).collect();
    let turned = [&row[1..], &row[..1]].concat();
    let old = plan(0, 16, &[&row[..]; 32]);
    let new = plan(0, 16, &[&turned[..]; 32]);
    let short = Err([2, 18, 2_186, 0]);
    let files = [&floor[..], &old];
    vec![
        move_on("full plan", files, 1, 2_186, Ok(&new)),
        move_on("full plan, far on", files, 64 * 1_000 + 1, 4_000, Ok(&new)),
        move_on("full plan, short", files, 1, 2_185, short),
    ]
}

/// Replaces rows of the paper's plan.
fn replaced_rows() -> Vec<Limit> {
    let (floor, old) = (paper_floor(), paper_plan());
    let case = |name: &'static str, cart: u32, row: &[u8], due: Result<&[u8], Verdict>| {
        replace(name, [&floor, &old], cart, row, due)
    };
    let first = plan(0, 0, &[&[0, 1, 0, 1], &[0, 0, 1, 1]]);
    let second = plan(0, 0, &[&[0, 1, 1, 0], &[0, 1, 1, 1]]);
    let length = Err([2, 4, 0, 0]);
    let long = vec![0; 65_540];
    vec![
        case("same row", 0, &[0, 1, 1, 0], Ok(&old)),
        case("first row", 0, &[0, 1, 0, 1], Ok(&first)),
        case("second row", 1, &[0, 1, 1, 1], Ok(&second)),
        case("cart 2", 2, &[0, 1, 1, 0], Err([2, 19, 2, 0])),
        case("cart 256", 256, &[0, 1, 1, 0], Err([2, 19, 256, 0])),
        case("cart 65,537", 65_537, &[0; 4], Err([2, 19, 65_537, 0])),
        case("far cart", u32::MAX, &[0; 4], Err([2, 19, u32::MAX, 0])),
        case("empty row", 0, &[], length),
        case("row of h - 1", 1, &[0, 1, 1], length),
        case("row of h + 1", 1, &[0, 1, 1, 1, 1], length),
        case("row of 65,540", 0, &long, length),
        case("absent at step 0", 0, &[2, 0, 0, 0], Err([2, 9, 0, 0])),
        case("absent at step 3", 1, &[0, 0, 0, 2], Err([2, 9, 1, 3])),
        case("two absent", 1, &[0, 255, 0, 2], Err([2, 9, 1, 1])),
        case("wrong start", 1, &[1, 1, 0, 0], Err([2, 10, 1, 0])),
    ]
}

/// Rows with more than one fault, and an old plan with faults of its own.
fn replacing_order() -> Vec<Limit> {
    let floor = floor(3, &[[0, 1, 1], [1, 0, 1]], &[[0, 0], [0, 0]]);
    let good = plan(0, 0, &[&[0, 1], &[0, 1]]);
    let strays = plan(0, 0, &[&[0, 1], &[1, 0]]);
    let shut = plan(0, 0, &[&[0, 1], &[0, 2]]);
    let case = |name: &'static str, old: &[u8], cart: u32, row: &[u8], due: Verdict| {
        replace(name, [&floor, old], cart, row, Err(due))
    };
    vec![
        case("19 before 4", &good, 2, &[9], [2, 19, 2, 0]),
        case("19 before 9", &good, 2, &[9, 9], [2, 19, 2, 0]),
        case("4 before 9", &good, 1, &[9, 9, 9], [2, 4, 0, 0]),
        case("4 before 10", &good, 1, &[1], [2, 4, 0, 0]),
        case("9 before 10", &good, 1, &[1, 3], [2, 9, 1, 1]),
        case("9 before 11", &good, 1, &[0, 3], [2, 9, 1, 1]),
        case("10 before 11", &good, 1, &[1, 1], [2, 10, 1, 0]),
        case("old 10 first", &strays, 2, &[], [2, 10, 1, 0]),
        case("old 10 of that row", &strays, 1, &[0, 1], [2, 10, 1, 0]),
        case("old 10 of another", &strays, 0, &[0, 1], [2, 10, 1, 0]),
        case("old 11 first", &shut, u32::MAX, &[], [2, 11, 1, 0]),
        case("old 11 of that row", &shut, 1, &[0, 1], [2, 11, 1, 0]),
        case("old 11 before 9", &shut, 0, &[9, 9], [2, 11, 1, 0]),
    ]
}

/// New rows for a cart of class 2, h 3 and l 1.
fn replacing_moves() -> Vec<Limit> {
    let lanes = [
        [0, 1, 4],
        [1, 2, 5],
        [2, 1, 255],
        [1, 1, 251],
        [2, 3, 4],
        [3, 2, 251],
    ];
    let floor = floor(4, &lanes, &[[2, 0]]);
    let old = plan(1, 16, &[&[0, 1, 2]]);
    let case = |name: &'static str, row: &[u8], due: Result<&[u8], Verdict>| {
        replace(name, [&floor, &old], 0, row, due)
    };
    let stays = plan(1, 16, &[&[0, 1, 1]]);
    let parked = plan(1, 16, &[&[0, 0, 0]]);
    vec![
        case("the old moves", &[0, 1, 2], Ok(&old)),
        case("parked from step 1 on", &[0, 1, 1], Ok(&stays)),
        case("parked from step 0 on", &[0, 0, 0], Ok(&parked)),
        case("no lane at step 0", &[0, 2, 1], Err([2, 11, 0, 0])),
        case("no lane at step 1", &[0, 1, 3], Err([2, 11, 0, 1])),
        case("parked, no lane at step 1", &[0, 0, 2], Err([2, 11, 0, 1])),
        case("parked elsewhere", &[2, 2, 2], Err([2, 10, 0, 0])),
        case("no lane back to 0", &[0, 1, 0], Err([2, 11, 0, 1])),
    ]
}

/// Only the closing move is shut to the new row, but where the lap is its last step alone.
fn replacing_closing() -> Vec<Limit> {
    let lanes = [
        [0, 1, 2],
        [1, 2, 3],
        [2, 0, 2],
        [2, 1, 2],
        [1, 3, 2],
        [0, 3, 2],
        [3, 3, 253],
    ];
    let floor = floor(4, &lanes, &[[1, 0]]);
    let case = |name: &'static str, l: u8, due: Result<&[u8], Verdict>| {
        let old = plan(l, 0, &[&[0, 1, 2]]);
        replace(name, [&floor, &old], 0, &[0, 1, 3], due)
    };
    vec![
        case("no closing move to 0", 0, Err([2, 11, 0, 2])),
        case("no closing move to 1", 1, Err([2, 11, 0, 2])),
        case(
            "parked by the closing move",
            2,
            Ok(&plan(2, 0, &[&[0, 1, 3]])),
        ),
    ]
}

/// The last of 32 rows of 64 steps, with place 255.
fn replacing_full() -> Vec<Limit> {
    let lanes = [[0, 255, 128], [255, 0, 128]];
    let floor = floor(256, &lanes, &[[7, 0]; 32]);
    let mut rows = [&[0; 64][..]; 32];
    let old = plan(0, 0, &rows);
    let mut row = [0; 64];
    row[63] = 255;
    rows[31] = &row;
    let last = plan(0, 0, &rows);
    rows.swap(0, 31);
    let first = plan(0, 0, &rows);
    let files = [&floor[..], &old];
    let parks = [&[0; 62][..], &[255; 2]].concat();
    let strays = [&[0; 62][..], &[254; 2]].concat();
    rows = [&[0; 64]; 32];
    rows[31] = &parks;
    let parked = plan(0, 0, &rows);
    vec![
        replace("last of 32 rows", files, 31, &row, Ok(&last)),
        replace("first of 32 rows", files, 0, &row, Ok(&first)),
        replace("row of a 33rd cart", files, 32, &row, Err([2, 19, 32, 0])),
        replace("place 255 twice", files, 31, &parks, Ok(&parked)),
        replace("place 254 twice", files, 31, &strays, Err([2, 11, 31, 61])),
    ]
}

pub fn all() -> Vec<Limit> {
    let parts = [
        reading_first(),
        moved_plans(),
        rooms(),
        moved_extremes(),
        moved_full(),
        replaced_rows(),
        replacing_order(),
        replacing_moves(),
        replacing_closing(),
        replacing_full(),
    ];
    parts.into_iter().flatten().collect()
}
