//! The cases of documents 01 and 02 and the settled readings, for both checkers.

use crate::check;
use crate::floor::Floor;
use crate::group_cases;
use crate::joined_cases;
use crate::library;
use crate::narrow_cases;
use crate::plan::Plan;
use crate::unrolled;
use crate::verdict::{Refusal, Verdict, FLOOR as FLOOR_FILE, PLAN, RULES};

pub const FLOOR: [u8; 56] = [
    4, 0, 1, 0, 1, 0, 0, 0, 4, 0, 1, 0, 2, 0, 0, 0, // places with m0, with m1
    3, 0, 2, 0, 0, 1, 255, 3, 0, 2, 0, 1, 0, 255, // lanes between them
    3, 0, 2, 0, 0, 0, 255, 3, 0, 2, 0, 1, 1, 255, // lanes from a place to itself
    2, 0, 3, 0, 0, 0, 2, 0, 3, 0, 0, 0, // carts
];

/// The same floor without its lanes from a place to itself: carts park.
fn bare_floor() -> Vec<u8> {
    [&FLOOR[..30], &FLOOR[44..]].concat()
}

pub fn plan(d: u8) -> Vec<u8> {
    let mut plan = vec![6, 0, 4, 0, 4, 0, 0, 0, d, 0];
    plan.extend([4, 0, 5, 0, 0, 1, 1, 0]);
    plan.extend([4, 0, 5, 0, 0, 0, 1, 1]);
    plan
}

pub const ACCEPTED: Refusal = Refusal(0, 0, 0);

/// Clause, drift, verdict: the cases table.
const TABLE: [(&str, u8, Refusal); 12] = [
    ("F [m1,2]", 0, ACCEPTED),
    ("F [m1,2]", 1, Refusal(17, 0, 0)),
    ("F [m1,1]", 1, ACCEPTED),
    ("F [m1,1]", 2, ACCEPTED),
    ("G ![m1,2]", 0, Refusal(17, 0, 2)),
    ("G [m0,1]", 0, Refusal(17, 0, 2)),
    ("G [m0,1]", 1, Refusal(17, 0, 1)),
    ("[G F m1,2]", 16, ACCEPTED),
    ("X [m1,1]", 0, ACCEPTED),
    ("X [m1,1]", 1, Refusal(16, 0, 0)),
    ("[m0,0]", 16, ACCEPTED),
    ("[m0,3]", 0, Refusal(17, 0, 0)),
];

/// Whole sheets at drift 0, after document 01's text and the settled readings.
const SHEETS: [(&str, Refusal); 29] = [
    ("", Refusal(7, 0, 0)),
    ("\n", Refusal(13, 0, 0)),
    ("true", Refusal(13, 4, 0)),
    ("true\n ", Refusal(13, 6, 0)),
    ("tru", Refusal(13, 3, 0)),
    ("trux", Refusal(13, 3, 0)),
    ("[m31,0]\n", ACCEPTED),
    ("[m32,0]\n", Refusal(15, 2, 0)),
    ("[m32", Refusal(15, 2, 0)),
    ("[m01,0]\n", Refusal(13, 3, 0)),
    ("[m", Refusal(13, 2, 0)),
    ("[m0,1000", Refusal(15, 4, 0)),
    ("[m0,1000x", Refusal(15, 4, 0)),
    ("[m0,101", Refusal(13, 7, 0)),
    ("[m0,101%", Refusal(15, 4, 0)),
    ("[m0,1 %]\n", Refusal(13, 6, 0)),
    ("[m0,01]\n", Refusal(13, 5, 0)),
    ("[m0 , 100% ]  \n", ACCEPTED),
    ("[m0,999]\n", Refusal(17, 0, 0)),
    ("m0\n", Refusal(13, 0, 0)),
    ("[[m0,1],1]\n", Refusal(13, 1, 0)),
    ("(true,1]\n", Refusal(13, 5, 0)),
    ("[(m0,1]\n", Refusal(13, 4, 0)),
    ("true true\n", Refusal(13, 5, 0)),
    ("(G [m0,1])\n", Refusal(17, 0, 2)),
    ("!F ![m0,1]\n", Refusal(17, 0, 0)),
    ("!!G [m0,1]\n", Refusal(17, 0, 0)),
    ("G [m0,1] & true\n", Refusal(17, 0, 0)),
    ("!true U [m0,2] & true | !true\n", ACCEPTED),
];

/// Sheets at the limits, built by repeating.
fn limit_sheets() -> Vec<(String, Refusal)> {
    let nots = |k: usize| "!".repeat(k);
    let untils = |k: usize| format!("true{}\n", " U true".repeat(k));
    let ands = |k: usize| format!("true{}\n", "&true".repeat(k));
    vec![
        (nots(32) + "true\n", ACCEPTED),
        (nots(33) + "true\n", Refusal(14, 32, 0)),
        (nots(31) + "!(true)\n", Refusal(14, 32, 0)),
        (nots(30) + "!(true U true)\n", Refusal(14, 37, 0)),
        (nots(30) + "(true U true)\n", ACCEPTED),
        (nots(30) + "(true & true)\n", ACCEPTED),
        (untils(32), ACCEPTED),
        (untils(33), Refusal(14, 5 + 32 * 7, 0)),
        (ands(63), ACCEPTED),
        (ands(63).replace('\n', "&x"), Refusal(13, 320, 0)),
        (ands(63).replace("\n", "&") + "truex", Refusal(14, 320, 0)),
        ("!".to_owned() + &ands(63), Refusal(17, 0, 0)),
        ("true\n".repeat(32), ACCEPTED),
        ("true\n".repeat(32) + "]", Refusal(14, 160, 0)),
        (" ".repeat(16_379) + "true\n", ACCEPTED),
        (" ".repeat(16_380) + "true\n", Refusal(12, 0, 0)),
    ]
}

/// Heads (h, l, d) of the example's plan, with the number of a refusal at offset 0.
const HEADS: [([u8; 3], u32); 6] = [
    ([4, 0, 16], 0),
    ([4, 3, 16], 0),
    ([4, 4, 0], 8),
    ([4, 0, 17], 8),
    ([0, 0, 0], 8),
    ([65, 0, 0], 8),
];

fn heads() -> impl Iterator<Item = (Vec<u8>, Verdict)> {
    HEADS.iter().map(|&([h, l, d], number)| {
        let mut plan = plan(d);
        (plan[4], plan[6]) = (h, l);
        let about = if number == 0 { 0 } else { PLAN };
        (plan, Verdict::refused(about, Refusal(number, 0, 0)))
    })
}

fn wanted(refusal: Refusal) -> Verdict {
    match refusal {
        ACCEPTED => Verdict::ACCEPTED,
        _ => Verdict::refused(RULES, refusal),
    }
}

fn sheets() -> impl Iterator<Item = (String, u8, Refusal)> {
    let table = TABLE.iter().map(|(c, d, r)| (format!("{c}\n"), *d, *r));
    let sheets = SHEETS.iter().map(|(s, r)| (s.to_string(), 0, *r));
    let limits = limit_sheets().into_iter().map(|(s, r)| (s, 0, r));
    table.chain(sheets).chain(limits)
}

fn compare(floor: &[u8], plan: &[u8], rules: &[u8], wanted: Verdict) -> Result<(), String> {
    let second = check::check(floor, plan, rules);
    let (first, _) = library::check(floor, plan, rules);
    if second == wanted && first == wanted {
        return Ok(());
    }
    let sheet = String::from_utf8_lossy(rules);
    Err(format!(
        "floor {floor:?}, plan {plan:?}, sheet {sheet:?}: {wanted} is wanted, second checker: {second}, library: {first}"
    ))
}

/// Lanes, a cart's class, the row of that cart from place 0 and its lap's first step, refusal of its moves: two places.
type Moves = (&'static [[u8; 3]], u8, &'static [u8], u8, Refusal);

/// Parked carts, and carts that leave their place without a lane.
const MOVES: [Moves; 12] = [
    (&[], 7, &[0], 0, ACCEPTED),
    (&[], 7, &[1], 0, Refusal(10, 0, 0)),
    (&[[0, 0, 1]], 1, &[0, 0], 0, ACCEPTED),
    (&[[0, 1, 255]], 1, &[0, 0], 1, ACCEPTED),
    (&[[0, 1, 1]], 0, &[0, 1], 1, ACCEPTED),
    (&[[0, 1, 1]], 0, &[0, 1], 0, Refusal(11, 0, 1)),
    (&[[0, 1, 1]], 1, &[0, 1], 1, Refusal(11, 0, 0)),
    (&[[0, 0, 255]], 0, &[0, 1], 1, Refusal(11, 0, 0)),
    (&[[1, 1, 255]], 0, &[0, 1], 1, Refusal(11, 0, 0)),
    (&[], 0, &[0, 0, 1, 1], 2, Refusal(11, 0, 1)),
    (&[[0, 1, 2]], 1, &[0, 0, 1, 1], 2, ACCEPTED),
    (&[[0, 1, 2]], 1, &[0, 0, 1, 1], 1, Refusal(11, 0, 3)),
];

fn moves() -> impl Iterator<Item = (Vec<u8>, Vec<u8>, Verdict)> {
    MOVES.iter().map(|&(lanes, class, row, l, refusal)| {
        let mut floor = FLOOR[..16].to_vec();
        lanes.iter().for_each(|lane| {
            floor.extend([3, 0, 2, 0]);
            floor.extend(lane);
        });
        floor.extend([2, 0, 3, 0, class, 0]);
        let h = row.len() as u8;
        let mut plan = vec![6, 0, 4, 0, h, 0, l, 0, 0, 0, h, 0, 5, 0];
        plan.extend(row);
        let about = if refusal == ACCEPTED { 0 } else { PLAN };
        (floor, plan, Verdict::refused(about, refusal))
    })
}

/// Whether the search over all runs finds the conflict of a verdict, or none.
fn found_on_runs(floor: &[u8], plan: &[u8], verdict: Verdict) -> Result<(), String> {
    let floor = Floor::read(floor).expect("a floor");
    let plan = Plan::read(plan, &floor).expect("a plan");
    // With many carts and much drift there are too many standings.
    if (plan.d + 1).pow(plan.rows.len() as u32) > 5000 {
        return Ok(());
    }
    let found = unrolled::lowest_conflict(&plan, &floor);
    let told = found.map(|(cart, counter)| [cart, plan.step(counter)]);
    let wanted = (verdict.number == 20).then_some([verdict.first, verdict.second]);
    if told == wanted.map(|numbers| numbers.map(|n| n as usize)) {
        return Ok(());
    }
    Err(format!(
        "{verdict} is wanted, the search over all runs finds {told:?}"
    ))
}

/// A conflict is told whatever the sheet is.
fn narrow() -> Result<usize, String> {
    let mut count = 0;
    for (floor, plan, verdict) in narrow_cases::all() {
        let sheets: [&[u8]; 3] = [b"true\n", b"!true\n", b"?"];
        let read = if verdict == Verdict::ACCEPTED { 1 } else { 3 };
        for sheet in &sheets[..read] {
            compare(&floor, &plan, sheet, verdict)?;
            count += 1;
        }
        found_on_runs(&floor, &plan, verdict)?;
    }
    Ok(count)
}

/// Clauses about joined counts: both verdicts, and the runs.
fn joined() -> Result<usize, String> {
    let mut count = 0;
    for case in joined_cases::all() {
        let (floor, plan, rules, verdict, _) = &case;
        compare(floor, plan, rules, *verdict)?;
        joined_cases::found_on_runs(&case)?;
        count += 1;
    }
    Ok(count)
}

/// Records and tokens of groups, and clauses about them with the runs.
fn groups() -> Result<usize, String> {
    let mut count = 0;
    for (records, refusal) in group_cases::floors() {
        let floor = [&FLOOR[..], &records].concat();
        let verdict = match refusal {
            ACCEPTED => Verdict::ACCEPTED,
            _ => Verdict::refused(FLOOR_FILE, refusal),
        };
        compare(&floor, &plan(0), b"true\n", verdict)?;
        count += 1;
    }
    let floor = [&FLOOR[..], &group_cases::records(&group_cases::GROUPS)].concat();
    for (sheet, d, refusal) in group_cases::sheets() {
        compare(&floor, &plan(d), sheet.as_bytes(), wanted(refusal))?;
        count += 1;
    }
    for case in group_cases::judged() {
        let (floor, plan, rules, verdict, _) = &case;
        compare(floor, plan, rules, *verdict)?;
        joined_cases::found_on_runs(&case)?;
        count += 1;
    }
    Ok(count)
}

/// The number of cases; the first case that comes out otherwise is told.
pub fn run() -> Result<usize, String> {
    let mut count = 0;
    for (sheet, d, refusal) in sheets() {
        compare(&FLOOR, &plan(d), sheet.as_bytes(), wanted(refusal))?;
        compare(&bare_floor(), &plan(d), sheet.as_bytes(), wanted(refusal))?;
        count += 2;
    }
    for (plan, verdict) in heads() {
        compare(&FLOOR, &plan, b"true\n", verdict)?;
        count += 1;
    }
    for (floor, plan, verdict) in moves() {
        compare(&floor, &plan, b"true\n", verdict)?;
        count += 1;
    }
    Ok(count + narrow()? + joined()? + groups()?)
}
