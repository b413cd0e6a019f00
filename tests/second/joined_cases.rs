//! The cases of joined counts: document 02's words, document 002's example 3, and clauses that tell other ways of joining from the right
//! one.

use crate::floor::Floor;
use crate::plan::Plan;
use crate::search::some_run_breaks;
use crate::sheet;
use crate::standings::Standings;
use crate::truth::Meaning;
use crate::verdict::{Refusal, Verdict, RULES};
use crate::world::{encode, Written};

/// Clause, the step of 17 if it is refused, and whether some run breaks it.
pub type Case = (&'static str, Option<usize>, bool);

/// Rows, the lap's first step, the drift, and what is said of such a plan. Place 0 bears m1, place 1 m2, place 2 nothing.
type Plans = (&'static [&'static [u8]], u8, u8, &'static [Case]);

/// One cart always on m1, one on m1 once and then on m2, one always on m2.
const EXAMPLE_3: &[&[u8]] = &[&[0, 0], &[0, 1], &[1, 1]];

/// The second of them goes on to a place without a mark, or comes through it.
const GONE: &[&[u8]] = &[&[0, 0, 0], &[0, 1, 2], &[1, 1, 1]];
const BETWEEN: &[&[u8]] = &[&[0, 0, 0], &[0, 2, 1], &[1, 1, 1]];

const PLANS: [Plans; 9] = [
    (EXAMPLE_3, 1, 1, &EXAMPLE),
    (
        EXAMPLE_3,
        1,
        0,
        &[
            ("G ([m1,2] | [m2,2])", None, false),
            ("[m1,2] U [m2,2]", None, false),
            ("[m1,3] | [m2,2]", Some(0), true),
        ],
    ),
    (
        EXAMPLE_3,
        1,
        16,
        &[
            ("G ([m1,2] | [m2,2])", None, false),
            ("[m1,2] U [m2,2]", None, false),
        ],
    ),
    // In a lap of both steps neither count comes to hold by itself.
    (
        EXAMPLE_3,
        0,
        1,
        &[
            ("G ([m1,2] | [m2,2])", None, false),
            ("[m1,2] U [m2,2]", Some(0), false),
        ],
    ),
    // The window's end, and the step of a G.
    (
        GONE,
        2,
        1,
        &[
            ("[m1,2] | [m2,2]", None, false),
            ("G ([m1,2] | [m2,2])", Some(1), true),
        ],
    ),
    (GONE, 2, 2, &[("G ([m1,2] | [m2,2])", Some(0), true)]),
    (BETWEEN, 2, 2, &[("G ([m1,2] | [m2,2])", Some(0), true)]),
    // All carts at s: for one count, not for joined ones.
    (
        &[&[0, 2], &[1, 2]],
        1,
        1,
        &[
            ("[m1 | m2,1]", None, false),
            ("[m1,1] | [m2,1]", Some(0), false),
        ],
    ),
    (
        &[&[0, 1], &[0, 1], &[0, 1], &[0, 1]],
        0,
        2,
        &[
            ("G ([m1,3] | ![m1,3])", None, false),
            ("G ([m1,3] | [m2,2])", None, false),
            ("G ([m1,2] | [m2,3])", None, false),
            ("G ([m1,3] | [m2,3])", Some(0), true),
        ],
    ),
];

/// What is said of example 3 with drift 1.
const EXAMPLE: [Case; 35] = [
    ("[m1,2] | [m2,2]", None, false),
    ("G ([m1,2] | [m2,2])", None, false),
    ("G ([m2,2] | [m1,2])", None, false),
    ("G [m1,2]", Some(0), true),
    // However it is written.
    ("G !(![m1,2] & ![m2,2])", None, false),
    ("G !([!m1,2] & [!m2,2])", None, false),
    ("!F !([m1,2] | [m2,2])", None, false),
    ("G ([m1,50%] | [m2,67%])", None, false),
    ("G !([m1,2] | [m2,2])", Some(0), true),
    // More than the sum.
    ("G ([m1,2] | ([m2,2] | [m3,1]))", None, false),
    ("G ([m1,2] | ([m2,2] | [m3,2]))", Some(0), false),
    ("G ([m1,2] | [m2,3])", Some(0), true),
    ("G ([m3,0] | [m3,999])", None, false),
    ("G (![m3,0] | [m1,2])", Some(0), true),
    // Nested ors by themselves, and no others.
    ("G ([m1,2] | [m2,2] | [m3,3])", None, false),
    ("G ([m3,3] | ([m1,2] | [m2,2]))", None, false),
    ("G ([m1,2] | ([m2,2] | [m3,3]))", Some(0), false),
    ("G ([m1,2] | [m3,3] | [m2,2])", Some(0), false),
    ("G ([m1,2] | !(![m2,2] & ![m3,3]))", Some(0), false),
    // Counts alone.
    ("G (!true | ([m1,2] | [m2,2]))", None, false),
    ("G (!true | [m1,2] | [m2,2])", Some(0), false),
    ("G ([m1,2] | G [m3,1] | [m2,2])", Some(0), false),
    ("G ([m1,2] & true | [m2,2])", Some(0), false),
    // U and R.
    ("[m1,2] U [m2,2]", None, false),
    ("!(![m1,2] R ![m2,2])", None, false),
    ("([m1,2] | [m3,1]) U [m2,2]", None, false),
    ("([m1,2] | [m2,2]) U [m2,2]", None, false),
    ("[m3,3] U [m1,2] U [m2,2]", None, false),
    ("[m1,2] U ([m3,1] U [m2,2])", Some(0), false),
    ("[m1,2] U ([m2,2] | [m3,3])", Some(0), false),
    ("([m1,2] & true) U [m2,2]", Some(0), false),
    ("[m1,3] U [m2,2]", Some(0), true),
    ("[m2,2] R ([m1,2] | [m2,2])", None, false),
    ("[m1,2] R [m2,2]", Some(0), true),
    ("!(![m1,2] U ![m2,2])", Some(0), true),
];

/// Floor, plan, sheet, the verdict, and whether some run breaks the clause.
pub type Checked = (Vec<u8>, Vec<u8>, Vec<u8>, Verdict, bool);

pub fn all() -> impl Iterator<Item = Checked> {
    PLANS.iter().flat_map(|plans| {
        let (rows, l, d, cases) = plans;
        let (floor, plan) = files(rows, *l, *d, &[]);
        let checked = move |case| checked(&floor, &plan, case);
        cases.iter().map(checked)
    })
}

pub fn checked(floor: &[u8], plan: &[u8], (clause, refused, broken): &Case) -> Checked {
    let rules = format!("{clause}\n").into_bytes();
    let verdict = match refused {
        Some(step) => Verdict::refused(RULES, Refusal(17, 0, *step)),
        None => Verdict::ACCEPTED,
    };
    (floor.to_vec(), plan.to_vec(), rules, verdict, *broken)
}

/// Whether the search over all runs says of a case what is told.
pub fn found_on_runs((floor, plan, rules, verdict, broken): &Checked) -> Result<(), String> {
    let floor = Floor::read(floor).expect("a floor");
    let plan = Plan::read(plan, &floor).expect("a plan");
    let clauses = sheet::read(rules).expect("a sheet");
    let meaning = Meaning::new(&clauses[0], &plan, &floor);
    if some_run_breaks(&Standings::of(&plan), &meaning) == *broken {
        return Ok(());
    }
    let rules = String::from_utf8_lossy(rules);
    Err(format!(
        "{rules:?}, {verdict}: the search over all runs says otherwise"
    ))
}

pub fn files(rows: &[&[u8]], l: u8, d: u8, groups: &[u32]) -> (Vec<u8>, Vec<u8>) {
    let mut floor: Vec<Written> = Vec::new();
    floor.extend([2, 4, 0].map(|marks| (1, vec![marks, 0, 0, 0])));
    for from in 0..3 {
        floor.extend((0..3).map(|to| (2, vec![from, to, 1])));
    }
    floor.extend(rows.iter().map(|row| (3, vec![0, row[0]])));
    let group = |group: &u32| (7, group.to_le_bytes().to_vec());
    floor.extend(groups.iter().map(group));
    let mut plan: Vec<Written> = vec![(4, vec![rows[0].len() as u8, 0, l, 0, d, 0])];
    plan.extend(rows.iter().map(|row| (5, row.to_vec())));
    (encode(&floor), encode(&plan))
}
