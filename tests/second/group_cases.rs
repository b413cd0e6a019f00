//! The cases of groups: document 02's words, and clauses that tell other readings of groups from the right one.

use crate::cases::ACCEPTED;
use crate::joined_cases::{checked, files, Case, Checked};
use crate::verdict::Refusal;
use crate::world::{encode, Written};

/// Groups, rows, the lap's first step, the drift, and what is said of such a plan. Place 0 bears m1, place 1 m2, place 2 nothing.
type Plans = (
    &'static [u32],
    &'static [&'static [u8]],
    u8,
    u8,
    &'static [Case],
);

/// Document 002's example 3, and a cart that bears no mark.
const EXAMPLE_3: &[&[u8]] = &[&[0, 0], &[0, 1], &[1, 1], &[2, 2]];

const PLANS: [Plans; 7] = [
    // Cart 0 is on m1 at step 0 alone, cart 1 always on m2. Of runs, in which all start together, a clause without F or G says what is at step 0.
    (
        &[0b01, 0b11, 0, 0b10],
        &[&[0, 2], &[1, 1]],
        1,
        1,
        &[
            ("[m1,1@0]", Some(0), false),
            ("[m1,1@1]", Some(0), false),
            ("F [!m1,1@0]", None, false),
            ("[m2,1@3]", None, false),
            ("[m2,100%@3]", None, false),
            ("[m2,100%@1]", Some(0), true),
            ("[m2,50%@0]", Some(0), true),
            ("[m2,49%@0]", None, false),
            ("![m2,1@0]", None, false),
            ("![m2,1@1]", Some(0), true),
            ("![m2,1@3]", Some(0), true),
            // No cart.
            ("[m1,0@2]", None, false),
            ("[m1,1@2]", Some(0), true),
            ("[true,1@2]", Some(0), true),
            ("[m1,100%@2]", None, false),
            ("![m1,100%@2]", Some(0), true),
            ("![m1,0@2]", Some(0), true),
            ("![m1,1@2]", None, false),
            ("![m1,2@2]", None, false),
            ("![true,1@2]", None, false),
            ("G ![m1,1@2]", None, false),
            ("F [true,1@2]", Some(0), true),
        ],
    ),
    // While cart 1 is at step 0, cart 0 has to be on m1; it can be ahead.
    (
        &[0b01, 0b11, 0, 0b10],
        &[&[0, 2], &[1, 2]],
        1,
        1,
        &[
            ("G ([m1,1@0] | ![m2,1@3])", Some(0), true),
            ("G ([m1,1@0] | ![m2,1])", Some(0), true),
            ("G ([true,1@0] | ![m2,1@3])", None, false),
            ("G ([true,1@2] | ![m2,1@3])", Some(0), true),
        ],
    ),
    // All carts at s, and none afterwards.
    (
        &[0b11, 0b01, 0, 0b10],
        &[&[0, 2], &[0, 2]],
        1,
        1,
        &[
            ("[m1,1]", None, false),
            ("[m1,1@0]", None, false),
            ("[m1,50%@0]", None, false),
            ("[m1,2@0]", Some(0), false),
            ("[m1,1@1]", Some(0), false),
            ("[m1,1@3]", Some(0), false),
            ("[m1,100%@1]", Some(0), false),
            ("![!m1,2@0]", None, false),
            ("![!m1,1@1]", Some(0), false),
            ("[m1,1@1] | [m1,1@3]", Some(0), false),
        ],
    ),
    // The same in step.
    (
        &[0b11, 0b01, 0, 0b10],
        &[&[0, 2], &[0, 2]],
        1,
        0,
        &[
            ("[m1,1@1]", None, false),
            ("[m1,2@0]", None, false),
            ("[m1,2@1]", Some(0), true),
            ("G [m1,1@3]", Some(1), true),
            ("[true,1@2]", Some(0), true),
        ],
    ),
    // Each cart satisfies what the other is counted for.
    (
        &[0b01, 0b10],
        &[&[1], &[0]],
        0,
        1,
        &[
            ("[m1,1@0] | [m2,1@1]", Some(0), true),
            ("[m1,1@1] | [m2,1@0]", None, false),
            ("[m1,1@0] | [m2,1]", None, false),
            ("[m1,1@0] U [m2,1@1]", Some(0), true),
            ("[m1,1@0] U [m2,1@0]", None, false),
        ],
    ),
    (
        &[0b0111, 0b0111, 0b1111, 0, 0b0011],
        EXAMPLE_3,
        1,
        1,
        &JOINED,
    ),
    (
        &[0b0111, 0b0111, 0b1111, 0, 0b0011],
        EXAMPLE_3,
        1,
        16,
        &[
            ("G ([m1,2@0] | [m2,2@1])", None, false),
            ("[m1,2@1] U [m2,2@0]", None, false),
        ],
    ),
];

/// Groups 0 and 1 are the carts of the example, group 2 is all carts, group 3 none and group 4 the first two.
const JOINED: [Case; 27] = [
    // The same carts as a set.
    ("[m1,2] | [m2,2]", None, false),
    ("[m1,2@0] | [m2,2@0]", None, false),
    ("[m1,2@0] | [m2,2@1]", None, false),
    ("[m1,2@2] | [m2,2]", None, false),
    ("G ([m2,2@1] | [m1,2@0])", None, false),
    ("[m1,2@0] | [m2,2@2]", Some(0), false),
    ("[m1,2] | [m2,2@0]", Some(0), false),
    ("[m1,2@4] | [m2,2@0]", Some(0), false),
    // More than the sum.
    ("G ([m1,2@0] | [m2,3@1])", Some(0), true),
    ("[m1,2@0] | ([m2,2@1] | [m3,1@0])", None, false),
    ("[m1,2@0] | ([m2,2@1] | [m3,2@0])", Some(0), false),
    // Nested ors by themselves.
    ("[m1,2@0] | [m2,2@1] | [m3,1]", None, false),
    ("[m3,1] | ([m1,2@0] | [m2,2@1])", None, false),
    ("[m1,2@0] | ([m2,2@1] | [m3,1])", Some(0), false),
    // Negations and percentages by the group's size.
    ("!(![m1,2@0] & ![m2,2@1])", None, false),
    ("!([!m1,2@0] & [!m2,2@0])", None, false),
    ("!([!m1,2] & [!m2,2])", Some(0), true),
    ("G ([m1,67%@0] | [m2,50%@0])", None, false),
    ("G ([m1,67%] | [m2,50%])", Some(0), true),
    // U and R.
    ("[m1,2@0] U [m2,2@1]", None, false),
    ("!(![m1,2@0] R ![m2,2@1])", None, false),
    ("[m1,2@0] U [m2,2]", Some(0), false),
    ("[m1,2@4] U [m2,2@0]", Some(0), false),
    // No cart.
    ("[m1,1@3] | [m2,1@3]", Some(0), true),
    ("[m1,0@3] | [m2,5@3]", None, false),
    ("![m1,1@3] | [m2,1@3]", None, false),
    ("[true,1@3] | [!m1,1@3]", Some(0), true),
];

pub fn judged() -> impl Iterator<Item = Checked> {
    PLANS.iter().flat_map(|(groups, rows, l, d, cases)| {
        let (floor, plan) = files(rows, *l, *d, groups);
        let checked = move |case| checked(&floor, &plan, case);
        cases.iter().map(checked)
    })
}

/// The groups of document 01's floor for the sheets: its first cart, both, none.
pub const GROUPS: [u32; 3] = [1, 3, 0];

/// Sheet, drift, verdict.
const SHEETS: [(&str, u8, Refusal); 44] = [
    ("[m0,1@0]\n", 0, ACCEPTED),
    ("[m0,1 @0]\n", 0, ACCEPTED),
    ("[m0,1@0 ]\n", 0, ACCEPTED),
    (" [ m0 , 1   @1   ]  \n", 0, ACCEPTED),
    ("[m0,100%@0]\n", 0, ACCEPTED),
    ("[m0,100% @1]\n", 0, ACCEPTED),
    ("[m0,2@0]\n", 0, Refusal(17, 0, 0)),
    ("[m0,1@2]\n", 0, Refusal(17, 0, 0)),
    ("![m0,1@2]\n", 16, ACCEPTED),
    ("G [m0,1@0]\n", 0, Refusal(17, 0, 1)),
    ("G [m0,1@1]\n", 0, Refusal(17, 0, 2)),
    // One token.
    ("[m0,1@8]\n", 0, Refusal(13, 6, 0)),
    ("[m0,1@9]\n", 0, Refusal(13, 6, 0)),
    ("[m0,1@01]\n", 0, Refusal(13, 7, 0)),
    ("[m0,1@10]\n", 0, Refusal(13, 7, 0)),
    ("[m0,1@ 0]\n", 0, Refusal(13, 6, 0)),
    ("[m0,1 @ 0]\n", 0, Refusal(13, 7, 0)),
    ("[m0,1@", 0, Refusal(13, 6, 0)),
    ("[m0,1@0", 0, Refusal(13, 7, 0)),
    ("[m0,1@]\n", 0, Refusal(13, 6, 0)),
    ("[m0,1@0@0]\n", 0, Refusal(13, 7, 0)),
    ("[m0,1@0%]\n", 0, Refusal(13, 7, 0)),
    ("[m0@0,1]\n", 0, Refusal(13, 3, 0)),
    ("[m0,@0]\n", 0, Refusal(13, 4, 0)),
    ("[m0,1]@0\n", 0, Refusal(13, 6, 0)),
    ("true@0\n", 0, Refusal(13, 4, 0)),
    ("@0\n", 0, Refusal(13, 0, 0)),
    ("[m0,1000@9]\n", 0, Refusal(15, 4, 0)),
    ("[m0,101%@8]\n", 0, Refusal(15, 4, 0)),
    ("[m0,101@8]\n", 0, Refusal(13, 8, 0)),
    ("[m32,1@8]\n", 0, Refusal(15, 2, 0)),
    // A group that the floor lacks: after the sheet, before 16.
    ("[m0,1@3]\n", 0, Refusal(21, 0, 3)),
    ("[m0,1@7]\n", 16, Refusal(21, 0, 7)),
    ("[m0,1@3]\n?", 0, Refusal(13, 9, 0)),
    ("[m0,1@5] & [m0,1@3]\n", 0, Refusal(21, 0, 5)),
    ("[m0,1@0] | [m0,1@6] | [m0,1@3]\n", 0, Refusal(21, 0, 6)),
    ("![m0,1@0] U ([m0,1@7] R [m0,1@4])\n", 0, Refusal(21, 0, 7)),
    ("true | [m0,0@3]\n", 0, Refusal(21, 0, 3)),
    ("!true\n[m0,1@3]\n", 0, Refusal(21, 1, 3)),
    ("X true\n[m0,1@3]\n", 1, Refusal(21, 1, 3)),
    ("[m0,1@4]\nX true\n[m0,1@3]\n", 1, Refusal(21, 0, 4)),
    ("X [m0,1@3]\n", 1, Refusal(21, 0, 3)),
    ("X [m0,1@0]\n", 1, Refusal(16, 0, 0)),
    ("X [m0,1@1]\n", 0, ACCEPTED),
];

pub fn sheets() -> impl Iterator<Item = (String, u8, Refusal)> {
    // A group is no node and no level.
    let counts = vec!["[m0,0@0]"; 43].join("&");
    let deep = "!".repeat(30) + "([m0,0@0])";
    let limits = [
        (format!("{counts}\n"), 0, ACCEPTED),
        (format!("!{counts}\n"), 0, Refusal(14, counts.len() - 6, 0)),
        (format!("{deep}\n"), 0, ACCEPTED),
        (format!("!{deep}\n"), 0, Refusal(14, 32, 0)),
    ];
    let sheets = SHEETS.iter().map(|(s, d, r)| (s.to_string(), *d, *r));
    sheets.chain(limits)
}

pub fn records(groups: &[u32]) -> Vec<u8> {
    let group = |group: &u32| (7, group.to_le_bytes().to_vec());
    encode(&groups.iter().map(group).collect::<Vec<Written>>())
}

/// Records behind document 01's floor of 56 bytes, which has two carts, and the floor's refusal.
pub fn floors() -> Vec<(Vec<u8>, Refusal)> {
    let with = |groups: &[u32], more: &[Written]| [records(groups), encode(more)].concat();
    let narrow = |place| (6, vec![place]);
    let eight = [3, 0, 1, 2, 3, 3, 0, 0];
    let group = |body: &[u8]| (7, body.to_vec());
    vec![
        (records(&[3]), ACCEPTED),
        (records(&[0]), ACCEPTED),
        (records(&eight), ACCEPTED),
        (with(&eight, &[group(&[0; 4])]), Refusal(5, 120, 0)),
        (with(&eight, &[group(&[4, 0, 0, 0])]), Refusal(5, 120, 0)),
        (with(&eight, &[group(&[4, 0, 0])]), Refusal(4, 120, 0)),
        (records(&[4]), Refusal(6, 56, 0)),
        (records(&[3, 7]), Refusal(6, 64, 0)),
        (records(&[1 << 31]), Refusal(6, 56, 0)),
        (with(&[], &[group(&[3, 0, 0])]), Refusal(4, 56, 0)),
        (with(&[1], &[group(&[4, 0, 0, 0, 0])]), Refusal(4, 64, 0)),
        (with(&[], &[group(&[])]), Refusal(4, 56, 0)),
        (with(&[1], &[narrow(1)]), Refusal(3, 64, 0)),
        (with(&[0], &[(3, vec![0, 0])]), Refusal(3, 64, 0)),
        (with(&[0], &[(2, vec![0, 0, 1])]), Refusal(3, 64, 0)),
        (with(&[0], &[(1, vec![0; 4])]), Refusal(3, 64, 0)),
        (with(&[0], &[(12, vec![])]), Refusal(3, 64, 0)),
        (records(&[3])[..7].to_vec(), Refusal(2, 56, 0)),
    ]
}
