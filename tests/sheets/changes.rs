//! Sheets whose every byte is changed to every other value, one at a time.

use crate::short_cases::PAPER;

/// Sheets as a workshop would write them, with and without spaces.
const WORKSHOP: &str =
    "G F [m3,50%]\nG ([m4 & !m5,2] | X F [m6 U m7,100%])\n[G (m1 | m2 | X m31),999]\n";
const SPACED: &str =
    "  ! ( true  U [ m0 R ( m9 ) , 10% ] )  & true \n F [ X m10 , 0 ] R true | true\n";
const GROUPS: &str = "G [m1,2@0] | [m1 & !m2,50%@7]\n[ m0 , 100% @3 ]&[m3,999 @1]\n";

/// The sheets of the examples.
const EXAMPLES: [&[u8]; 2] = [
    include_bytes!("../../examples/two-carts/rules"),
    include_bytes!("../../examples/workshop/rules"),
];

/// Every limit reached and none passed: 32 clauses, one of 128 nodes, levels of 32 by each kind,
/// and spaces where one more could stand.
fn full() -> Vec<u8> {
    let lines = [
        format!("{} true\n", "!X".repeat(16)),
        format!("{} true{}\n", "(".repeat(32), ")".repeat(32)),
        format!("{}true & true\n", "trueU".repeat(32)),
        format!("{}[ m31 & !m1,999@7]{}\n", "F(".repeat(15), ")".repeat(15)),
        format!("[ m0{},100%]\n", "&m1".repeat(63)),
        format!("true & true\n{}", "true\n".repeat(26)),
    ];
    lines.concat().into_bytes()
}

pub fn sheets() -> Vec<Vec<u8>> {
    let written = [PAPER, WORKSHOP, SPACED, GROUPS];
    let written = written.map(|sheet| sheet.as_bytes().to_vec());
    let examples = EXAMPLES.map(<[u8]>::to_vec);
    written
        .into_iter()
        .chain(examples)
        .chain([full()])
        .collect()
}

/// Every sheet that differs from this one in one byte.
pub fn of(sheet: &[u8]) -> impl Iterator<Item = Vec<u8>> + '_ {
    let others = |at: usize| (0..=255).map(move |byte| (at, byte));
    let changes = (0..sheet.len()).flat_map(others);
    let changes = changes.filter(|&(at, byte)| sheet[at] != byte);
    changes.map(|(at, byte)| {
        let mut changed = sheet.to_vec();
        changed[at] = byte;
        changed
    })
}
