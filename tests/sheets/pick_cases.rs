//! Verdicts and the part of a sheet that each picks, written by hand.

use crate::reference::{Part, NO_PART, RULES};

/// A sheet, a verdict's bytes, and the part that is due.
pub struct Pick {
    pub sheet: Vec<u8>,
    pub verdict: Vec<u8>,
    pub part: Part,
}

/// A verdict's four numbers as bytes.
pub fn verdict_bytes(numbers: [u32; 4]) -> Vec<u8> {
    numbers.map(u32::to_le_bytes).concat()
}

const SHEET: &[u8] = b"true\n [m0,1] \nF [m1,2]\n";

fn pick(sheet: &[u8], numbers: [u32; 4], offset: usize, length: usize) -> Pick {
    Pick {
        sheet: sheet.to_vec(),
        verdict: verdict_bytes(numbers),
        part: Part { offset, length },
    }
}

fn none(sheet: &[u8], numbers: [u32; 4]) -> Pick {
    pick(sheet, numbers, 0, 0)
}

fn clauses() -> Vec<Pick> {
    vec![
        pick(SHEET, [3, 16, 0, 0], 0, 4),
        pick(SHEET, [3, 17, 0, 0], 0, 4),
        pick(SHEET, [3, 17, 0, 63], 0, 4),
        pick(SHEET, [3, 16, 0, u32::MAX], 0, 4),
        pick(SHEET, [3, 16, 1, 0], 5, 8),
        pick(SHEET, [3, 17, 1, 5], 5, 8),
        pick(SHEET, [3, 16, 2, 0], 14, 8),
        pick(SHEET, [3, 17, 2, 1], 14, 8),
        pick(SHEET, [3, 21, 0, 0], 0, 4),
        pick(SHEET, [3, 21, 1, 7], 5, 8),
        pick(SHEET, [3, 21, 2, u32::MAX], 14, 8),
        none(SHEET, [3, 21, 3, 0]),
        none(SHEET, [3, 17, 3, 0]),
        none(SHEET, [3, 16, 4, 0]),
        none(SHEET, [3, 16, 256, 0]),
        none(SHEET, [3, 17, 65_536, 0]),
        none(SHEET, [3, 17, 1 << 31, 0]),
        none(SHEET, [3, 17, u32::MAX, 0]),
    ]
}

/// A line is a clause if byte 10 ends it, whatever it holds.
fn odd_sheets() -> Vec<Pick> {
    let many = b"a\n".repeat(300);
    let long = [b" ".repeat(20_000), b"\nx\n".to_vec()].concat();
    vec![
        none(b"", [3, 16, 0, 0]),
        none(b"", [3, 17, u32::MAX, 0]),
        none(b"true", [3, 17, 0, 0]),
        pick(b"true\ntrue", [3, 17, 0, 0], 0, 4),
        none(b"true\ntrue", [3, 17, 1, 0]),
        none(b"true\n   ", [3, 16, 1, 0]),
        pick(b"   \n", [3, 16, 0, 0], 0, 3),
        pick(b"\n", [3, 16, 0, 0], 0, 0),
        none(b"\n", [3, 16, 1, 0]),
        pick(b"x\n\n[m32\n", [3, 17, 1, 0], 2, 0),
        pick(b"x\n\n[m32\n", [3, 17, 2, 0], 3, 4),
        pick(b"a\r\n\0\xff\n", [3, 17, 0, 0], 0, 2),
        pick(b"a\r\n\0\xff\n", [3, 17, 1, 0], 3, 2),
        pick(&many, [3, 17, 31, 0], 62, 1),
        pick(&many, [3, 17, 32, 0], 64, 1),
        pick(&many, [3, 16, 256, 0], 512, 1),
        pick(&many, [3, 16, 299, 0], 598, 1),
        none(&many, [3, 16, 300, 0]),
        pick(&long, [3, 16, 0, 0], 0, 20_000),
        pick(&long, [3, 17, 1, 0], 20_001, 1),
    ]
}

fn other_verdicts() -> Vec<Pick> {
    let mut picks = Vec::new();
    for about in [0, 1, 2, 4, 19, 256, 259, 3 << 8, 3 << 24, u32::MAX] {
        picks.push(none(SHEET, [about, 16, 1, 0]));
        picks.push(none(SHEET, [about, 17, 1, 0]));
        picks.push(none(SHEET, [about, 21, 1, 0]));
    }
    let near = [272, 273, 277, 16 << 8, 17 << 16, 21 << 24, 65_552, u32::MAX];
    let numbers = (0..=15).chain(18..=20).chain(22..=32).chain(near);
    picks.extend(numbers.map(|number| none(SHEET, [RULES, number, 1, 0])));
    picks.push(none(SHEET, [17, 3, 1, 0]));
    picks
}

fn other_lengths() -> Vec<Pick> {
    let bytes = [verdict_bytes([3, 16, 1, 0]), vec![0; 24]].concat();
    let lengths = (0..16).chain(17..=20).chain([32, 40]);
    let pick = |length: usize| Pick {
        sheet: SHEET.to_vec(),
        verdict: bytes[..length].to_vec(),
        part: NO_PART,
    };
    lengths.map(pick).collect()
}

pub fn all() -> Vec<Pick> {
    let picks = [clauses(), odd_sheets(), other_verdicts(), other_lengths()];
    picks.into_iter().flatten().collect()
}
