//! Sheets about their limits: levels, nodes, lines, length, numbers.

use crate::clauses::Clauses;
use crate::print::Printer;
use crate::random::Random;
use crate::sheets::{self, Wish};

/// A sheet about one of the limits of 14, with other clauses around.
pub fn about_limits(clauses: &mut Clauses) -> Vec<u8> {
    let line = match clauses.random.below(4) {
        0 => return lines(clauses),
        1 => nodes(clauses),
        _ => levels(clauses.random),
    };
    let mut sheet = few_lines(clauses);
    sheet.extend(line);
    sheet.extend(few_lines(clauses));
    sheet
}

fn few_lines(clauses: &mut Clauses) -> Vec<u8> {
    match clauses.random.below(4) {
        0 => sheets::line(clauses, Wish::Kept),
        _ => Vec::new(),
    }
}

fn lines(clauses: &mut Clauses) -> Vec<u8> {
    let count = clauses.random.range(30, 33);
    let words: [&[u8]; 4] = [b"true\n", b" [true,0] \n", b"!!true\n", b"[m0,0]|true\n"];
    let mut sheet: Vec<u8> = (0..count)
        .flat_map(|_| clauses.random.pick(&words).to_vec())
        .collect();
    if count < 33 {
        sheet.extend(sheets::line(clauses, Wish::Any));
    }
    let ends: [&[u8]; 6] = [b"", b"", b"", b" ", b"]", b"\n"];
    sheet.extend(clauses.random.pick(&ends));
    sheet
}

fn nodes(clauses: &mut Clauses) -> Vec<u8> {
    let nodes = clauses.random.range(126, 130);
    let clause = clauses.clause(nodes);
    Printer::new(clauses.random).line(&clause)
}

/// Some 32 things open within one another.
fn levels(random: &mut Random) -> Vec<u8> {
    let depth = random.range(30, 34);
    let (mut text, mut ends) = (String::new(), Vec::new());
    let (mut in_count, mut prefixed) = (false, false);
    for _ in 0..depth {
        let kind = random.below(4);
        let leaf = if in_count { "m1" } else { "true" };
        if kind == 0 && !in_count {
            in_count = true;
            text += "[";
            ends.push(random.pick(&[",0]", ",1]", " ,50%]", ",0@0]", ",1 @7]"]));
        } else if kind <= 1 || kind == 2 && prefixed {
            text += "(";
            ends.push(random.pick(&[")", " )", "&true)", "|true)"]));
        } else if kind == 2 {
            text += leaf;
            text += random.pick(&[" U", "R", "&true U", "|!true R "]);
        } else {
            text += random.pick(&["!", "F", "G ", "!"]);
        }
        prefixed = kind == 3;
    }
    text += if in_count { "m0" } else { "true" };
    ends.iter().rev().for_each(|end| text += end);
    text += random.pick(&["\n", "\n", "\n", ""]);
    text.into_bytes()
}

/// Pads a sheet with spaces to about its greatest length.
pub fn pad(random: &mut Random, sheet: &mut Vec<u8>) {
    let length = random.pick(&[16_383, 16_384, 16_385, 16_386, 20_000]);
    let spaces = length - sheet.len().min(length);
    sheet.splice(0..0, vec![b' '; spaces]);
}

/// A sheet with one of its numbers replaced by another, at times ending there.
pub fn other_number(random: &mut Random, sheet: &[u8]) -> Vec<u8> {
    let starts: Vec<usize> = (0..sheet.len())
        .filter(|&i| sheet[i].is_ascii_digit() && (i == 0 || !sheet[i - 1].is_ascii_digit()))
        .collect();
    if starts.is_empty() {
        return b"[m32,0]\n".to_vec();
    }
    let start = random.pick(&starts);
    let digits = sheet[start..].iter().take_while(|b| b.is_ascii_digit());
    let end = start + digits.count();
    let mut out = sheet[..start].to_vec();
    out.extend(number(random));
    if random.chance(90) {
        out.extend(&sheet[end..]);
    }
    out
}

/// A sheet with another token of a group in front of one of its brackets, instead of the one there or beside it.
pub fn other_group(random: &mut Random, sheet: &[u8]) -> Vec<u8> {
    let ends: Vec<usize> = (0..sheet.len()).filter(|i| sheet[*i] == b']').collect();
    if ends.is_empty() {
        return b"[m0,0@8]\n".to_vec();
    }
    let end = random.pick(&ends);
    let token = random.pick(&GROUPS).as_bytes();
    let start = match sheet[..end].iter().rposition(|byte| *byte == b'@') {
        Some(at) if at + 2 == end && random.chance(70) => at,
        _ => end,
    };
    [&sheet[..start], token, &sheet[end..]].concat()
}

const GROUPS: [&str; 20] = [
    "@0", "@7", " @1", "  @3  ", "@8", "@9", "@01", "@10", "@00", "@ 0", "@", "@@0", "@0@0",
    "@0 @1", "@0%", "@-1", "@m0", "@]", ",@0", "#0",
];

const NUMBERS: &str = "31,32,33,99,100,101,999,1000,1001,100%,101%,102 %,999%,1000%,0,00,01,\
    4294967296,18446744073709551617,65536,256";

fn number(random: &mut Random) -> Vec<u8> {
    let numbers: Vec<&str> = NUMBERS.split(',').collect();
    match random.below(8) {
        0 => vec![random.pick(b"123456789"); random.range(1, 40)],
        1 => random.below(2000).to_string().into_bytes(),
        _ => random.pick(&numbers).as_bytes().to_vec(),
    }
}
