//! Random cases: sheets to read, and verdicts with a sheet to pick from.

use crate::brink;
use crate::call::Input;
use crate::damage;
use crate::pick_cases::verdict_bytes;
use crate::random::Random;
use crate::reference::RULES;
use crate::sheets;

/// A sheet to read and what kind it is.
pub fn sheet(random: &mut Random) -> (&'static str, Input) {
    let lines = sheets::lines(random);
    match random.below(400) {
        0..=1 => {
            let sheet = sheets::sheet_of(random, &lines);
            let sheet = sheets::stretched(random, &sheet);
            ("stretched", Input::from(sheet))
        }
        2..=9 => ("chance tokens", damage::soup(random)),
        10..=49 => ("brink", brink::sheet(random)),
        50..=119 => {
            let sheet = sheets::sheet_of(random, &lines);
            ("undamaged", Input::from(sheet))
        }
        120..=299 => ("one fault", damage::damaged(random, lines, 1)),
        _ => {
            let faults = random.between(2, 4);
            ("a few faults", damage::damaged(random, lines, faults))
        }
    }
}

/// A sheet for picking: any that could be read, or lines of chance bytes.
fn sheet_to_pick_from(random: &mut Random) -> Input {
    if random.percent(40) {
        return sheet(random).1;
    }
    let length = random.pick(&[0, 1, 2, 5, 20, 90]);
    let mut bytes = random.bytes(length);
    let ends = random.pick(&[0, 20, 50, 90]);
    for byte in &mut bytes {
        if random.percent(ends) {
            *byte = b'\n';
        }
    }
    let mut sheet = Input::from(bytes);
    sheet.behind = random.pick(&[&b""[..], b"\n", b"x\n"]).to_vec();
    sheet
}

/// A verdict's number: mostly 16, 17 or 21, else near them in some way.
fn number(random: &mut Random) -> u32 {
    let right = random.pick(&[16, 17, 21]);
    match random.below(12) {
        0..=1 => random.between(0, 60) as u32,
        2 => right << random.pick(&[8, 16, 24]),
        3 => right | 1 << random.between(8, 31),
        _ => right,
    }
}

fn about(random: &mut Random) -> u32 {
    let any = random.next() as u32;
    match random.percent(88) {
        true => RULES,
        false => random.pick(&[0, 1, 2, 4, 3 << 8, 3 << 16, 256 + 3, any]),
    }
}

/// The numbers of a verdict that picks a line of the sheet, or nearly does.
fn verdict(random: &mut Random, sheet: &[u8]) -> [u32; 4] {
    let ends = sheet.iter().filter(|&&byte| byte == b'\n').count() as u32;
    let there = random.below(ends.max(1) as usize) as u32;
    let any = random.next() as u32;
    let line = match random.below(8) {
        0 => there | 1 << random.between(6, 31),
        1 => ends,
        2 => any,
        _ => there,
    };
    let second = random.pick(&[0, 1, 63, any]);
    [about(random), number(random), line, second]
}

/// A sheet and a verdict's bytes, mostly 16.
pub fn pick(random: &mut Random) -> (Input, Input) {
    let sheet = sheet_to_pick_from(random);
    let mut bytes = verdict_bytes(verdict(random, &sheet.bytes));
    let more = random.bytes(4);
    bytes.extend_from_slice(&more);
    let length = match random.percent(90) {
        true => 16,
        false => random.between(0, bytes.len()),
    };
    let behind = bytes.split_off(length);
    (sheet, Input { bytes, behind })
}
