//! Damaged sheets: tokens, lines or bytes changed, moved, cut or added.

use crate::call::Input;
use crate::random::Random;
use crate::reference::MOST_LEVELS;
use crate::sheets::{self, Lines, Token};
use crate::telling;

/// A line with at least one token, if there is one.
fn line(random: &mut Random, lines: &Lines) -> Option<usize> {
    let at = random.position(lines.len());
    (!lines[at].is_empty()).then_some(at)
}

/// Whether an operand may begin with the token.
fn begins_operand(token: &Token) -> bool {
    matches!(
        token[0],
        b't' | b'm' | b'(' | b'[' | b'!' | b'X' | b'F' | b'G'
    )
}

/// Puts prefix operators or parentheses before some operand: still valid if the levels suffice.
fn deepen(random: &mut Random, tokens: &mut Vec<Token>) {
    let starts = (0..tokens.len()).filter(|&at| begins_operand(&tokens[at]));
    let starts: Vec<usize> = starts.collect();
    if starts.is_empty() {
        return;
    }
    let at = random.pick(&starts);
    let more = random.pick(&[1, 1, 2, MOST_LEVELS - 1, MOST_LEVELS, MOST_LEVELS + 1]);
    if random.percent(40) && matches!(tokens[at][0], b't' | b'm') {
        let closes = vec![b")".to_vec(); more];
        tokens.splice(at + 1..at + 1, closes);
        tokens.splice(at..at, vec![b"(".to_vec(); more]);
    } else {
        let sign = random.pick(b"!XFG");
        tokens.splice(at..at, vec![vec![sign]; more]);
    }
}

/// Changes the number of a mark, count or group to another, in or out of range.
fn renumber(random: &mut Random, tokens: &mut [Token]) {
    let numbered = |token: &&mut Token| token.iter().any(u8::is_ascii_digit);
    let mut numbered: Vec<&mut Token> = tokens.iter_mut().filter(numbered).collect();
    if !numbered.is_empty() {
        let at = random.below(numbered.len());
        *numbered[at] = telling::alike(random, numbered[at]);
    }
}

fn damage_tokens(random: &mut Random, lines: &mut Lines) {
    let Some(at) = line(random, lines) else {
        return;
    };
    let tokens = &mut lines[at];
    let (one, other) = (random.position(tokens.len()), random.below(tokens.len()));
    match random.below(12) {
        0 => tokens.swap(one, other),
        1 => drop(tokens.remove(one)),
        2 => tokens.insert(one, tokens[other].clone()),
        3..=4 => tokens[one] = telling::token(random),
        5 => tokens.insert(one, telling::token(random)),
        6 => tokens.truncate(one),
        7..=9 => renumber(random, tokens),
        _ => deepen(random, tokens),
    }
}

fn damage_lines(random: &mut Random, lines: &mut Lines) {
    let (one, other) = (random.position(lines.len()), random.below(lines.len()));
    match random.below(6) {
        0 => lines.swap(one, other),
        1 => lines.insert(one, lines[other].clone()),
        2 => lines.insert(one, Vec::new()),
        3 => lines.push(lines[other].clone()),
        4 if lines.len() > 1 => drop(lines.remove(one)),
        _ => {
            let again = lines[one].clone();
            lines.extend(vec![again; random.between(1, MOST_LEVELS)]);
        }
    }
}

/// Bytes cut off stay in memory behind the sheet.
fn cut(random: &mut Random, sheet: &mut Input) {
    let last = sheet.bytes.len() - 1;
    let any = random.below(sheet.bytes.len());
    let at = random.pick(&[any, any, any, any, any, last, last, last, 0]);
    sheet.behind = sheet.bytes.split_off(at);
}

fn damage_bytes(random: &mut Random, sheet: &mut Input) {
    let bytes = &mut sheet.bytes;
    if bytes.is_empty() {
        return;
    }
    let (at, other) = (random.position(bytes.len()), random.below(bytes.len()));
    let byte = telling::byte(random);
    match random.below(10) {
        0..=2 => bytes[at] = byte,
        3 => bytes[at] ^= 1 << random.below(8),
        4..=5 => bytes.insert(at, byte),
        6 => drop(bytes.remove(at)),
        7 => bytes.push(byte),
        8 => bytes.swap(at, other),
        _ => cut(random, sheet),
    }
}

/// A sheet made of the lines, with so many faults put in; some of them do no harm.
pub fn damaged(random: &mut Random, mut lines: Lines, faults: usize) -> Input {
    let kinds: Vec<usize> = (0..faults).map(|_| random.below(20)).collect();
    for kind in &kinds {
        match kind {
            0..=9 => damage_tokens(random, &mut lines),
            10..=11 => damage_lines(random, &mut lines),
            _ => (),
        }
    }
    let mut sheet = Input::from(sheets::sheet_of(random, &lines));
    for _ in kinds.iter().filter(|kind| **kind > 11) {
        damage_bytes(random, &mut sheet);
    }
    sheet
}

/// Tokens and bytes by chance, without a thought for the grammar.
pub fn soup(random: &mut Random) -> Input {
    let mut bytes = Vec::new();
    for _ in 0..random.below(12) {
        match random.percent(90) {
            true => bytes.extend(telling::token(random)),
            false => bytes.push(telling::byte(random)),
        }
    }
    Input::from(bytes)
}
