//! Reading a sheet and picking a clause, written straight from documents 01 and 02 for comparison.
//!
//! Every refusal that could be given is collected with its offset, and then the paper's order
//! chooses. Where the grammar fails is found by `automaton`, nodes and levels by `levels`.

use crate::automaton;
use crate::levels::{Clause, Open};
use crate::tokens::{self, Kind, Token};

/// About, number, first, second.
pub type Verdict = [u32; 4];

#[derive(Clone, Copy, PartialEq, Eq, Debug)]
pub struct Part {
    pub offset: usize,
    pub length: usize,
}

pub const NO_PART: Part = Part {
    offset: 0,
    length: 0,
};

pub const RULES: u32 = 3;
pub const LONGEST_SHEET: usize = 16_384;
pub const MOST_CLAUSES: usize = 32;
pub const MOST_NODES: usize = 128;
pub const MOST_LEVELS: usize = 32;

/// Why an answer is what it is.
#[derive(Clone, Copy, PartialEq, Eq, Debug)]
pub enum Reason {
    Accepted,
    /// With a count over a group.
    AcceptedGroup,
    Empty,
    TooLong,
    WrongByte,
    /// Straight behind the sign of a group.
    WrongGroup,
    EndsEarly,
    Line,
    Node,
    Level(Open),
    Mark,
    Number,
    Percentage,
    Picked,
    OtherLength,
    OtherVerdict,
    NoClause,
}

pub struct Refusal {
    number: u32,
    offset: usize,
    reason: Reason,
}

fn refusal(number: u32, offset: usize, reason: Reason) -> Refusal {
    Refusal {
        number,
        offset,
        reason,
    }
}

/// 13: the first byte that no sheet could have, or the length.
fn wrong_byte(sheet: &[u8]) -> Option<Refusal> {
    let offset = automaton::first_wrong(sheet)?;
    let reason = match sheet[..offset].last() {
        _ if offset == sheet.len() => Reason::EndsEarly,
        Some(b'@') => Reason::WrongGroup,
        _ => Reason::WrongByte,
    };
    Some(refusal(13, offset, reason))
}

/// 14: the first byte after the 32nd line, whatever it is.
fn surplus_line(sheet: &[u8], tokens: &[Token]) -> Option<Refusal> {
    let line_end = |token: &&Token| token.kind == Kind::Sign(b'\n');
    let last = tokens.iter().filter(line_end).nth(MOST_CLAUSES - 1)?;
    (last.end < sheet.len()).then(|| refusal(14, last.end, Reason::Line))
}

/// 14: the first token that is a node too many or opens a level too many.
fn surplus_token(tokens: &[Token]) -> Option<Refusal> {
    let mut clause = Clause::default();
    for token in tokens {
        clause.take(token.kind);
        if clause.nodes() > MOST_NODES {
            return Some(refusal(14, token.start, Reason::Node));
        }
        if clause.level() > MOST_LEVELS {
            let opened = clause.innermost()?;
            return Some(refusal(14, token.start, Reason::Level(opened)));
        }
    }
    None
}

/// Whether digits without leading zeros are a number of at most `most`.
fn in_range(digits: &[u8], most: &str) -> bool {
    let most = most.as_bytes();
    digits.len() < most.len() || digits.len() == most.len() && digits <= most
}

/// 15: the first digit of the first number out of range.
fn out_of_range(sheet: &[u8], tokens: &[Token]) -> Option<Refusal> {
    tokens.iter().find_map(|token| {
        let (most, reason) = match token.kind {
            Kind::Mark => ("31", Reason::Mark),
            Kind::Number => ("999", Reason::Number),
            Kind::Percentage => ("100", Reason::Percentage),
            _ => return None,
        };
        let offset = token.digits.start;
        let fits = in_range(&sheet[token.digits.clone()], most);
        (!fits).then(|| refusal(15, offset, reason))
    })
}

/// The lowest offset wins; at an equal one 14, 15, 13.
fn first_refusal(sheet: &[u8]) -> Option<Refusal> {
    let wrong = wrong_byte(sheet);
    let allowed = wrong.as_ref().map_or(sheet.len(), |wrong| wrong.offset);
    let tokens = tokens::whole(&sheet[..allowed]);
    let found = [
        surplus_line(sheet, &tokens),
        surplus_token(&tokens),
        out_of_range(sheet, &tokens),
        wrong,
    ];
    let order = |number: u32| [14, 15, 13].iter().position(|&n| n == number);
    let found = found.into_iter().flatten();
    found.min_by_key(|refusal| (refusal.offset, order(refusal.number)))
}

/// The verdict on a sheet, and why.
pub fn read_rules(sheet: &[u8]) -> (Verdict, Reason) {
    let refused = match sheet.len() {
        0 => Some(refusal(7, 0, Reason::Empty)),
        length if length > LONGEST_SHEET => Some(refusal(12, 0, Reason::TooLong)),
        _ => first_refusal(sheet),
    };
    match refused {
        Some(refused) => (
            [RULES, refused.number, refused.offset as u32, 0],
            refused.reason,
        ),
        None if sheet.contains(&b'@') => ([0; 4], Reason::AcceptedGroup),
        None => ([0; 4], Reason::Accepted),
    }
}

/// The part of the sheet that the verdict's bytes pick, and why it is that.
pub fn clause(sheet: &[u8], verdict: &[u8]) -> (Part, Reason) {
    let Ok(bytes) = <[u8; 16]>::try_from(verdict) else {
        return (NO_PART, Reason::OtherLength);
    };
    let numbers = u128::from_le_bytes(bytes);
    let [about, number, clause] = [0, 32, 64].map(|shift| (numbers >> shift) as u32);
    if about != RULES || ![16, 17, 21].contains(&number) {
        return (NO_PART, Reason::OtherVerdict);
    }
    let mut start = 0;
    let lines = sheet.split_inclusive(|&byte| byte == b'\n');
    for (line, count) in lines.zip(0u32..) {
        if count == clause && line.ends_with(b"\n") {
            let length = line.len() - 1;
            let offset = start;
            return (Part { offset, length }, Reason::Picked);
        }
        start += line.len();
    }
    (NO_PART, Reason::NoClause)
}
