//! Document 01's grammar of a sheet, rule by rule, without its limits.

use Part::*;
use Symbol::{Joined, Of, Token};

/// What a rule is for. The chains and smallest parts are there twice: of a clause, and of inner
/// text.
#[derive(Clone, Copy, PartialEq, Eq, Debug)]
pub enum Part {
    Sheet,
    Or(Text),
    And(Text),
    Until(Text),
    Smallest(Text),
    Count,
    /// What stands behind a count's comma.
    Amount,
    Mark,
    /// A mark whose number doesn't begin with 0.
    LongMark,
    Number,
    /// A number that doesn't begin with 0.
    LongNumber,
    Group,
}

#[derive(Clone, Copy, PartialEq, Eq, Debug)]
pub enum Text {
    Outer,
    Inner,
}

#[derive(Clone, Copy, PartialEq, Eq, Debug)]
pub enum Symbol {
    Of(Part),
    /// The first byte of a token, one of these; spaces may stand before it.
    Token(&'static [u8]),
    /// A further byte of a token.
    Joined(&'static [u8]),
}

pub struct Rule {
    pub part: Part,
    pub symbols: Vec<Symbol>,
}

const DIGITS: &[u8] = b"0123456789";
const FIRST_DIGITS: &[u8] = b"123456789";
const GROUP_DIGITS: &[u8] = b"01234567";

fn rule(part: Part, symbols: &[Symbol]) -> Rule {
    let symbols = symbols.to_vec();
    Rule { part, symbols }
}

/// One clause a line, each line ended by byte 10.
fn lines() -> Vec<Rule> {
    let clause = Of(Or(Text::Outer));
    vec![
        rule(Sheet, &[clause, Token(b"\n")]),
        rule(Sheet, &[Of(Sheet), clause, Token(b"\n")]),
    ]
}

/// The shape of a clause or of inner text; `own` is what only one of them has.
fn shape(text: Text, own: Part) -> Vec<Rule> {
    let [or, and, until] = [Or(text), And(text), Until(text)];
    let small = Smallest(text);
    vec![
        rule(or, &[Of(and)]),
        rule(or, &[Of(or), Token(b"|"), Of(and)]),
        rule(and, &[Of(until)]),
        rule(and, &[Of(and), Token(b"&"), Of(until)]),
        rule(until, &[Of(small)]),
        rule(until, &[Of(small), Token(b"UR"), Of(until)]),
        rule(
            small,
            &[Token(b"t"), Joined(b"r"), Joined(b"u"), Joined(b"e")],
        ),
        rule(small, &[Token(b"("), Of(or), Token(b")")]),
        rule(small, &[Token(b"!XFG"), Of(small)]),
        rule(small, &[Of(own)]),
    ]
}

/// A number with its `%` is one token, and so are a mark and a group.
fn counts_and_marks() -> Vec<Rule> {
    let (open, comma, close) = (Token(b"["), Token(b","), Token(b"]"));
    let inner = Of(Or(Text::Inner));
    let number = Of(Number);
    vec![
        rule(Count, &[open, inner, comma, Of(Amount), close]),
        rule(Amount, &[number]),
        rule(Amount, &[number, Joined(b"%")]),
        rule(Amount, &[number, Of(Group)]),
        rule(Amount, &[number, Joined(b"%"), Of(Group)]),
        rule(Group, &[Token(b"@"), Joined(GROUP_DIGITS)]),
        rule(Number, &[Token(b"0")]),
        rule(Number, &[Of(LongNumber)]),
        rule(LongNumber, &[Token(FIRST_DIGITS)]),
        rule(LongNumber, &[Of(LongNumber), Joined(DIGITS)]),
        rule(Mark, &[Token(b"m"), Joined(b"0")]),
        rule(Mark, &[Of(LongMark)]),
        rule(LongMark, &[Token(b"m"), Joined(FIRST_DIGITS)]),
        rule(LongMark, &[Of(LongMark), Joined(DIGITS)]),
    ]
}

pub fn rules() -> Vec<Rule> {
    let parts = [
        lines(),
        shape(Text::Outer, Count),
        shape(Text::Inner, Mark),
        counts_and_marks(),
    ];
    parts.into_iter().flatten().collect()
}
