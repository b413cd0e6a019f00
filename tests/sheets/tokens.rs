//! The tokens of a sheet's bytes, with their offsets.

use std::ops::Range;

#[derive(Clone, Copy, PartialEq, Eq, Debug)]
pub enum Kind {
    True,
    Mark,
    Number,
    Percentage,
    /// `@` and a group's digit.
    Group,
    /// A token of one byte.
    Sign(u8),
}

pub struct Token {
    pub kind: Kind,
    pub start: usize,
    pub end: usize,
    /// The digits of a mark, number or percentage.
    pub digits: Range<usize>,
}

/// Where the digits from `start` on end.
fn end_of_digits(bytes: &[u8], start: usize) -> usize {
    let rest = &bytes[start..];
    let digits = rest.iter().take_while(|byte| byte.is_ascii_digit());
    start + digits.count()
}

/// The kind of the token at `start`, its end and its digits; none if the bytes end within it.
fn token_at(bytes: &[u8], start: usize) -> Option<(Kind, usize, Range<usize>)> {
    let rest = &bytes[start..];
    match rest[0] {
        b't' => rest
            .starts_with(b"true")
            .then_some((Kind::True, start + 4, 0..0)),
        b'm' => {
            let end = end_of_digits(bytes, start + 1);
            (end > start + 1).then_some((Kind::Mark, end, start + 1..end))
        }
        b'0'..=b'9' => {
            let end = end_of_digits(bytes, start);
            match bytes.get(end) {
                Some(b'%') => Some((Kind::Percentage, end + 1, start..end)),
                _ => Some((Kind::Number, end, start..end)),
            }
        }
        b'@' => (rest.len() > 1).then_some((Kind::Group, start + 2, 0..0)),
        sign => Some((Kind::Sign(sign), start + 1, 0..0)),
    }
}

/// The whole tokens of bytes that some sheet begins with.
pub fn whole(bytes: &[u8]) -> Vec<Token> {
    let mut tokens = Vec::new();
    let mut at = 0;
    while at < bytes.len() {
        if bytes[at] == b' ' {
            at += 1;
            continue;
        }
        let Some((kind, end, digits)) = token_at(bytes, at) else {
            break;
        };
        tokens.push(Token {
            kind,
            start: at,
            end,
            digits,
        });
        at = end;
    }
    tokens
}
