//! The first byte that no sheet could have after the bytes before it: an automaton over bytes with
//! a stack of open brackets.
//!
//! It knows no limits, and no grouping either: how tightly an operator binds decides what a clause
//! means, but not which bytes can follow.

/// What the bytes so far leave to be awaited.
#[derive(Clone, Copy, PartialEq, Eq)]
enum Await {
    /// A line, or the end of the sheet if there was one.
    Line,
    Operand,
    /// The rest of `true`, so many bytes of which are there.
    Word(usize),
    /// The first digit of a mark.
    MarkDigit,
    /// More digits of a mark, or what may follow an operand.
    MoreMark,
    /// An operand is complete.
    Operator,
    /// The first digit of a count's number.
    Number,
    /// More digits of a number, or what may follow its last.
    MoreNumber,
    /// `%`, or what may follow a number.
    Percent,
    /// A group, or the end of a count.
    Group,
    /// The digit of a group.
    GroupDigit,
    /// The end of a count.
    Close,
}

struct Automaton {
    awaits: Await,
    /// `(` and `[`, innermost last; a `[` is there at most once.
    open: Vec<u8>,
    lines: usize,
}

impl Automaton {
    /// Takes a byte, if a sheet could have it here.
    fn take(&mut self, byte: u8) -> Option<()> {
        self.awaits = match self.awaits {
            Await::Line | Await::Operand => self.operand(byte)?,
            Await::Word(there) => word(there, byte)?,
            Await::MarkDigit if byte == b'0' => Await::Operator,
            Await::MarkDigit if byte.is_ascii_digit() => Await::MoreMark,
            Await::MarkDigit => return None,
            Await::MoreMark if byte.is_ascii_digit() => Await::MoreMark,
            Await::MoreMark | Await::Operator => self.operator(byte)?,
            Await::Number if byte == b' ' => Await::Number,
            Await::Number if byte == b'0' => Await::Percent,
            Await::Number if byte.is_ascii_digit() => Await::MoreNumber,
            Await::Number => return None,
            Await::MoreNumber if byte.is_ascii_digit() => Await::MoreNumber,
            Await::MoreNumber | Await::Percent if byte == b'%' => Await::Group,
            Await::MoreNumber | Await::Percent | Await::Group => self.group(byte)?,
            Await::GroupDigit if (b'0'..=b'7').contains(&byte) => Await::Close,
            Await::GroupDigit => return None,
            Await::Close => self.close(byte)?,
        };
        Some(())
    }

    /// The beginning of an operand, or spaces before it.
    fn operand(&mut self, byte: u8) -> Option<Await> {
        let in_count = self.open.contains(&b'[');
        match byte {
            b' ' | b'!' | b'X' | b'F' | b'G' => Some(Await::Operand),
            b't' => Some(Await::Word(1)),
            b'm' if in_count => Some(Await::MarkDigit),
            b'[' if in_count => None,
            b'(' | b'[' => {
                self.open.push(byte);
                Some(Await::Operand)
            }
            _ => None,
        }
    }

    /// What may follow an operand.
    fn operator(&mut self, byte: u8) -> Option<Await> {
        match (byte, self.open.last()) {
            (b' ', _) => Some(Await::Operator),
            (b'|' | b'&' | b'U' | b'R', _) => Some(Await::Operand),
            (b')', Some(b'(')) => {
                self.open.pop();
                Some(Await::Operator)
            }
            (b',', Some(b'[')) => Some(Await::Number),
            (b'\n', None) => {
                self.lines += 1;
                Some(Await::Line)
            }
            _ => None,
        }
    }

    /// The sign of a group, spaces before it, or the count's end.
    fn group(&mut self, byte: u8) -> Option<Await> {
        match byte {
            b' ' => Some(Await::Group),
            b'@' => Some(Await::GroupDigit),
            _ => self.close(byte),
        }
    }

    /// The bracket that ends a count, or spaces before it.
    fn close(&mut self, byte: u8) -> Option<Await> {
        match byte {
            b' ' => Some(Await::Close),
            b']' => {
                self.open.pop();
                Some(Await::Operator)
            }
            _ => None,
        }
    }
}

fn word(there: usize, byte: u8) -> Option<Await> {
    let word = b"true";
    match byte == word[there] {
        true if there + 1 == word.len() => Some(Await::Operator),
        true => Some(Await::Word(there + 1)),
        false => None,
    }
}

/// Where the sheet first leaves the grammar: a byte's offset, or the length if it ends early.
pub fn first_wrong(sheet: &[u8]) -> Option<usize> {
    let mut automaton = Automaton {
        awaits: Await::Line,
        open: Vec::new(),
        lines: 0,
    };
    let wrong = sheet
        .iter()
        .position(|&byte| automaton.take(byte).is_none());
    let complete = automaton.awaits == Await::Line && automaton.lines > 0;
    wrong.or((!complete).then_some(sheet.len()))
}
