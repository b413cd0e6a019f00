//! The reader of a rule sheet: operator precedence with a stack of what is open.
//!
//! The level of document 01 is the number of things on that stack that are not `|` or `&`.

use crate::formula::{Clause, Op, Threshold};
use crate::verdict::Refusal;

pub const LONGEST_SHEET: usize = 16_384;
pub const MOST_CLAUSES: usize = 32;
pub const MOST_NODES: usize = 128;
pub const HIGHEST_LEVEL: usize = 32;

/// What is open while a line is read.
enum Open {
    Paren,
    Bracket,
    Prefix(Op),
    Binary(Op),
}

/// What has to come next in a line.
enum Next {
    Operand,
    Operator,
    Nothing,
}

pub fn read(sheet: &[u8]) -> Result<Vec<Clause>, Refusal> {
    if sheet.len() > LONGEST_SHEET {
        return Err(Refusal(12, 0, 0));
    }
    if sheet.is_empty() {
        return Err(Refusal(7, 0, 0));
    }
    let mut clauses = Vec::new();
    let mut at = 0;
    while at < sheet.len() {
        if clauses.len() == MOST_CLAUSES {
            return Err(Refusal(14, at, 0));
        }
        let mut line = Line::new(sheet, at);
        clauses.push(line.read()?);
        at = line.at;
    }
    Ok(clauses)
}

/// One line while it is read.
struct Line<'a> {
    sheet: &'a [u8],
    at: usize,
    seen: usize,
    open: Vec<Open>,
    complete: Vec<usize>,
    clause: Clause,
}

fn binds(op: Op) -> u32 {
    match op {
        Op::Or => 1,
        Op::And => 2,
        _ => 3,
    }
}

impl<'a> Line<'a> {
    fn new(sheet: &'a [u8], at: usize) -> Line<'a> {
        Line {
            sheet,
            at,
            seen: 0,
            open: Vec::new(),
            complete: Vec::new(),
            clause: Clause::default(),
        }
    }

    fn read(&mut self) -> Result<Clause, Refusal> {
        let mut next = Next::Operand;
        loop {
            next = match next {
                Next::Operand => self.start_operand()?,
                Next::Operator => self.after_operand()?,
                Next::Nothing => break,
            };
        }
        self.clause.root = self.complete[0];
        Ok(std::mem::take(&mut self.clause))
    }

    fn wrong_byte(&self) -> Refusal {
        Refusal(13, self.at, 0)
    }

    fn byte(&self) -> Result<u8, Refusal> {
        self.sheet.get(self.at).copied().ok_or(self.wrong_byte())
    }

    fn byte_after_spaces(&mut self) -> Result<u8, Refusal> {
        while self.sheet.get(self.at) == Some(&b' ') {
            self.at += 1;
        }
        self.byte()
    }

    /// Takes one token where an operand has to begin.
    fn start_operand(&mut self) -> Result<Next, Refusal> {
        match self.byte_after_spaces()? {
            b't' => self.word_true()?,
            b'm' if self.in_count() => self.mark()?,
            b'[' if !self.in_count() => return self.opener(Open::Bracket),
            b'(' => return self.opener(Open::Paren),
            b'!' => return self.opener(Open::Prefix(Op::Not)),
            b'X' => return self.opener(Open::Prefix(Op::Next)),
            b'F' => return self.opener(Open::Prefix(Op::Finally)),
            b'G' => return self.opener(Open::Prefix(Op::Globally)),
            _ => return Err(self.wrong_byte()),
        }
        self.apply_prefixes();
        Ok(Next::Operator)
    }

    /// Takes one token after a complete operand.
    fn after_operand(&mut self) -> Result<Next, Refusal> {
        match self.byte_after_spaces()? {
            b'|' => self.binary(Op::Or),
            b'&' => self.binary(Op::And),
            b'U' => self.binary(Op::Until),
            b'R' => self.binary(Op::Release),
            b')' if matches!(self.innermost(), Some(Open::Paren)) => self.close_paren(),
            b',' if matches!(self.innermost(), Some(Open::Bracket)) => self.close_count(),
            b'\n' if self.innermost().is_none() => self.close_line(),
            _ => Err(self.wrong_byte()),
        }
    }

    fn in_count(&self) -> bool {
        self.open.iter().any(|o| matches!(o, Open::Bracket))
    }

    /// The last bracket still open.
    fn innermost(&self) -> Option<&Open> {
        let bracket = |o: &&Open| matches!(o, Open::Paren | Open::Bracket);
        self.open.iter().rev().find(bracket)
    }

    /// Counts a node at its token's first byte.
    fn node(&mut self, first: usize) -> Result<(), Refusal> {
        self.seen += 1;
        if self.seen > MOST_NODES {
            return Err(Refusal(14, first, 0));
        }
        Ok(())
    }

    fn push_open(&mut self, open: Open, first: usize) -> Result<(), Refusal> {
        self.open.push(open);
        let flat = |o: &Open| matches!(o, Open::Binary(Op::And | Op::Or));
        let level = self.open.iter().filter(|o| !flat(o)).count();
        self.clause.level = self.clause.level.max(level);
        if level > HIGHEST_LEVEL {
            return Err(Refusal(14, first, 0));
        }
        Ok(())
    }

    fn opener(&mut self, open: Open) -> Result<Next, Refusal> {
        if !matches!(open, Open::Paren) {
            self.node(self.at)?;
        }
        self.push_open(open, self.at)?;
        self.at += 1;
        Ok(Next::Operand)
    }

    fn word_true(&mut self) -> Result<(), Refusal> {
        let first = self.at;
        for wanted in b"true" {
            if self.byte()? != *wanted {
                return Err(self.wrong_byte());
            }
            self.at += 1;
        }
        self.node(first)?;
        self.operand(Op::True, 0, 0);
        Ok(())
    }

    fn mark(&mut self) -> Result<(), Refusal> {
        let first = self.at;
        self.at += 1;
        let mark = self.digits()?;
        self.node(first)?;
        if mark > 31 {
            return Err(Refusal(15, first + 1, 0));
        }
        self.operand(Op::Mark(mark), 0, 0);
        Ok(())
    }

    /// A number without leading zeros, as large as it likes.
    fn digits(&mut self) -> Result<u32, Refusal> {
        let first = self.byte()?;
        if !first.is_ascii_digit() {
            return Err(self.wrong_byte());
        }
        self.at += 1;
        let mut value = (first - b'0') as u32;
        while value > 0 && self.sheet.get(self.at).is_some_and(u8::is_ascii_digit) {
            let digit = (self.sheet[self.at] - b'0') as u32;
            value = value.saturating_mul(10).saturating_add(digit);
            self.at += 1;
        }
        Ok(value)
    }

    fn operand(&mut self, op: Op, left: usize, right: usize) {
        let node = self.clause.push(op, left, right);
        self.complete.push(node);
    }

    fn apply(&mut self, op: Op) {
        let right = self.complete.pop().unwrap();
        match op.operands() {
            2 => {
                let left = self.complete.pop().unwrap();
                self.operand(op, left, right);
            }
            _ => self.operand(op, right, 0),
        }
    }

    fn apply_prefixes(&mut self) {
        while let Some(&Open::Prefix(op)) = self.open.last() {
            self.open.pop();
            self.apply(op);
        }
    }

    /// Ends the chains that bind at least so tightly.
    fn apply_binaries(&mut self, at_least: u32) {
        while let Some(&Open::Binary(op)) = self.open.last() {
            if binds(op) < at_least {
                break;
            }
            self.open.pop();
            self.apply(op);
        }
    }

    /// Chains of U and R group to the right and stay open, the others end before their next operator.
    fn binary(&mut self, op: Op) -> Result<Next, Refusal> {
        let right = matches!(op, Op::Until | Op::Release);
        self.apply_binaries(binds(op) + right as u32);
        self.node(self.at)?;
        self.push_open(Open::Binary(op), self.at)?;
        self.at += 1;
        Ok(Next::Operand)
    }

    fn close_paren(&mut self) -> Result<Next, Refusal> {
        self.apply_binaries(0);
        self.open.pop();
        self.at += 1;
        self.apply_prefixes();
        Ok(Next::Operator)
    }

    fn close_count(&mut self) -> Result<Next, Refusal> {
        self.apply_binaries(0);
        self.at += 1;
        let threshold = self.threshold()?;
        let group = self.group()?;
        if self.byte_after_spaces()? != b']' {
            return Err(self.wrong_byte());
        }
        self.at += 1;
        self.open.pop();
        self.apply(Op::Count(threshold.over(group)));
        self.apply_prefixes();
        Ok(Next::Operator)
    }

    fn threshold(&mut self) -> Result<Threshold, Refusal> {
        self.byte_after_spaces()?;
        let first = self.at;
        let number = self.digits()?;
        let percent = self.sheet.get(self.at) == Some(&b'%');
        self.at += percent as usize;
        if number > if percent { 100 } else { 999 } {
            return Err(Refusal(15, first, 0));
        }
        let group = None;
        Ok(Threshold {
            number,
            percent,
            group,
        })
    }

    /// The token of a group, if there is one.
    fn group(&mut self) -> Result<Option<usize>, Refusal> {
        if self.byte_after_spaces()? != b'@' {
            return Ok(None);
        }
        self.at += 1;
        match self.byte()? {
            digit @ b'0'..=b'7' => {
                self.at += 1;
                Ok(Some((digit - b'0') as usize))
            }
            _ => Err(self.wrong_byte()),
        }
    }

    fn close_line(&mut self) -> Result<Next, Refusal> {
        self.apply_binaries(0);
        self.at += 1;
        Ok(Next::Nothing)
    }
}
