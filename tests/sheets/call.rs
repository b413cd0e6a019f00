//! One call of the library with lent memory, and what became of that memory.

use crate::library::{self, Buffer};
use crate::random::Random;
use crate::reference::{Part, Verdict};

/// Bytes to lend, and bytes that lie behind them in memory without being lent.
#[derive(Clone, Debug)]
pub struct Input {
    pub bytes: Vec<u8>,
    pub behind: Vec<u8>,
}

impl From<Vec<u8>> for Input {
    fn from(bytes: Vec<u8>) -> Input {
        let behind = Vec::new();
        Input { bytes, behind }
    }
}

/// A lent part of a larger piece of memory, with a copy of how it has to look after the call.
struct Lent {
    memory: Vec<u8>,
    wanted: Vec<u8>,
    start: usize,
    length: usize,
    null: bool,
}

impl Lent {
    fn new(random: &mut Random, input: &Input) -> Lent {
        let before = 1 + random.below(9);
        let mut memory = random.bytes(before);
        memory.extend_from_slice(&input.bytes);
        memory.extend_from_slice(&input.behind);
        memory.extend(random.bytes(12));
        Lent {
            wanted: memory.clone(),
            memory,
            start: before,
            length: input.bytes.len(),
            null: random.percent(50),
        }
    }

    /// The lent part; an empty one is at times a null pointer.
    fn lend(&mut self) -> Buffer<'_> {
        let end = self.start + self.length;
        match self.length == 0 && self.null {
            true => None,
            false => Some(&mut self.memory[self.start..end]),
        }
    }

    /// Says where the memory is not as wanted, guards included.
    fn complaint(&self, name: &str) -> Option<String> {
        if self.memory == self.wanted {
            return None;
        }
        let at = (0..self.memory.len()).find(|&i| self.memory[i] != self.wanted[i])?;
        let (is, wanted) = (self.memory[at], self.wanted[at]);
        let offset = at as i64 - self.start as i64;
        let length = self.length;
        Some(format!(
            "{name} (length {length}) holds {is:02x} at {offset}, wanted {wanted:02x}"
        ))
    }
}

/// What the library answered, and every lent buffer that it changed.
pub struct Outcome<T> {
    pub answer: T,
    pub complaints: Vec<String>,
}

pub fn read_rules(random: &mut Random, sheet: &Input) -> Outcome<Verdict> {
    let mut sheet = Lent::new(random, sheet);
    Outcome {
        answer: library::read_rules(sheet.lend()),
        complaints: sheet.complaint("sheet").into_iter().collect(),
    }
}

pub fn clause(random: &mut Random, sheet: &Input, verdict: &Input) -> Outcome<Part> {
    let mut sheet = Lent::new(random, sheet);
    let mut verdict = Lent::new(random, verdict);
    let answer = library::clause(sheet.lend(), verdict.lend());
    let complaints = [sheet.complaint("sheet"), verdict.complaint("verdict")];
    Outcome {
        answer,
        complaints: complaints.into_iter().flatten().collect(),
    }
}

/// A sheet as text, the middle of a long one left out.
pub fn shown(sheet: &[u8]) -> String {
    let length = sheet.len();
    if length <= 400 {
        return format!("({length} bytes) \"{}\"", sheet.escape_ascii());
    }
    let (first, last) = (&sheet[..240], &sheet[length - 120..]);
    let (first, last) = (first.escape_ascii(), last.escape_ascii());
    format!("({length} bytes) \"{first}\" .. \"{last}\"")
}
