//! Random sheets, token by token: mostly valid, often close to a limit, now and then past it.

use crate::random::Random;
use crate::reference::{LONGEST_SHEET, MOST_CLAUSES, MOST_LEVELS, MOST_NODES};

pub type Token = Vec<u8>;

/// The tokens of each line, without its end.
pub type Lines = Vec<Vec<Token>>;

/// What a clause tries to come to.
struct Aim {
    nodes: usize,
    level: usize,
    /// How likely an operand begins with one of the openers, in percent.
    deep: usize,
    openers: &'static [u8],
    /// How likely a leaf outside counts is put into one, in percent.
    counts: usize,
    operators: &'static [u8],
}

const OPENERS: [&[u8]; 4] = [b"!XFG((((([[", b"!XFG((((", b"!XFG", b"(((!"];
const OPERATORS: [&[u8]; 4] = [b"&|UR", b"UR", b"UUR&", b"&&|"];

fn small_aim(random: &mut Random) -> Aim {
    Aim {
        nodes: random.between(1, 9),
        level: random.between(0, 5),
        deep: 40,
        openers: random.pick(&OPENERS),
        counts: random.pick(&[60, 60, 5]),
        operators: random.pick(&OPERATORS),
    }
}

fn any_aim(random: &mut Random) -> Aim {
    let mut aim = small_aim(random);
    let near_nodes = MOST_NODES - 4..=MOST_NODES + 3;
    let near_level = MOST_LEVELS - 2..=MOST_LEVELS + 2;
    let (nodes, level) = match random.below(20) {
        0..=9 => return aim,
        10..=13 => (10..=60, 0..=29),
        14..=15 => (near_nodes, 0..=29),
        16..=18 => (40..=100, near_level),
        _ => (near_nodes, near_level),
    };
    aim.nodes = random.between(*nodes.start(), *nodes.end());
    aim.level = random.between(*level.start(), *level.end());
    aim.deep = random.pick(&[10, 50, 80, 97]);
    aim
}

/// A clause that is being written, with what it has open: `(`, `[`, `!` for any prefix operator,
/// `U` for U and R.
struct Walk<'a> {
    random: &'a mut Random,
    aim: Aim,
    tokens: Vec<Token>,
    open: Vec<u8>,
    nodes: usize,
}

impl Walk<'_> {
    fn put(&mut self, token: &[u8], nodes: usize) {
        self.tokens.push(token.to_vec());
        self.nodes += nodes;
    }

    fn has_level(&self) -> bool {
        self.open.len() < self.aim.level
    }

    /// Whether the aim leaves room for so many nodes more.
    fn has_nodes(&self, more: usize) -> bool {
        self.nodes + more <= self.aim.nodes
    }

    fn end(&mut self, what: u8) {
        while self.open.last() == Some(&what) {
            self.open.pop();
        }
    }

    fn open(&mut self, sign: u8) {
        self.put(&[sign], usize::from(sign != b'('));
        self.open.push(match sign {
            b'(' | b'[' => sign,
            _ => b'!',
        });
    }

    fn in_count(&self) -> bool {
        self.open.contains(&b'[')
    }

    fn operand(&mut self) {
        while self.has_level() && self.has_nodes(2) && self.random.percent(self.aim.deep) {
            match self.random.pick(self.aim.openers) {
                b'[' if self.in_count() => self.open(b'('),
                sign => self.open(sign),
            }
        }
        self.leaf();
    }

    fn leaf(&mut self) {
        let fits = !self.in_count() && self.has_level() && self.has_nodes(2);
        if fits && self.random.percent(self.aim.counts) {
            self.open(b'[');
        }
        match self.in_count() && self.random.percent(80) {
            true => {
                let mark = mark(self.random);
                self.put(&mark, 1);
            }
            false => self.put(b"true", 1),
        }
        self.end(b'!');
    }

    /// Ends the innermost parenthesis or count; false if none is open.
    fn close(&mut self) -> bool {
        let Some(at) = self.open.iter().rposition(|open| b"([".contains(open)) else {
            return false;
        };
        match self.open[at] {
            b'(' => self.put(b")", 0),
            _ => {
                let number = number(self.random);
                self.put(b",", 0);
                self.put(&number, 0);
                if self.random.percent(25) {
                    let group = self.random.below(8);
                    self.put(format!("@{group}").as_bytes(), 0);
                }
                self.put(b"]", 0);
            }
        }
        self.open.truncate(at);
        self.end(b'!');
        true
    }

    /// Puts an operator for one more operand; false if the clause is complete.
    fn operator(&mut self) -> bool {
        loop {
            let operator = self.random.pick(self.aim.operators);
            let levels = b"UR".contains(&operator);
            let fits = self.has_nodes(2) && (!levels || self.has_level());
            if fits && self.random.percent(70) {
                self.put(&[operator], 1);
                match levels {
                    true => self.open.push(b'U'),
                    false => self.end(b'U'),
                }
                return true;
            }
            if !self.close() && (!self.has_nodes(2) || self.random.percent(10)) {
                return false;
            }
        }
    }
}

fn clause(random: &mut Random, aim: Aim) -> Vec<Token> {
    let mut walk = Walk {
        random,
        aim,
        tokens: Vec::new(),
        open: Vec::new(),
        nodes: 0,
    };
    walk.operand();
    while walk.operator() {
        walk.operand();
    }
    walk.tokens
}

pub fn any_clause(random: &mut Random) -> Vec<Token> {
    let aim = any_aim(random);
    clause(random, aim)
}

/// A clause of about as many nodes as there may be.
pub fn long_clause(random: &mut Random) -> Vec<Token> {
    let mut aim = any_aim(random);
    aim.nodes = random.between(MOST_NODES, MOST_NODES + 3);
    clause(random, aim)
}

fn mark(random: &mut Random) -> Token {
    let any = random.below(32);
    format!("m{}", random.pick(&[any, any, 0, 31])).into_bytes()
}

fn number(random: &mut Random) -> Token {
    match random.percent(35) {
        true => {
            let any = random.between(0, 100);
            format!("{}%", random.pick(&[any, any, 0, 99, 100]))
        }
        false => {
            let any = random.between(0, 999);
            format!("{}", random.pick(&[any, any, 0, 1, 32, 101, 998, 999]))
        }
    }
    .into_bytes()
}

pub fn lines(random: &mut Random) -> Lines {
    let near_lines = MOST_CLAUSES - 2..=MOST_CLAUSES + 2;
    let (count, large) = match random.below(1_000) {
        0..=1 => (near_lines, true),
        2..=80 => (near_lines, false),
        81..=250 => (2..=6, false),
        _ => (1..=1, true),
    };
    let count = random.between(*count.start(), *count.end());
    let clauses = (0..count).map(|_| {
        let aim = match large || random.percent(3) {
            true => any_aim(random),
            false => small_aim(random),
        };
        clause(random, aim)
    });
    clauses.collect()
}

/// The lines as bytes, with spaces before tokens and line ends by chance.
pub fn sheet_of(random: &mut Random, lines: &[Vec<Token>]) -> Vec<u8> {
    let spaces = random.pick(&[0, 0, 3, 20, 60]);
    let mut sheet = Vec::new();
    for line in lines {
        for token in line.iter().map(|token| &token[..]).chain([&b"\n"[..]]) {
            while spaces > 0 && random.percent(spaces) {
                sheet.push(b' ');
            }
            sheet.extend_from_slice(token);
        }
    }
    sheet
}

/// The sheet with spaces somewhere, up to about the greatest length.
pub fn stretched(random: &mut Random, sheet: &[u8]) -> Vec<u8> {
    let any = random.between(LONGEST_SHEET, 2 * LONGEST_SHEET);
    let near = LONGEST_SHEET - 1 + random.below(4);
    let length = random.pick(&[near, near, near, any]);
    let at = random.below(sheet.len() + 1);
    let spaces = b" ".repeat(length.saturating_sub(sheet.len()));
    [&sheet[..at], &spaces, &sheet[at..]].concat()
}
