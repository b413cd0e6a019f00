//! One call of the library: what it is given, what the reference answers, what the library does.

use std::fmt::{self, LowerHex};

use crate::edits;
use crate::library::{self, Buffer};
use crate::random::Random;
use crate::reference::{self, Answer, Floor, Plan, Verdict};

/// A file to lend, and bytes that lie behind it in memory without being lent.
#[derive(Clone, Debug)]
pub struct Input {
    pub bytes: Vec<u8>,
    pub behind: Vec<u8>,
}

impl From<Vec<u8>> for Input {
    fn from(bytes: Vec<u8>) -> Input {
        let behind = Vec::new();
        Input { bytes, behind }
    }
}

/// A call with what it is given, in the order of the C interface; a `usize` is the length of the
/// result buffer.
#[derive(Clone, Debug)]
pub enum Call {
    ReadFloor(Input),
    ReadPlan(Input, Input),
    WriteFloor(Floor, usize),
    WritePlan(Input, Plan, usize),
    CheckMoves(Input, Input),
    MoveOn(Input, Input, u16, usize),
    ReplaceRow(Input, Input, u32, Vec<u8>),
}

/// A lent part of a larger piece of memory, with a copy of how it has to look after the call.
struct Lent<T> {
    memory: Vec<T>,
    wanted: Vec<T>,
    start: usize,
    length: usize,
    null: bool,
}

impl<T: Copy + PartialEq + LowerHex + From<u8>> Lent<T> {
    fn new(random: &mut Random, contents: &[T], behind: &[T]) -> Lent<T> {
        let mut guard = |length| random.bytes(length).into_iter().map(T::from);
        let mut memory: Vec<T> = guard(9).collect();
        let after: Vec<T> = guard(12).collect();
        // A start at any address, not just at even ones.
        memory.truncate(1 + random.below(9));
        let start = memory.len();
        memory.extend_from_slice(contents);
        memory.extend_from_slice(behind);
        memory.extend_from_slice(&after);
        Lent {
            wanted: memory.clone(),
            memory,
            start,
            length: contents.len(),
            null: random.percent(50),
        }
    }

    /// The lent part; an empty one is at times a null pointer.
    fn lend(&mut self) -> Buffer<'_, T> {
        let end = self.start + self.length;
        match self.length == 0 && self.null {
            true => None,
            false => Some(&mut self.memory[self.start..end]),
        }
    }

    fn want_written(&mut self, written: &[T]) {
        let end = self.start + written.len();
        self.wanted[self.start..end].copy_from_slice(written);
    }

    /// Says where the memory is not as wanted, guards included.
    fn complaint(&self, name: &str) -> Option<String> {
        let at = (0..self.memory.len()).find(|&i| self.memory[i] != self.wanted[i])?;
        let (is, wanted) = (self.memory[at], self.wanted[at]);
        let offset = at as i64 - self.start as i64;
        let length = self.length;
        Some(format!(
            "{name} (length {length}) holds {is:02x} at {offset}, wanted {wanted:02x}"
        ))
    }
}

/// What the library answered, and every lent buffer that is not as the reference wants it.
pub struct Outcome {
    pub verdict: Verdict,
    pub complaints: Vec<String>,
}

fn input(random: &mut Random, input: &Input) -> Lent<u8> {
    Lent::new(random, &input.bytes, &input.behind)
}

/// A result buffer full of chance bytes.
fn result(random: &mut Random, room: usize, written: &[u8]) -> Lent<u8> {
    let contents = random.bytes(room);
    let mut lent = Lent::new(random, &contents, &[]);
    lent.want_written(written);
    lent
}

fn call_read_floor(random: &mut Random, floor: &Input) -> Outcome {
    let mut floor = input(random, floor);
    Outcome {
        verdict: library::read_floor(floor.lend()),
        complaints: floor.complaint("floor").into_iter().collect(),
    }
}

/// Calls a function that only reads a floor and a plan.
fn call_both(
    random: &mut Random,
    function: fn(Buffer<u8>, Buffer<u8>) -> Verdict,
    floor: &Input,
    plan: &Input,
) -> Outcome {
    let mut floor = input(random, floor);
    let mut plan = input(random, plan);
    let verdict = function(floor.lend(), plan.lend());
    let complaints = [floor.complaint("floor"), plan.complaint("plan")];
    Outcome {
        verdict,
        complaints: complaints.into_iter().flatten().collect(),
    }
}

fn call_write_floor(random: &mut Random, numbers: &Floor, room: usize, written: &[u8]) -> Outcome {
    let mut places = Lent::new(random, &numbers.places, &[]);
    let mut lanes = Lent::new(random, &numbers.lanes, &[]);
    let mut carts = Lent::new(random, &numbers.carts, &[]);
    let mut narrow = Lent::new(random, &numbers.narrow, &[]);
    let mut groups = Lent::new(random, &numbers.groups, &[]);
    let mut out = result(random, room, written);
    let verdict = library::write_floor(
        places.lend(),
        lanes.lend(),
        carts.lend(),
        narrow.lend(),
        groups.lend(),
        out.lend(),
    );
    let complaints = [
        places.complaint("places"),
        lanes.complaint("lanes"),
        carts.complaint("carts"),
        narrow.complaint("narrow"),
        groups.complaint("groups"),
        out.complaint("out"),
    ];
    Outcome {
        verdict,
        complaints: complaints.into_iter().flatten().collect(),
    }
}

fn call_write_plan(
    random: &mut Random,
    floor: &Input,
    numbers: &Plan,
    room: usize,
    written: &[u8],
) -> Outcome {
    let mut floor = input(random, floor);
    let mut rows = Lent::new(random, &numbers.rows, &[]);
    let mut out = result(random, room, written);
    let head = [numbers.h, numbers.l, numbers.d];
    let verdict = library::write_plan(floor.lend(), head, rows.lend(), out.lend());
    let complaints = [
        floor.complaint("floor"),
        rows.complaint("rows"),
        out.complaint("out"),
    ];
    Outcome {
        verdict,
        complaints: complaints.into_iter().flatten().collect(),
    }
}

fn call_move_on(
    random: &mut Random,
    files: [&Input; 2],
    s: u16,
    room: usize,
    written: &[u8],
) -> Outcome {
    let [mut floor, mut plan] = files.map(|file| input(random, file));
    let mut out = result(random, room, written);
    let verdict = library::move_on(floor.lend(), plan.lend(), s, out.lend());
    let complaints = [
        floor.complaint("floor"),
        plan.complaint("plan"),
        out.complaint("out"),
    ];
    Outcome {
        verdict,
        complaints: complaints.into_iter().flatten().collect(),
    }
}

/// The plan is written in place, so it is the one to begin with `written`.
fn call_replace_row(
    random: &mut Random,
    files: [&Input; 2],
    cart: u32,
    row: &[u8],
    written: &[u8],
) -> Outcome {
    let [mut floor, mut plan] = files.map(|file| input(random, file));
    let mut row = Lent::new(random, row, &[]);
    plan.want_written(written);
    let verdict = library::replace_row(floor.lend(), plan.lend(), cart, row.lend());
    let complaints = [
        floor.complaint("floor"),
        plan.complaint("plan"),
        row.complaint("row"),
    ];
    Outcome {
        verdict,
        complaints: complaints.into_iter().flatten().collect(),
    }
}

impl Call {
    pub fn reference(&self) -> Answer {
        match self {
            Call::ReadFloor(floor) => reference::answer_read_floor(&floor.bytes),
            Call::ReadPlan(floor, plan) => reference::answer_read_plan(&floor.bytes, &plan.bytes),
            Call::WriteFloor(numbers, room) => reference::answer_write_floor(numbers, *room),
            Call::WritePlan(floor, numbers, room) => {
                reference::answer_write_plan(&floor.bytes, numbers, *room)
            }
            Call::CheckMoves(floor, plan) => edits::answer_check_moves(&floor.bytes, &plan.bytes),
            Call::MoveOn(floor, plan, s, room) => {
                edits::answer_move_on(&floor.bytes, &plan.bytes, *s, *room)
            }
            Call::ReplaceRow(floor, plan, cart, row) => {
                edits::answer_replace_row(&floor.bytes, &plan.bytes, *cart, row)
            }
        }
    }

    /// Calls the library; `written` is what the buffer written to has to begin with afterwards.
    pub fn library(&self, random: &mut Random, written: &[u8]) -> Outcome {
        match self {
            Call::ReadFloor(floor) => call_read_floor(random, floor),
            Call::ReadPlan(floor, plan) => call_both(random, library::read_plan, floor, plan),
            Call::WriteFloor(numbers, room) => call_write_floor(random, numbers, *room, written),
            Call::WritePlan(floor, numbers, room) => {
                call_write_plan(random, floor, numbers, *room, written)
            }
            Call::CheckMoves(floor, plan) => call_both(random, library::check_moves, floor, plan),
            Call::MoveOn(floor, plan, s, room) => {
                call_move_on(random, [floor, plan], *s, *room, written)
            }
            Call::ReplaceRow(floor, plan, cart, row) => {
                call_replace_row(random, [floor, plan], *cart, row, written)
            }
        }
    }
}

/// Bytes in hex, the middle of a long run left out.
pub fn hex(bytes: &[u8]) -> String {
    let digits = |part: &[u8]| -> String { part.iter().map(|b| format!("{b:02x}")).collect() };
    let length = bytes.len();
    if length <= 160 {
        return format!("({length} bytes) {}", digits(bytes));
    }
    let (first, last) = (digits(&bytes[..112]), digits(&bytes[length - 40..]));
    format!("({length} bytes) {first}..{last}")
}

impl fmt::Display for Call {
    fn fmt(&self, f: &mut fmt::Formatter) -> fmt::Result {
        match self {
            Call::ReadFloor(floor) => write!(f, "read floor {}", hex(&floor.bytes)),
            Call::ReadPlan(floor, plan) => {
                let (floor, plan) = (hex(&floor.bytes), hex(&plan.bytes));
                write!(f, "read plan {plan}\n  with floor {floor}")
            }
            Call::WriteFloor(numbers, room) => {
                let bytes = |numbers: &[u32]| {
                    numbers
                        .iter()
                        .flat_map(|n| n.to_le_bytes())
                        .collect::<Vec<u8>>()
                };
                let (places, groups) = (hex(&bytes(&numbers.places)), hex(&bytes(&numbers.groups)));
                let (lanes, carts) = (hex(&numbers.lanes), hex(&numbers.carts));
                let narrow = hex(&numbers.narrow);
                write!(f, "write floor, room {room}\n  places {places}\n")?;
                write!(
                    f,
                    "  lanes {lanes}\n  carts {carts}\n  narrow {narrow}\n  groups {groups}"
                )
            }
            Call::WritePlan(floor, Plan { h, l, d, rows }, room) => {
                let (floor, rows) = (hex(&floor.bytes), hex(rows));
                write!(f, "write plan, room {room}, h {h}, l {l}, d {d}\n")?;
                write!(f, "  rows {rows}\n  with floor {floor}")
            }
            Call::CheckMoves(floor, plan) => {
                let (floor, plan) = (hex(&floor.bytes), hex(&plan.bytes));
                write!(f, "check moves of plan {plan}\n  with floor {floor}")
            }
            Call::MoveOn(floor, plan, s, room) => {
                let (floor, plan) = (hex(&floor.bytes), hex(&plan.bytes));
                write!(f, "move on by {s}, room {room}\n  plan {plan}\n")?;
                write!(f, "  with floor {floor}")
            }
            Call::ReplaceRow(floor, plan, cart, row) => {
                let (floor, plan, row) = (hex(&floor.bytes), hex(&plan.bytes), hex(row));
                write!(f, "replace row of cart {cart}\n  row {row}\n")?;
                write!(f, "  plan {plan}\n  with floor {floor}")
            }
        }
    }
}
