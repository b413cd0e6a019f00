//! Random cases of reading and writing: which function is called, and with what.

use crate::call::{Call, Input};
use crate::damage;
use crate::numbers;
use crate::random::{self, Random};
use crate::reference::{self, Floor};

/// A random case and what kind it is.
pub fn any(random: &mut Random) -> (&'static str, Call) {
    match random.below(10) {
        0..=2 => read_floor(random),
        3..=5 => read_plan(random),
        6..=7 => ("floor to write", write_floor(random)),
        _ => ("plan to write", write_plan(random)),
    }
}

/// A valid floor's numbers and its file.
fn valid_floor(random: &mut Random) -> (Floor, Vec<u8>) {
    let floor = random::floor(random);
    let file = reference::floor_file(&floor).expect("a valid floor fits a file");
    (floor, file)
}

/// A file made of a valid one: as it is, damaged, of greatest length, or of chance records.
pub fn variant(random: &mut Random, file: Vec<u8>, places: usize) -> (&'static str, Input) {
    match random.below(200) {
        0 => ("longest", damage::longest(random, &file)),
        1..=9 => ("chance records", damage::soup(random)),
        10..=49 => ("valid", Input::from(file)),
        _ => ("damaged", damage::damaged(random, &file, places)),
    }
}

fn read_floor(random: &mut Random) -> (&'static str, Call) {
    let (floor, file) = valid_floor(random);
    let (label, file) = variant(random, file, floor.places.len());
    (label, Call::ReadFloor(file))
}

/// A floor for a plan: mostly valid, so that the plan is looked at.
fn floor_below(random: &mut Random) -> (Floor, Input) {
    let (floor, file) = valid_floor(random);
    let lent = match random.percent(12) {
        true => variant(random, file, floor.places.len()).1,
        false => Input::from(file),
    };
    (floor, lent)
}

fn read_plan(random: &mut Random) -> (&'static str, Call) {
    let (floor, lent) = floor_below(random);
    let plan = random::plan(random, &floor);
    let file = reference::plan_file(&plan).expect("a valid plan fits a file");
    let (label, file) = variant(random, file, floor.places.len());
    (label, Call::ReadPlan(lent, file))
}

/// The length that a write needs, if it isn't refused for its numbers.
pub fn needed(call: Call) -> Option<usize> {
    let answer = call.reference();
    (answer.verdict[1] == 0).then_some(answer.written.len())
}

fn write_floor(random: &mut Random) -> Call {
    let numbers = numbers::floor(random);
    let needed = needed(Call::WriteFloor(numbers.clone(), usize::MAX));
    Call::WriteFloor(numbers, numbers::room(random, needed))
}

fn write_plan(random: &mut Random) -> Call {
    let (floor, lent) = floor_below(random);
    let numbers = numbers::plan(random, &floor);
    let needed = needed(Call::WritePlan(lent.clone(), numbers.clone(), usize::MAX));
    Call::WritePlan(lent, numbers, numbers::room(random, needed))
}
