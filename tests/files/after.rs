//! What has to hold after a plan was moved on or a row of it replaced.

use crate::call::{Call, Input};
use crate::cases;
use crate::edit_cases;
use crate::numbers;
use crate::random::Random;
use crate::reference::{self, Plan};
use crate::Harness;

/// So many moves are followed; every lap is gone round at least three times.
const MOVES: usize = 200;

/// The step after this one: after the last comes the first of the lap.
fn step_after(plan: &Plan, step: usize) -> usize {
    match step + 1 == usize::from(plan.h) {
        true => usize::from(plan.l),
        false => step + 1,
    }
}

/// The places of all carts at a step.
fn places_at(plan: &Plan, step: usize) -> Vec<u8> {
    let rows = plan.rows.chunks(usize::from(plan.h));
    rows.map(|row| row[step]).collect()
}

/// Whether all carts of `new` go from its beginning as those of `old` go after `s` moves.
fn go_alike(old: &Plan, s: u16, new: &Plan) -> bool {
    let mut there = (0..s).fold(0, |step, _| step_after(old, step));
    let mut here = 0;
    for _ in 0..MOVES {
        if places_at(old, there) != places_at(new, here) {
            return false;
        }
        there = step_after(old, there);
        here = step_after(new, here);
    }
    old.d == new.d
}

/// How far a plan that was moved on by `s` is moved on once more: at times as far as may be.
fn further(random: &mut Random, plan: &Plan, s: u16) -> u16 {
    match random.below(8) {
        0 => u16::MAX - s,
        _ => edit_cases::steps_on(random, plan.h, plan.l).min(u16::MAX - s),
    }
}

impl Harness {
    fn numbers_of(floor: &Input, plan: &[u8]) -> Option<Plan> {
        let both = reference::read_both(&floor.bytes, plan);
        both.ok().map(|(_, plan)| plan)
    }

    /// The moved plan reads, and its carts go on as those of the old one do from step `s`.
    pub fn follow_both(&mut self, floor: &Input, plan: &Input, s: u16, file: &[u8]) {
        let result = Input::from(file.to_vec());
        let read = self.compare(&Call::ReadPlan(floor.clone(), result));
        self.expect(read.verdict == [0; 4], "the moved plan doesn't read", file);
        let old = Harness::numbers_of(floor, &plan.bytes);
        let new = Harness::numbers_of(floor, file);
        let alike = old
            .zip(new)
            .is_some_and(|(old, new)| go_alike(&old, s, &new));
        self.expect(alike, "the moved plan goes otherwise", file);
    }

    /// The moved plan, moved on once more, is the plan moved on by the sum, with as much room for both; moved on by 0 the plan stays.
    pub fn add_up(&mut self, floor: &Input, plan: &Input, s: u16, file: &[u8]) {
        let Some(new) = Harness::numbers_of(floor, file) else {
            return;
        };
        let u = further(&mut self.random, &new, s);
        let from = |plan: &Input, by, room| Call::MoveOn(floor.clone(), plan.clone(), by, room);
        let needed = cases::needed(from(plan, s + u, usize::MAX));
        let room = numbers::room(&mut self.random, needed);
        let at_once = self.compare(&from(plan, s + u, room));
        let apart = self.compare(&from(&Input::from(file.to_vec()), u, room));
        let same = apart.verdict == at_once.verdict && apart.written == at_once.written;
        let what = format!("moved on by {u} more, it is not as by the sum");
        self.expect(same, &what, file);
        let back = self.compare(&from(plan, 0, plan.bytes.len()));
        let same = back.written == plan.bytes;
        self.expect(same, "moved on by 0, it is another plan", file);
    }

    /// The new plan is accepted with its moves, and is the old one but for the row's bytes.
    pub fn look_at_row(&mut self, floor: &Input, plan: &Input, cart: u32, row: &[u8], file: &[u8]) {
        let result = Input::from(file.to_vec());
        let checked = self.compare(&Call::CheckMoves(floor.clone(), result));
        let accepted = checked.verdict == [0; 4];
        self.expect(accepted, "the new row's moves are refused", file);
        // Behind the head's 10 bytes each row has 4 bytes before its places.
        let start = 10 + cart as usize * (4 + row.len()) + 4;
        let mut due = plan.bytes.clone();
        due.splice(start..start + row.len(), row.iter().copied());
        self.expect(file == due, "not just that row has changed", file);
    }
}
