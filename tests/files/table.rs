//! How often each operation gave each refusal, and which ones a run has to show.

use crate::call::{Call, Input};
use crate::edits;
use crate::reference::Verdict;

const NUMBERS: [u32; 14] = [0, 1, 2, 3, 4, 5, 6, 7, 8, 9, 10, 11, 18, 19];

/// For each row the numbers that can come there; 0 is accepted or done.
const ROWS: [(&str, &[u32]); 13] = [
    ("read floor", &[0, 1, 2, 3, 4, 5, 6, 7]),
    ("read plan: floor", &[1, 2, 3, 4, 5, 6, 7]),
    ("read plan: plan", &[0, 1, 2, 3, 4, 5, 7, 8, 9]),
    ("write floor", &[0, 1, 4, 5, 6, 7, 18]),
    ("write plan: floor", &[1, 2, 3, 4, 5, 6, 7]),
    ("write plan: plan", &[0, 1, 4, 5, 7, 8, 9, 18]),
    ("check moves: floor", &[1, 2, 3, 4, 5, 6, 7]),
    ("check moves: plan", &[0, 1, 2, 3, 4, 5, 7, 8, 9, 10, 11]),
    ("move on: floor", &[1, 2, 3, 4, 5, 6, 7]),
    ("move on: plan", &[0, 1, 2, 3, 4, 5, 7, 8, 9, 18]),
    ("replace row: floor", &[1, 2, 3, 4, 5, 6, 7]),
    ("replace row: plan", &[1, 2, 3, 4, 5, 7, 8, 9, 10, 11]),
    ("replace row: row", &[0, 4, 9, 10, 11, 19]),
];

#[derive(Default)]
pub struct Table {
    counts: [[usize; NUMBERS.len()]; ROWS.len()],
}

/// Whether a replacement comes to its new row: the old plan is accepted with its moves.
fn comes_to_row(floor: &Input, plan: &Input) -> bool {
    edits::answer_check_moves(&floor.bytes, &plan.bytes).verdict == [0; 4]
}

impl Table {
    /// Counts an answer; a number that no operation gives is left to the comparison.
    pub fn count(&mut self, call: &Call, verdict: Verdict) {
        let about_floor = usize::from(verdict[0] == 1);
        let row = match call {
            Call::ReadFloor(..) => 0,
            Call::ReadPlan(..) => 2 - about_floor,
            Call::WriteFloor(..) => 3,
            Call::WritePlan(..) => 5 - about_floor,
            Call::CheckMoves(..) => 7 - about_floor,
            Call::MoveOn(..) => 9 - about_floor,
            Call::ReplaceRow(floor, plan, ..) if comes_to_row(floor, plan) => 12,
            Call::ReplaceRow(..) => 11 - about_floor,
        };
        if let Some(column) = NUMBERS.iter().position(|&n| n == verdict[1]) {
            self.counts[row][column] += 1;
        }
    }

    /// Prints the table and answers how many of its places are wrong: a number that was due and
    /// never came, or one that came and can't.
    pub fn print(&self) -> usize {
        let mut wrong = 0;
        print!("{:20}", "");
        NUMBERS.iter().for_each(|number| print!("{number:>8}"));
        println!();
        for ((name, due), counts) in ROWS.iter().zip(self.counts) {
            print!("{name:20}");
            for (number, count) in NUMBERS.iter().zip(counts) {
                wrong += usize::from(due.contains(number) != (count > 0));
                match due.contains(number) || count > 0 {
                    true => print!("{count:>8}"),
                    false => print!("{:>8}", "."),
                }
            }
            println!();
        }
        wrong
    }
}
