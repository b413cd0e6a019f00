//! Reads and writes floors and plans, checks moves, moves plans on and replaces rows through the C
//! interface, against a second writing of each of these.
//!
//! Arguments: a seed, then a number of cases; both may be left out. Half of the random cases read
//! and write files, the others are of moves and rows.

mod after;
mod call;
mod cases;
mod damage;
mod edit_cases;
mod edit_limits;
mod edits;
mod group_limits;
mod library;
mod limits;
mod move_limits;
mod narrow_limits;
mod numbers;
mod random;
mod reference;
mod routes;
mod sum_limits;
mod table;
mod wide;

use std::env;
use std::process::ExitCode;

use call::{Call, Input};
use limits::Limit;
use random::Random;
use reference::Answer;
use table::Table;

const SEED: u64 = 20_020_917;
const CASES: u64 = 520_000;

/// More differences than this are only counted.
const SHOWN: usize = 10;

pub struct Harness {
    seed: u64,
    case: u64,
    label: &'static str,
    random: Random,
    table: Table,
    differences: usize,
}

impl Harness {
    fn new(seed: u64) -> Harness {
        Harness {
            seed,
            case: 0,
            label: "",
            random: Random::new(seed, 0),
            table: Table::default(),
            differences: 0,
        }
    }

    fn begin(&mut self, case: u64) {
        self.case = case;
        self.random = Random::new(self.seed, case);
    }

    /// Reports a difference with all that is needed to see it again.
    fn differ(&mut self, what: &str, input: &str) {
        self.differences += 1;
        if self.differences <= SHOWN {
            let (seed, case, label) = (self.seed, self.case, self.label);
            println!("difference: seed {seed}, case {case} ({label})\n  {what}\n  {input}");
        }
    }

    /// Makes the call and compares the verdict and every byte of every lent buffer.
    fn compare(&mut self, call: &Call) -> Answer {
        let answer = call.reference();
        let outcome = call.library(&mut self.random, &answer.written);
        self.table.count(call, outcome.verdict);
        let mut complaints = outcome.complaints;
        if outcome.verdict != answer.verdict {
            complaints.insert(0, "the verdicts differ".to_string());
        }
        if !complaints.is_empty() {
            let (theirs, ours) = (outcome.verdict, answer.verdict);
            let what = complaints.join("; ");
            let what = format!("library {theirs:?}, reference {ours:?}: {what}");
            self.differ(&what, &call.to_string());
        }
        answer
    }

    /// A whole case: the call itself, then what is written is read and what is read is written; a
    /// plan that was changed is looked at step by step.
    fn run(&mut self, call: &Call) -> Answer {
        let answer = self.compare(call);
        if answer.verdict[1] == 0 {
            match call {
                Call::ReadFloor(floor) => self.write_floor_again(&floor.bytes),
                Call::ReadPlan(floor, plan) => self.write_plan_again(floor, &plan.bytes),
                Call::WriteFloor(numbers, _) => self.read_floor_back(numbers, &answer.written),
                Call::WritePlan(floor, numbers, _) => {
                    self.read_plan_back(floor, numbers, &answer.written)
                }
                Call::CheckMoves(..) => (),
                Call::MoveOn(floor, plan, s, _) => {
                    self.follow_both(floor, plan, *s, &answer.written);
                    self.add_up(floor, plan, *s, &answer.written)
                }
                Call::ReplaceRow(floor, plan, cart, row) => {
                    self.look_at_row(floor, plan, *cart, row, &answer.written)
                }
            }
        }
        answer
    }

    fn write_floor_again(&mut self, file: &[u8]) {
        let numbers = reference::read_floor(file).expect("an accepted floor");
        let room = file.len() + self.random.below(3);
        let again = self.compare(&Call::WriteFloor(numbers, room));
        self.expect(
            again.written == file,
            "the floor is written otherwise",
            file,
        );
    }

    fn write_plan_again(&mut self, floor: &Input, file: &[u8]) {
        let numbers = reference::read_floor(&floor.bytes)
            .and_then(|floor| reference::read_plan(&floor, file))
            .expect("an accepted plan");
        let room = file.len() + self.random.below(3);
        let again = self.compare(&Call::WritePlan(floor.clone(), numbers, room));
        self.expect(again.written == file, "the plan is written otherwise", file);
    }

    fn read_floor_back(&mut self, numbers: &reference::Floor, file: &[u8]) {
        self.compare(&Call::ReadFloor(Input::from(file.to_vec())));
        let same = reference::read_floor(file).is_ok_and(|read| read == *numbers);
        self.expect(same, "the floor reads back otherwise", file);
    }

    fn read_plan_back(&mut self, floor: &Input, numbers: &reference::Plan, file: &[u8]) {
        let plan = Input::from(file.to_vec());
        self.compare(&Call::ReadPlan(floor.clone(), plan));
        let read = reference::read_floor(&floor.bytes)
            .and_then(|floor| reference::read_plan(&floor, file));
        let same = read.is_ok_and(|read| read == *numbers);
        self.expect(same, "the plan reads back otherwise", file);
    }

    fn expect(&mut self, holds: bool, what: &str, file: &[u8]) {
        if !holds {
            self.differ(what, &format!("file {}", call::hex(file)));
        }
    }

    /// A case written by hand: the reference, too, has to give what is written there.
    fn run_limit(&mut self, limit: &Limit) {
        self.label = limit.name;
        let answer = self.run(&limit.call);
        if answer.verdict != limit.verdict {
            let (ours, due) = (answer.verdict, limit.verdict);
            let what = format!("reference {ours:?}, the paper says {due:?}");
            self.differ(&what, &limit.call.to_string());
        }
        if let Some(due) = &limit.written {
            let what = "the reference leaves another file than the paper";
            self.expect(answer.written == *due, what, &answer.written);
        }
    }

    fn run_limits(&mut self) -> u64 {
        let limits = [
            limits::all(),
            narrow_limits::all(),
            group_limits::all(),
            move_limits::all(),
            edit_limits::all(),
            sum_limits::all(),
        ]
        .concat();
        for (case, limit) in (0..).zip(&limits) {
            self.begin(case);
            self.run_limit(limit);
        }
        limits.len() as u64
    }

    fn run_wide(&mut self, case: u64) {
        self.begin(case);
        self.label = "wider than 32 bits";
        for what in wide::complaints() {
            self.differ(&what, "zeros");
        }
    }

    fn run_random(&mut self, case: u64) {
        self.begin(case);
        let (label, call) = match case % 2 {
            0 => cases::any(&mut self.random),
            _ => edit_cases::any(&mut self.random),
        };
        self.label = label;
        self.run(&call);
    }
}

/// The argument at `position` as a number, or `usual` if it isn't given.
fn argument(position: usize, usual: u64) -> Result<u64, String> {
    match env::args().nth(position) {
        Some(text) => text.parse().map_err(|_| format!("not a number: {text}")),
        None => Ok(usual),
    }
}

fn run() -> Result<bool, String> {
    let seed = argument(1, SEED)?;
    let cases = argument(2, CASES)?;
    println!("files: seed {seed}");
    let mut harness = Harness::new(seed);
    let by_hand = harness.run_limits();
    harness.run_wide(by_hand);
    let cases = cases.max(by_hand + 1);
    for case in by_hand + 1..cases {
        harness.run_random(case);
    }
    let wrong = harness.table.print();
    if wrong > 0 {
        println!("files: {wrong} places of the table are empty that must not be, or the reverse");
    }
    let differences = harness.differences;
    println!("files: {cases} cases, {differences} differences");
    Ok(wrong == 0 && differences == 0)
}

fn main() -> ExitCode {
    match run() {
        Ok(true) => ExitCode::SUCCESS,
        Ok(false) => ExitCode::FAILURE,
        Err(message) => {
            println!("files: {message}");
            ExitCode::FAILURE
        }
    }
}
