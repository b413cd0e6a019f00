//! Reads rule sheets and picks clauses through the C interface, against a second writing of both
//! that is built otherwise.
//!
//! Arguments: a seed, then a number of random cases; both may be left out. Of five random cases
//! four read a sheet and one picks a clause.

mod automaton;
mod brink;
mod call;
mod cases;
mod changes;
mod damage;
mod earley;
mod grammar;
mod levels;
mod library;
mod limit_cases;
mod pick_cases;
mod random;
mod reference;
mod sheets;
mod short_cases;
mod table;
mod telling;
mod tokens;
mod wide;

use std::env;
use std::fmt::Debug;
use std::process::ExitCode;

use call::{Input, Outcome};
use earley::Earley;
use random::Random;
use reference::{Part, Reason, Verdict};
use table::{Source, Table};

const SEED: u64 = 20_020_917;
const RANDOM_CASES: u64 = 650_000;

/// Of so many cases that aren't by hand, one has its first wrong byte found by Earley as well.
const EARLEY_SHARE: u64 = 16;

/// More differences than this are only counted.
const SHOWN: usize = 10;

struct Harness {
    seed: u64,
    case: u64,
    label: &'static str,
    source: Source,
    random: Random,
    earley: Earley,
    table: Table,
    differences: usize,
}

impl Harness {
    fn new(seed: u64) -> Harness {
        Harness {
            seed,
            case: 0,
            label: "",
            source: Source::ByHand,
            random: Random::new(seed, 0),
            earley: Earley::new(),
            table: Table::default(),
            differences: 0,
        }
    }

    fn begin(&mut self, case: u64, label: &'static str) {
        self.case = case;
        self.label = label;
        self.random = Random::new(self.seed, case);
    }

    /// Reports a difference with all that is needed to see it again.
    fn differ(&mut self, what: &str, input: &str) {
        self.differences += 1;
        if self.differences <= SHOWN {
            let (seed, case, label) = (self.seed, self.case, self.label);
            println!("difference: seed {seed}, case {case} ({label})\n  {what}\n  {input}");
        }
    }

    /// Counts an answer that is as it has to be, with all lent memory, and reports any other.
    fn settle<T: PartialEq + Debug>(
        &mut self,
        (ours, reason): (T, Reason),
        outcome: Outcome<T>,
        input: impl Fn() -> String,
    ) {
        let theirs = outcome.answer;
        let mut complaints = outcome.complaints;
        if theirs != ours {
            let what = format!("library {theirs:?}, reference {ours:?} ({reason:?})");
            complaints.insert(0, what);
        }
        match complaints.is_empty() {
            true => self.table.count(reason, self.source),
            false => self.differ(&complaints.join("; "), &input()),
        }
    }

    fn read(&mut self, sheet: &Input) -> Verdict {
        let due = reference::read_rules(&sheet.bytes);
        let outcome = call::read_rules(&mut self.random, sheet);
        let input = || format!("read {}", call::shown(&sheet.bytes));
        self.settle(due, outcome, input);
        due.0
    }

    fn pick(&mut self, sheet: &Input, verdict: &Input) -> Part {
        let due = reference::clause(&sheet.bytes, &verdict.bytes);
        let outcome = call::clause(&mut self.random, sheet, verdict);
        let input = || {
            let sheet = call::shown(&sheet.bytes);
            format!("verdict {:?} picks of {sheet}", verdict.bytes)
        };
        self.settle(due, outcome, input);
        due.0
    }

    /// Whether Earley's recogniser and the automaton, both ours, find the same wrong byte.
    fn look_at_grammar(&mut self, sheet: &[u8]) {
        let by_rules = self.earley.first_wrong(sheet);
        let by_automaton = automaton::first_wrong(sheet);
        if by_rules != by_automaton {
            let what = format!("by the rules {by_rules:?}, by the automaton {by_automaton:?}");
            self.differ(&what, &call::shown(sheet));
        }
    }

    /// A case written by hand: the reference, too, has to give what is written there.
    fn hold_to_paper<T: PartialEq + Debug>(&mut self, ours: T, due: T, sheet: &Input) {
        if ours != due {
            let what = format!("reference {ours:?}, the paper says {due:?}");
            self.differ(&what, &call::shown(&sheet.bytes));
        }
    }

    fn run_by_hand(&mut self) -> u64 {
        let mut count = 0;
        for case in short_cases::all().into_iter().chain(limit_cases::all()) {
            self.begin(count, case.name);
            self.look_at_grammar(&case.sheet);
            let sheet = Input::from(case.sheet);
            let ours = self.read(&sheet);
            self.hold_to_paper(ours, case.verdict, &sheet);
            count += 1;
        }
        for case in pick_cases::all() {
            self.begin(count, "picked by hand");
            let sheet = Input::from(case.sheet);
            let ours = self.pick(&sheet, &Input::from(case.verdict));
            self.hold_to_paper(ours, case.part, &sheet);
            count += 1;
        }
        count
    }

    fn run_wide(&mut self, case: u64) {
        self.begin(case, "wider than 32 bits");
        for what in wide::complaints() {
            self.differ(&what, "zeros");
        }
    }

    /// Reads a sheet that isn't by hand; some are looked at by Earley too.
    fn run_sheet(&mut self, sheet: &Input) {
        self.read(sheet);
        if self.case % EARLEY_SHARE == 0 {
            self.look_at_grammar(&sheet.bytes);
        }
    }

    fn run_changes(&mut self, first: u64) -> u64 {
        self.source = Source::Changed;
        let sheets = changes::sheets();
        let changed = sheets.iter().flat_map(|sheet| changes::of(sheet));
        let mut case = first;
        for sheet in sheets.iter().cloned().chain(changed) {
            self.begin(case, "one byte changed");
            self.run_sheet(&Input::from(sheet));
            case += 1;
        }
        case - first
    }

    fn run_random(&mut self, first: u64, count: u64) {
        self.source = Source::Random;
        for case in first..first + count {
            self.begin(case, "pick");
            if case % 5 == 0 {
                let (sheet, verdict) = cases::pick(&mut self.random);
                self.pick(&sheet, &verdict);
            } else {
                let (label, sheet) = cases::sheet(&mut self.random);
                self.label = label;
                self.run_sheet(&sheet);
            }
        }
    }
}

/// The argument at `position` as a number, or `usual` if it isn't given.
fn argument(position: usize, usual: u64) -> Result<u64, String> {
    match env::args().nth(position) {
        Some(text) => text.parse().map_err(|_| format!("not a number: {text}")),
        None => Ok(usual),
    }
}

fn run() -> Result<bool, String> {
    let seed = argument(1, SEED)?;
    let random = argument(2, RANDOM_CASES)?;
    println!("sheets: seed {seed}");
    let mut harness = Harness::new(seed);
    let by_hand = harness.run_by_hand();
    harness.run_wide(by_hand);
    let changed = harness.run_changes(by_hand + 1);
    harness.run_random(by_hand + 1 + changed, random);
    let wrong = harness.table.print();
    if wrong > 0 {
        println!("sheets: {wrong} places of the table are empty that must not be, or the reverse");
    }
    let cases = by_hand + 1 + changed + random;
    let differences = harness.differences;
    println!("sheets: {cases} cases, {differences} differences");
    Ok(wrong == 0 && differences == 0)
}

fn main() -> ExitCode {
    match run() {
        Ok(true) => ExitCode::SUCCESS,
        Ok(false) => ExitCode::FAILURE,
        Err(message) => {
            println!("sheets: {message}");
            ExitCode::FAILURE
        }
    }
}
