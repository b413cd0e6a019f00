//! A second checker of plans, written from documents 01, 02 and 002 alone, beside the verified one.
//!
//!     second CASES SEED         both checkers on random triples
//!     second soak CASES SEED    the same for long runs, told in parts
//!     second runs CASES SEED    verdicts beside runs: random ones, and all runs of small plans
//!     second moved CASES SEED   plans moved on twice beside plans moved on once

mod aims;
mod blocks;
mod cases;
mod check;
mod clauses;
mod compare;
mod conflicts;
mod cuts;
mod damage;
mod faults;
mod floor;
mod formula;
mod group_cases;
mod group_readings;
mod grouped;
mod groups;
mod joined;
mod joined_cases;
mod library;
mod limits;
mod logic;
mod move_on;
mod moved;
mod moved_tally;
mod moved_truth;
mod narrow;
mod narrow_cases;
mod or_blocks;
mod ors;
mod plan;
mod print;
mod random;
mod readings;
mod record;
mod recounts;
mod rounding;
mod run;
mod running;
mod runs;
mod search;
mod sheet;
mod sheets;
mod small;
mod standings;
mod sums;
mod tables;
mod tally;
mod thresholds;
mod traffic;
mod truth;
mod unrolled;
mod verdict;
mod windows;
mod world;

use std::process::ExitCode;

fn main() -> ExitCode {
    let args: Vec<String> = std::env::args().skip(1).collect();
    let words: Vec<&str> = args.iter().map(String::as_str).collect();
    let number = |text: &str| text.parse::<u64>().ok();
    let passed = match words[..] {
        ["soak", cases, seed] => number(cases)
            .zip(number(seed))
            .map(|(c, s)| compare::soak(c, s)),
        ["runs", cases, seed] => number(cases)
            .zip(number(seed))
            .map(|(c, s)| runs::run(c, s)),
        ["moved", cases, seed] => number(cases)
            .zip(number(seed))
            .map(|(c, s)| moved::run(c, s)),
        [cases, seed] => number(cases)
            .zip(number(seed))
            .map(|(c, s)| compare::gate(c, s)),
        _ => None,
    };
    match passed {
        Some(true) => ExitCode::SUCCESS,
        Some(false) => ExitCode::FAILURE,
        None => {
            eprintln!("second: CASES SEED, soak CASES SEED, runs CASES SEED or moved CASES SEED");
            ExitCode::from(2)
        }
    }
}
