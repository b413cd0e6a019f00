//! Time of the verified check against the second checker's, in one run, the two in turns. Its arguments are folders with `floor`, `plan`
//! and `rules`.

#[path = "../tests/second/check.rs"]
mod check;
#[path = "../tests/second/conflicts.rs"]
mod conflicts;
#[path = "../tests/second/floor.rs"]
mod floor;
#[path = "../tests/second/formula.rs"]
mod formula;
#[path = "../tests/second/library.rs"]
mod library;
#[path = "../tests/second/logic.rs"]
mod logic;
#[path = "../tests/second/plan.rs"]
mod plan;
#[path = "../tests/second/record.rs"]
mod record;
#[path = "../tests/second/running.rs"]
mod running;
#[path = "../tests/second/sheet.rs"]
mod sheet;
#[path = "../tests/second/verdict.rs"]
mod verdict;

use std::time::{Duration, Instant};

/// Rounds of both, until the slower one has taken a second.
fn turns(first: &mut dyn FnMut(), second: &mut dyn FnMut()) -> (Duration, Duration) {
    let (mut a, mut b) = (Duration::ZERO, Duration::ZERO);
    while a.max(b) < Duration::from_secs(1) {
        let start = Instant::now();
        first();
        a += start.elapsed();
        let start = Instant::now();
        second();
        b += start.elapsed();
    }
    (a, b)
}

fn main() {
    for folder in std::env::args().skip(1) {
        let [floor, plan, rules] =
            ["floor", "plan", "rules"].map(|name| std::fs::read(format!("{folder}/{name}")).expect("a file"));
        let (mut yes, mut also) = (true, true);
        let (verified, other) = turns(
            &mut || yes &= library::check(&floor, &plan, &rules).0.number == 0,
            &mut || also &= check::check(&floor, &plan, &rules).number == 0,
        );
        assert!(yes && also, "accepted by both");
        println!("{folder}: second checker / verified check = {:.1}", other.as_secs_f64() / verified.as_secs_f64());
    }
}
