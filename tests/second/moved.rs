//! Plans moved on twice beside plans moved on once: all bytes, and what is true in step at the start.

use std::time::Instant;

use crate::aims;
use crate::clauses::Clauses;
use crate::compare::{both, tell, Within};
use crate::damage::Triple;
use crate::library;
use crate::logic::Collection;
use crate::move_on::{file_of, moved};
use crate::moved_tally::Tally;
use crate::moved_truth::Both;
use crate::narrow;
use crate::plan::Plan;
use crate::random::Random;
use crate::runs::{Outcome, Read};
use crate::sheet;
use crate::sheets::{self, Wish};
use crate::verdict::{Refusal, Verdict, PLAN};
use crate::world::{Size, World};

/// The most that a plan is moved on by.
const MOST: usize = 65_535;

/// So many cases; false once a difference was told.
pub fn run(cases: u64, seed: u64) -> bool {
    let begun = Instant::now();
    let mut tally = Tally::default();
    for case in 0..cases {
        let _within = Within { seed, case };
        let mut random = Random::new(seed, case);
        let mut moves = Moves::random(&mut random);
        if let Err(text) = moves.look(&mut random, &mut tally) {
            let Moves { triple, s, u, .. } = &moves;
            tell(triple, seed, case, &format!("by {s}, then {u}: {text}"));
            return false;
        }
    }
    tally.print();
    println!("{:.0} seconds", begun.elapsed().as_secs_f64());
    if !tally.enough(cases) {
        println!("second: too few moves of a kind, or that a misreading changes");
        return false;
    }
    println!("{cases} cases of plans moved on, 0 differences");
    true
}

/// A triple whose plan is moved on by s and then by u.
struct Moves {
    world: World,
    triple: Triple,
    s: usize,
    u: usize,
}

/// An answer, with the whole buffer as it is left.
#[derive(PartialEq)]
struct Answer {
    verdict: Verdict,
    buffer: Vec<u8>,
}

impl Moves {
    fn random(random: &mut Random) -> Moves {
        let sizes = [Size::Small, Size::Middle, Size::Large, Size::Limit];
        let size = sizes[random.weighted(&[460, 380, 140, 20])];
        let world = World::random(random, size, narrow::Wish::Any);
        let s = distance(random, &world.plan);
        let u = match random.below(10) {
            0 => 0,
            1 => MOST - s,
            2 => distance(random, &world.plan),
            _ => distance(random, &moved(&world.plan, s)),
        };
        let rules = rules(random, &world);
        Moves {
            triple: aims::with_rules(&world, rules),
            world,
            s,
            u: u.min(MOST - s),
        }
    }

    fn look(&mut self, random: &mut Random, tally: &mut Tally) -> Outcome {
        let read = Read::of(&self.triple);
        let first = self.add_up(random, &read.plan)?;
        let moved = Plan::read(&first, &read.floor);
        let moved = moved.map_err(|refusal| format!("the moved plan is refused: {refusal:?}"))?;
        let both = Both::new(&read, &moved, self.s);
        let mut holds = Vec::new();
        for (i, clause) in read.clauses.iter().enumerate() {
            let found = both.look(clause);
            let found = found.map_err(|text| format!("clause {i}: {text}"))?;
            tally.note_clause(clause, &found);
            holds.push(found.holds);
        }
        tally.note_moves(&read.plan, self.s, self.u);
        self.check(moved, &holds)
    }

    /// Moving on by s and then by u answers as moving on by s + u does, whatever room there is, and always as the paper has it. Gives the plan
    /// moved on by s.
    fn add_up(&self, random: &mut Random, old: &Plan) -> Result<Vec<u8>, String> {
        let plan = &self.triple.plan;
        let (s, u) = (self.s, self.u);
        let [first, last] = [s, s + u].map(|by| file_of(&moved(old, by)));
        // A buffer that holds the last result need not hold the first.
        let enough = first.len() + random.below(3);
        for room in [last.len(), first.len() - 1, enough] {
            self.expect(plan, s, &first, room)?;
        }
        for room in [shorter(random, &last), last.len(), longer(random, &last)] {
            let apart = self.move_on(&first, u, room)?;
            if apart != self.move_on(plan, s + u, room)? {
                return Err(format!("not as by their sum, with room for {room} bytes"));
            }
            self.expect(plan, s + u, &last, room)?;
        }
        for file in [plan, &first] {
            self.expect(file, 0, file, file.len())?;
            self.expect(file, 0, file, shorter(random, file))?;
        }
        Ok(first)
    }

    fn move_on(&self, plan: &[u8], s: usize, room: usize) -> Result<Answer, String> {
        let mut buffer = filling(room);
        let (verdict, untouched) =
            library::move_on(&self.triple.floor, plan, s as u16, &mut buffer);
        if !untouched {
            return Err(format!("{verdict}, but a lent file has changed"));
        }
        Ok(Answer { verdict, buffer })
    }

    /// The answer has to be this file, or that there is too little room for it.
    fn expect(&self, plan: &[u8], s: usize, due: &[u8], room: usize) -> Outcome {
        let Answer { verdict, buffer } = self.move_on(plan, s, room)?;
        let mut wanted = filling(room);
        let due_verdict = if room < due.len() {
            Verdict::refused(PLAN, Refusal(18, due.len(), 0))
        } else {
            wanted[..due.len()].copy_from_slice(due);
            Verdict {
                first: due.len() as u32,
                ..Verdict::ACCEPTED
            }
        };
        if verdict != due_verdict {
            return Err(format!(
                "moved on by {s} with room for {room} bytes: {verdict}, but {due_verdict} is due"
            ));
        }
        if buffer != wanted {
            return Err(format!(
                "moved on by {s}, the bytes are {buffer:?}, but {wanted:?} are due"
            ));
        }
        Ok(())
    }

    /// The moved plan at drift 0, with carts that start where it begins, is kept exactly by the clauses that were true at counter s.
    fn check(&mut self, moved: Plan, holds: &[bool]) -> Outcome {
        let carts = self.world.floor.carts.iter_mut();
        for (cart, row) in carts.zip(&moved.rows) {
            cart.start = row[0];
        }
        self.world.floor.narrow.clear();
        self.world.plan = Plan { d: 0, ..moved };
        let verdict = both(&aims::with_rules(&self.world, self.triple.rules.clone()))?;
        let broken = holds.iter().position(|holds| !holds);
        let told = (verdict.number == 17).then_some(verdict.first as usize);
        if told != broken || told.is_none() && verdict != Verdict::ACCEPTED {
            return Err(format!("the check of the moved plan in step: {verdict}"));
        }
        Ok(())
    }
}

/// How far a plan is moved on: about where its lap begins and ends, within it, some laps on, or as far as may be.
fn distance(random: &mut Random, plan: &Plan) -> usize {
    let Plan { h, l, .. } = *plan;
    let lap = h - l;
    match random.below(14) {
        0 => 0,
        1 => l.saturating_sub(1),
        2 => l,
        3 => l + 1,
        4 => h - 1,
        5 => h,
        6 => h + 1,
        7 | 8 => random.below(l + 1),
        9 | 10 => l + random.below(lap),
        11 => l + random.below(20 * lap),
        12 => random.below(MOST + 1),
        _ => MOST - random.below(2 * lap),
    }
}

/// Clauses with thresholds close to what the rows make of them in step.
fn rules(random: &mut Random, world: &World) -> Vec<u8> {
    let in_step = Plan {
        d: 0,
        ..world.plan.clone()
    };
    let collection = Collection::new(&world.floor, &in_step);
    let mut clauses = Clauses::new(random, world, &collection);
    clauses.next_outside = clauses.random.chance(70);
    let count = sheets::count(&mut clauses);
    let mut rules = sheets::sheet(&mut clauses, count, Wish::Any);
    let line = sheets::about_next(&mut clauses);
    let room = count < sheet::MOST_CLAUSES && rules.len() + line.len() <= sheet::LONGEST_SHEET;
    if room && clauses.random.chance(35) {
        rules.extend(line);
    }
    rules
}

/// A buffer before it is written to.
fn filling(room: usize) -> Vec<u8> {
    (0..room).map(|at| (at * 37 + 11) as u8).collect()
}

/// Room for less than a file, mostly by one byte.
fn shorter(random: &mut Random, file: &[u8]) -> usize {
    match random.below(3) {
        0 => random.below(file.len()),
        _ => file.len() - 1,
    }
}

/// Room for more than a file.
fn longer(random: &mut Random, file: &[u8]) -> usize {
    file.len() + random.range(1, 40)
}
