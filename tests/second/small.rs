//! Small plans on all their runs.

use crate::clauses::Clauses;
use crate::compare::{both, smaller_drifts};
use crate::damage::Triple;
use crate::faults::Records;
use crate::formula::{Clause, Op};
use crate::narrow::Wish;
use crate::plan::Plan;
use crate::print::Printer;
use crate::random::Random;
use crate::run::Run;
use crate::runs::{hold_on, Outcome, Read, Tally};
use crate::search::{some_run_breaks, temporal_nodes};
use crate::standings::Standings;
use crate::unrolled;
use crate::verdict::{Refusal, Verdict, PLAN, RULES};
use crate::world::World;

fn small_world(random: &mut Random, wish: Wish) -> World {
    let carts = random.range(2, 4);
    let (h, d, places) = (random.range(1, 6), random.below(4), random.range(1, 4));
    World::build(random, [carts, h, d, places], wish)
}

pub fn triple_of(random: &mut Random, world: &World, clause: &Clause) -> Triple {
    let rules = Printer::new(random).line(clause);
    let (floor, plan) = Records::of(world).files();
    Triple { floor, plan, rules }
}

/// A clause of a few temporal operators over counts: accepted only if no run breaks it.
pub fn searched(random: &mut Random, tally: &mut Tally) -> (Triple, Outcome) {
    let world = small_world(random, Wish::Clear);
    let nodes = random.range(3, 14);
    let clause = Clauses::new(random, &world, &world.collection()).clause(nodes);
    let triple = triple_of(random, &world, &clause);
    let outcome = search(random, &triple, tally);
    (triple, outcome)
}

fn search(random: &mut Random, triple: &Triple, tally: &mut Tally) -> Outcome {
    let accepted = both(triple)? == Verdict::ACCEPTED;
    let read = Read::of(triple);
    let meaning = read.meaning(&read.clauses[0]);
    if temporal_nodes(&meaning).len() > 4 {
        return Ok(());
    }
    let standings = Standings::of(&read.plan);
    let broken = some_run_breaks(&standings, &meaning);
    tally.searched += 1;
    tally.standings += standings.list.len();
    tally.accepted += accepted as usize;
    tally.refused += !accepted as usize;
    tally.refused_broken += (!accepted && broken) as usize;
    if accepted && broken {
        return Err("accepted, but the search finds a run that breaks it".into());
    }
    if accepted {
        tally.smaller += smaller_drifts(triple)?;
    }
    // The search itself beside random runs.
    for _ in 0..3 {
        let held = hold_on(&meaning, &Run::random(random, &read.plan));
        if !broken {
            held.map_err(|text| format!("the search finds no run, but it is {text}"))?;
        }
    }
    Ok(())
}

/// G over one count, negated or not: refused exactly if some run breaks it, at the lowest step.
pub fn globally_one_count(random: &mut Random, tally: &mut Tally) -> (Triple, Outcome) {
    let world = small_world(random, Wish::Clear);
    let (nodes, negated) = (random.range(1, 6), random.chance(50));
    let mut clause = Clause::default();
    let mut body = Clauses::new(random, &world, &world.collection()).count(&mut clause, nodes);
    if negated {
        body = clause.push(Op::Not, body, 0);
    }
    clause.root = clause.push(Op::Globally, body, 0);
    let triple = triple_of(random, &world, &clause);
    let outcome = exactly(&triple, negated, tally);
    (triple, outcome)
}

fn exactly(triple: &Triple, negated: bool, tally: &mut Tally) -> Outcome {
    let verdict = both(triple)?;
    let read = Read::of(triple);
    let meaning = read.meaning(&read.clauses[0]);
    let standings = Standings::of(&read.plan);
    if standings.list.len() != within_drift(&read.plan) {
        return Err("the runs do not come through all standings".into());
    }
    let wanted = match standings.lowest_failing(&meaning, negated) {
        Some(step) => Verdict::refused(RULES, Refusal(17, 0, step)),
        None => Verdict::ACCEPTED,
    };
    let refused = wanted != Verdict::ACCEPTED;
    tally.globally += 1;
    tally.globally_refused += refused as usize;
    tally.grouped.note_globally(&read, refused);
    if verdict != wanted {
        return Err(format!("{verdict}, but by all standings {wanted}"));
    }
    if some_run_breaks(&standings, &meaning) != refused {
        return Err(format!("{wanted}, but the search says otherwise"));
    }
    if !refused {
        tally.smaller += smaller_drifts(triple)?;
    }
    Ok(())
}

/// Narrow places: refused exactly if some run has a conflict, with the lowest cart and the step of its earliest counter.
pub fn conflicts(random: &mut Random, tally: &mut Tally) -> (Triple, Outcome) {
    let wish = random.pick(&[Wish::Met, Wish::Met, Wish::Any, Wish::Clear]);
    let world = small_world(random, wish);
    let (floor, plan) = Records::of(&world).files();
    let rules = b"true\n".to_vec();
    let triple = Triple { floor, plan, rules };
    let outcome = exactly_those(&triple, tally);
    (triple, outcome)
}

fn exactly_those(triple: &Triple, tally: &mut Tally) -> Outcome {
    let verdict = both(triple)?;
    let Read { floor, plan, .. } = Read::of(triple);
    let wanted = match unrolled::lowest_conflict(&plan, &floor) {
        Some((cart, counter)) => Verdict::refused(PLAN, Refusal(20, cart, plan.step(counter))),
        None => Verdict::ACCEPTED,
    };
    if verdict != wanted {
        return Err(format!("{verdict}, but by all runs {wanted}"));
    }
    if wanted == Verdict::ACCEPTED {
        tally.clear += !floor.narrow.is_empty() as usize;
        tally.smaller += smaller_drifts(triple)?;
    } else {
        tally.conflicts += 1;
    }
    Ok(())
}

/// How many standings there are: a lowest counter, and the others up to d above it.
fn within_drift(plan: &Plan) -> usize {
    let carts = plan.rows.len() as u32;
    plan.h * ((plan.d + 1).pow(carts) - plan.d.pow(carts))
}
