//! Random triples, each aimed at one verdict.

use crate::clauses::Clauses;
use crate::damage::{self, Triple};
use crate::faults::Records;
use crate::groups;
use crate::limits;
use crate::narrow;
use crate::random::Random;
use crate::sheet;
use crate::sheets::{self, Wish};
use crate::tables;
use crate::world::{Size, World};

/// How often each number is aimed at, in 1,000; 18 stands for damaged bytes, and 19 for ors of counts. These are no numbers of the check.
const AIMS: [usize; 22] = [
    170, 6, 20, 20, 20, 25, 25, 20, 20, 20, 25, 50, 10, 60, 55, 40, 50, 95, 54, 75, 90, 50,
];

pub fn triple(random: &mut Random) -> Triple {
    let aim = random.weighted(&AIMS) as u32;
    let mut triple = match aim {
        0 => accepted(random),
        17 => with_clauses(random, Wish::Broken, narrow::Wish::Clear),
        1..=11 => with_fault(random, aim),
        12..=16 => with_sheet(random, aim),
        19 => joined(random),
        20 => conflicting(random),
        21 => with_lacking(random),
        _ => damaged(random),
    };
    damage::without_later_forms(&mut triple);
    triple
}

/// A triple without conflicts whose clauses are all true.
pub fn accepted(random: &mut Random) -> Triple {
    with_clauses(random, Wish::Kept, narrow::Wish::Clear)
}

/// A triple whose clauses may be true or not, and whose carts may be in conflict.
pub fn judged(random: &mut Random) -> Triple {
    let wish = random.pick(&[Wish::Kept, Wish::Broken, Wish::Any]);
    with_clauses(random, wish, narrow::Wish::Any)
}

/// A triple whose carts are in conflict, with a sheet that nobody should look at.
pub fn conflicting(random: &mut Random) -> Triple {
    let size = [Size::Small, Size::Middle, Size::Large, Size::Limit];
    let size = size[random.weighted(&[700, 230, 60, 10])];
    let world = World::random(random, size, narrow::Wish::Met);
    with_rules(&world, any_sheet(random, 5))
}

/// A triple with ors of counts that are just enough if they are joined, or just not, at drift 1 or more.
fn joined(random: &mut Random) -> Triple {
    let size = size(random);
    let world = tables::any(random, size);
    let collection = world.collection();
    let mut clauses = Clauses::new(random, &world, &collection);
    clauses.sizes = [11, 11, 30, 100];
    let count = clauses.random.pick(&[1, 1, 2, 3]);
    let rules = sheets::about_ors(&mut clauses, count);
    with_rules(&world, rules)
}

fn size(random: &mut Random) -> Size {
    [Size::Small, Size::Middle, Size::Large, Size::Limit][random.weighted(&[400, 340, 200, 60])]
}

pub fn with_rules(world: &World, rules: Vec<u8>) -> Triple {
    let (floor, plan) = Records::of(world).files();
    Triple { floor, plan, rules }
}

fn with_clauses(random: &mut Random, wish: Wish, traffic: narrow::Wish) -> Triple {
    // Now and then everything is as large as it may be.
    let full = random.below(4000) == 0;
    let size = if full { Size::Limit } else { size(random) };
    let world = World::random(random, size, traffic);
    let collection = world.collection();
    let mut clauses = Clauses::new(random, &world, &collection);
    clauses.next_outside = world.plan.d == 0 && clauses.random.chance(60);
    let mut count = sheets::count(&mut clauses);
    if full {
        clauses.least = 128;
        count = sheet::MOST_CLAUSES;
    }
    let rules = sheets::sheet(&mut clauses, count, wish);
    with_rules(&world, rules)
}

fn with_fault(random: &mut Random, number: u32) -> Triple {
    let size = [Size::Small, Size::Middle, Size::Large][random.weighted(&[70, 22, 8])];
    let world = World::random(random, size, narrow::Wish::Any);
    let mut records = Records::of(&world);
    if number > 2 {
        records.fault(random, number);
    }
    // A second fault now and then, to see which one is told.
    if number >= 10 && random.chance(40) {
        let second = random.pick(&[10, 11, 11]);
        records.fault(random, second);
    } else if (3..7).contains(&number) && random.chance(15) {
        let second = random.pick(&[4, 6, 9]);
        records.fault(random, second);
    }
    let (mut floor, mut plan) = records.files();
    let file = if random.chance(50) {
        &mut floor
    } else {
        &mut plan
    };
    match number {
        1 => damage::too_long(random, file),
        2 => damage::cut(random, file),
        _ => {}
    }
    let rules = any_sheet(random, if number == 7 { 60 } else { 5 });
    Triple { floor, plan, rules }
}

/// A short sheet, kept or broken or refused; how often it is an empty one is said.
fn any_sheet(random: &mut Random, empty: usize) -> Vec<u8> {
    let sheets: [&[u8]; 5] = [b"true\n", b"[m0,1]|true\n", b"!true\n", b"x", b""];
    sheets[random.weighted(&[50, 20, 15, 10, empty])].to_vec()
}

fn with_sheet(random: &mut Random, number: u32) -> Triple {
    let size = [Size::Small, Size::Middle, Size::Large][random.weighted(&[80, 18, 2])];
    let world = World::random(random, size, narrow::Wish::Clear);
    let collection = world.collection();
    let mut clauses = Clauses::new(random, &world, &collection);
    clauses.next_outside = number == 16 || world.plan.d == 0;
    let wish = if clauses.random.chance(80) {
        Wish::Any
    } else {
        Wish::Kept
    };
    let count = clauses.random.range(1, 4);
    let mut rules = match number {
        14 => limits::about_limits(&mut clauses),
        _ => sheets::sheet(&mut clauses, count, wish),
    };
    match number {
        12 => limits::pad(random, &mut rules),
        13 if random.chance(25) => rules = limits::other_group(random, &rules),
        13 => damage::damage(random, &mut rules, true),
        14 if random.chance(15) => damage::damage(random, &mut rules, true),
        15 => rules = limits::other_number(random, &rules),
        _ => {}
    }
    with_rules(&world, rules)
}

/// A triple with counts over groups that the floor lacks, beside others.
fn with_lacking(random: &mut Random) -> Triple {
    let size = [Size::Small, Size::Middle, Size::Large][random.weighted(&[80, 18, 2])];
    let mut world = World::random(random, size, narrow::Wish::Clear);
    world.floor.groups.truncate(groups::MOST_GROUPS - 1);
    let collection = world.collection();
    let mut clauses = Clauses::new(random, &world, &collection);
    clauses.next_outside = clauses.random.chance(30);
    let count = clauses.random.range(1, 4);
    let rules = sheets::lacking(&mut clauses, count);
    with_rules(&world, rules)
}

/// Any triple, with damaged bytes in one to three of its files.
fn damaged(random: &mut Random) -> Triple {
    let wish = random.pick(&[narrow::Wish::Clear, narrow::Wish::Any]);
    let world = World::random(random, Size::Small, wish);
    let collection = world.collection();
    let mut clauses = Clauses::new(random, &world, &collection);
    let rules = sheets::sheet(&mut clauses, 2, Wish::Kept);
    let mut triple = with_rules(&world, rules);
    let which = random.range(1, 7);
    if which & 1 != 0 {
        damage::damage(random, &mut triple.floor, false);
    }
    if which & 2 != 0 {
        damage::damage(random, &mut triple.plan, false);
    }
    if which & 4 != 0 {
        damage::damage(random, &mut triple.rules, true);
    }
    triple
}
