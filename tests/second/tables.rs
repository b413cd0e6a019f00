//! Worlds as in document 002's example 3: carts that change between places which bear one of a few marks.

use crate::floor::{Cart, Floor, Lane};
use crate::groups;
use crate::narrow;
use crate::plan::Plan;
use crate::random::Random;
use crate::world::{walk, Size, World};

/// Two to so many carts, one to so many steps and a drift of one to so much; a lane between any two of a few places.
pub fn small(random: &mut Random, [carts, steps, drift]: [usize; 3]) -> World {
    let (carts, h, d) = (
        random.range(2, carts),
        random.range(1, steps),
        random.range(1, drift),
    );
    let (l, places) = (random.below(h), random.range(2, 4));
    let stay = random.pick(&[0, 30, 60]);
    let rows = (0..carts).map(|_| walk(random, h, places, stay)).collect();
    let mut plan = Plan { h, l, d, rows };
    let leave = random
        .chance(15)
        .then(|| all_leave(random, &mut plan, places));
    let start = |row: &Vec<u8>| Cart {
        class: 0,
        start: row[0],
    };
    let floor = Floor {
        places: vec![0; places],
        lanes: between_all(places),
        carts: plan.rows.iter().map(start).collect(),
        narrow: Vec::new(),
        groups: groups::random(random, carts),
    };
    let marks = Vec::new();
    let mut world = World { floor, plan, marks };
    mark(random, &mut world);
    if leave.is_some() {
        world.floor.places[0] = 0;
    }
    world
}

/// Any size.
pub fn any(random: &mut Random, size: Size) -> World {
    if size == Size::Small {
        return small(random, [6, 8, 4]);
    }
    let mut world = World::random(random, size, narrow::Wish::Clear);
    mark(random, &mut world);
    world
}

/// Most places bear one of two or three marks.
fn mark(random: &mut Random, world: &mut World) {
    let first = random.below(30) as u32;
    world.marks = (first..first + random.range(2, 3) as u32).collect();
    let none = random.pick(&[0, 0, 5, 20]);
    for place in &mut world.floor.places {
        *place = match random.below(100) {
            i if i < none => 0,
            i if i < none + 10 => (random.below(8) as u32) << first,
            _ => 1 << random.pick(&world.marks),
        };
    }
}

/// At one step no cart is on place 0, and at the next all are.
fn all_leave(random: &mut Random, plan: &mut Plan, places: usize) {
    let step = random.below(plan.h);
    let next = plan.step(step + 1);
    for row in &mut plan.rows {
        row[next] = 0;
        row[step] = random.range(1, places - 1) as u8;
    }
}

fn between_all(places: usize) -> Vec<Lane> {
    let pairs = (0..places * places).map(|pair| (pair / places, pair % places));
    let lane = |(from, to)| Lane {
        from,
        to,
        classes: 255,
    };
    pairs.map(lane).collect()
}
