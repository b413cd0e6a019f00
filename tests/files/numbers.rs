//! Numbers to write: valid ones, and ones that no file could give.

use crate::random::{self, Random};
use crate::reference::{
    Floor, Plan, LONGEST_FILE, MOST_CARTS, MOST_GROUPS, MOST_LANES, MOST_NARROW, MOST_PLACES,
};

/// A place that is the last of the floor or just past it, or any byte.
fn near_place(random: &mut Random, places: usize) -> u8 {
    let near = (places + random.below(3)).wrapping_sub(1) as u8;
    let any = random.byte();
    random.pick(&[near, near, any])
}

fn set_some_byte(random: &mut Random, bytes: &mut [u8], value: u8) {
    if !bytes.is_empty() {
        let at = random.below(bytes.len());
        bytes[at] = value;
    }
}

fn push_some(random: &mut Random, bytes: &mut Vec<u8>, most: usize) {
    for _ in 0..random.between(1, most) {
        bytes.push(random.byte());
    }
}

/// As many records as allowed, or one more.
fn fill(random: &mut Random, floor: &mut Floor) {
    let over = random.below(2);
    match random.below(5) {
        0 => floor.places.resize(MOST_PLACES + over, 7),
        1 => floor.lanes.resize(3 * (MOST_LANES + over), 0),
        2 => floor.carts.resize(2 * (MOST_CARTS + over), 0),
        3 => floor.narrow.resize(MOST_NARROW + over, 0),
        _ => floor.groups.resize(MOST_GROUPS + over, 1),
    }
}

fn spoil_floor(random: &mut Random, floor: &mut Floor) {
    let near = near_place(random, floor.places.len());
    let class = random.pick(&[7, 8, 9, 128, 255]);
    let group = random::group_near(random, floor.carts.len() / 2);
    match random.below(21) {
        0 => push_some(random, &mut floor.lanes, 2),
        1 => push_some(random, &mut floor.carts, 3),
        2..=4 => set_some_byte(random, &mut floor.lanes, near),
        5..=6 => set_some_byte(random, &mut floor.carts, near),
        7..=8 => set_some_byte(random, &mut floor.carts, class),
        9 => floor.carts.clear(),
        10 => floor.places.clear(),
        11 => drop(floor.lanes.pop()),
        12 => drop(floor.carts.pop()),
        13 => push_some(random, &mut floor.narrow, 3),
        14..=15 => set_some_byte(random, &mut floor.narrow, near),
        16..=18 => floor.groups.push(group),
        19 => floor.groups.insert(0, group),
        _ => fill(random, floor),
    }
}

fn heavy_length(random: &mut Random) -> usize {
    let near = random.between(LONGEST_FILE - 2, LONGEST_FILE + 3);
    let far = random.between(LONGEST_FILE + 1, 2 * LONGEST_FILE);
    random.pick(&[near, near, LONGEST_FILE, LONGEST_FILE + 1, far])
}

/// A floor of the length drawn, nearly all of it in one kind of record.
fn heavy_floor(random: &mut Random) -> Floor {
    let length = heavy_length(random);
    // A place and a group take 8 bytes, a lane 7, a cart 6, a narrow place 5: a few of another kind make up the rest.
    let rest = length - 8;
    let [places, lanes, carts, narrow, groups] = match random.below(5) {
        0 => {
            let lanes = (8 - length % 8) % 8;
            [(length - 7 * lanes) / 8, lanes, 0, 0, 0]
        }
        1 => {
            let carts = (7 - rest % 7) % 7;
            [1, (rest - 6 * carts) / 7, carts, 0, 0]
        }
        2 => {
            let lanes = rest % 6;
            [1, lanes, (rest - 7 * lanes) / 6, 0, 0]
        }
        3 => {
            let carts = rest % 5;
            [1, 0, carts, (rest - 6 * carts) / 5, 0]
        }
        _ => {
            let lanes = (8 - length % 8) % 8;
            [1, lanes, 0, 0, (rest - 7 * lanes) / 8]
        }
    };
    let mut floor = Floor {
        places: vec![1; places],
        lanes: vec![0; 3 * lanes],
        carts: vec![0; 2 * carts],
        narrow: vec![0; narrow],
        groups: vec![0; groups],
    };
    // A shorter last part makes the file shorter by its missing bytes and no more.
    if random.percent(30) {
        floor.lanes.pop();
    }
    if random.percent(30) {
        floor.carts.pop();
    }
    floor
}

pub fn floor(random: &mut Random) -> Floor {
    if random.below(400) == 0 {
        return heavy_floor(random);
    }
    let mut floor = random::floor(random);
    for _ in 0..random.pick(&[0, 0, 0, 1, 1, 1, 2, 3]) {
        spoil_floor(random, &mut floor);
    }
    floor
}

fn spoil_head(random: &mut Random, plan: &mut Plan, carts: usize) {
    let h = plan.h;
    match random.below(3) {
        0 => {
            plan.h = random.pick(&[0, 0, 1, 63, 64, 65, 255, 256, 257, 320, 65_535]);
            if random.percent(50) {
                plan.rows.resize(carts * usize::from(plan.h.min(300)), 0);
            }
        }
        1 => plan.l = random.pick(&[h.wrapping_sub(1), h, h.wrapping_add(1), h ^ 256, 65_535]),
        _ => plan.d = random.pick(&[15, 16, 17, 255, 256, 272, 65_535]),
    }
}

fn spoil_plan(random: &mut Random, plan: &mut Plan, floor: &Floor) {
    let near = near_place(random, floor.places.len());
    let h = usize::from(plan.h);
    let rows = plan.rows.len();
    match random.below(10) {
        0..=2 => spoil_head(random, plan, floor.carts.len() / 2),
        3 => plan.rows.resize(rows + h, 0),
        4 => plan.rows.truncate(rows.saturating_sub(h)),
        5 => push_some(random, &mut plan.rows, 4),
        6 => plan
            .rows
            .truncate(rows.saturating_sub(random.between(1, 3))),
        7..=8 => set_some_byte(random, &mut plan.rows, near),
        _ => plan.rows.clear(),
    }
}

/// A plan of the length drawn, or up to four bytes less where whole rows can't give it.
fn heavy_plan(random: &mut Random) -> Plan {
    let length = heavy_length(random) - 10;
    let h = random.pick(&[0, 1, 2, 4, 64, 65, 1_000, 65_535]);
    let row = usize::from(h);
    let rows = match h {
        0 => length - 4,
        _ => length / (4 + row) * row + (length % (4 + row)).saturating_sub(4),
    };
    let l = 0;
    let d = 0;
    let rows = vec![0; rows];
    Plan { h, l, d, rows }
}

/// Numbers of a plan for this floor.
pub fn plan(random: &mut Random, floor: &Floor) -> Plan {
    if random.below(400) == 0 {
        return heavy_plan(random);
    }
    let mut plan = random::plan(random, floor);
    for _ in 0..random.pick(&[0, 0, 0, 1, 1, 1, 2, 3]) {
        spoil_plan(random, &mut plan, floor);
    }
    plan
}

/// A length for the result buffer, given the result's length if there is a result.
pub fn room(random: &mut Random, needed: Option<usize>) -> usize {
    let Some(needed) = needed else {
        return random.pick(&[0, 1, 9, 10, 64, 300]);
    };
    match random.below(10) {
        0..=2 => needed,
        3..=4 => needed - 1,
        5 => needed + 1,
        6 => random.below(needed),
        7 => random.pick(&[0, 1]),
        _ => needed + random.below(100),
    }
}
