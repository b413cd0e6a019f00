//! Random floors with plans whose moves are all open.

use std::collections::BTreeMap;

use crate::floor::{Cart, Floor, Lane};
use crate::groups;
use crate::logic::Collection;
use crate::narrow;
use crate::plan::Plan;
use crate::random::Random;

#[derive(Clone, Copy, PartialEq)]
pub enum Size {
    Small,
    Middle,
    Large,
    Limit,
}

pub struct World {
    pub floor: Floor,
    pub plan: Plan,
    /// The marks that clauses should speak of.
    pub marks: Vec<u32>,
}

/// A record to be written: kind and body.
pub type Written = (u16, Vec<u8>);

pub fn encode(records: &[Written]) -> Vec<u8> {
    let mut file = Vec::new();
    for (kind, body) in records {
        file.extend((body.len() as u16).to_le_bytes());
        file.extend(kind.to_le_bytes());
        file.extend(body);
    }
    file
}

/// Upper ends for carts, steps, drift and places.
fn ends(size: Size) -> [usize; 4] {
    match size {
        Size::Small => [4, 6, 3, 5],
        Size::Middle => [10, 16, 8, 12],
        Size::Large => [32, 64, 16, 64],
        Size::Limit => [32, 64, 16, 256],
    }
}

impl World {
    pub fn random(random: &mut Random, size: Size, wish: narrow::Wish) -> World {
        let [carts, steps, drift, places] = ends(size);
        let low = |end: usize| if size == Size::Limit { end } else { 1 };
        let carts = random.range(low(carts), carts);
        let h = random.range(low(steps), steps);
        let places = random.range(1, places);
        let d = match size {
            Size::Limit => drift,
            _ if random.chance(25) => 0,
            _ if random.chance(60) => random.range(1, 2),
            _ => random.range(1, drift),
        };
        World::build(random, [carts, h, d, places], wish)
    }

    /// A world with so many carts, steps, drift and places.
    pub fn build(
        random: &mut Random,
        [carts, h, d, places]: [usize; 4],
        wish: narrow::Wish,
    ) -> World {
        let l = match random.below(6) {
            0 => 0,
            1 => h - 1,
            _ => random.below(h),
        };
        let marks: Vec<u32> = (0..random.range(1, 3))
            .map(|_| random.below(32) as u32)
            .collect();
        let often = random.pick(&[20, 50, 80]);
        let places: Vec<u32> = (0..places)
            .map(|_| marked_place(random, often, &marks))
            .collect();
        let spare = narrow::spare(random, wish, places.len());
        let mut rows = random_rows(random, carts, h, places.len() - spare);
        if random.chance(30) {
            meet(random, &mut rows, &places, &marks);
        }
        let mut plan = Plan { h, l, d, rows };
        let narrow = narrow::places(random, &mut plan, places.len(), wish);
        let carts = random_carts(random, &plan);
        let lanes = random_lanes(random, &plan, &carts, places.len());
        let mut floor = Floor {
            places,
            lanes,
            carts,
            narrow,
            groups: Vec::new(),
        };
        floor.groups = groups::random(random, floor.carts.len());
        World { floor, plan, marks }
    }

    pub fn collection(&self) -> Collection {
        Collection::new(&self.floor, &self.plan)
    }

    pub fn floor_records(&self) -> Vec<Written> {
        let place = |marks: &u32| (1, marks.to_le_bytes().to_vec());
        let lane = |lane: &Lane| (2, vec![lane.from as u8, lane.to as u8, lane.classes]);
        let cart = |cart: &Cart| (3, vec![cart.class, cart.start]);
        let mut records: Vec<Written> = self.floor.places.iter().map(place).collect();
        records.extend(self.floor.lanes.iter().map(lane));
        records.extend(self.floor.carts.iter().map(cart));
        records.extend(self.floor.narrow.iter().map(|place| (6, vec![*place])));
        let group = |group: &u32| (7, group.to_le_bytes().to_vec());
        records.extend(self.floor.groups.iter().map(group));
        records
    }

    pub fn plan_records(&self) -> Vec<Written> {
        records_of(&self.plan)
    }
}

pub fn records_of(plan: &Plan) -> Vec<Written> {
    let Plan { h, l, d, rows } = plan;
    let head = [*h, *l, *d]
        .into_iter()
        .flat_map(|x| (x as u16).to_le_bytes());
    let mut records = vec![(4, head.collect())];
    records.extend(rows.iter().map(|row| (5, row.clone())));
    records
}

fn marked_place(random: &mut Random, often: usize, marks: &[u32]) -> u32 {
    let mut place = if random.chance(20) {
        random.next() as u32
    } else {
        0
    };
    for mark in marks {
        place &= !(1 << mark);
        if random.chance(often) {
            place |= 1 << mark;
        }
    }
    place
}

/// Carts that stay for a while and then go on; on a large floor only to a place next to theirs, so
/// that the lanes suffice. All go by themselves, or together, or each keeps to places of its own.
fn random_rows(random: &mut Random, carts: usize, h: usize, places: usize) -> Vec<Vec<u8>> {
    let stay = random.pick(&[0, 40, 70, 90, 97]);
    let together = random.chance(25);
    let apart = random.chance(30);
    // So many places of its own a cart can have, and lanes for all of its moves.
    let few = |own: &usize| own * carts <= places && own * own * carts <= 1000;
    let own_places = (1..=places).take_while(few).last();
    let lead = walk(random, h, places, stay);
    let mut row = |n: usize| {
        if let (true, Some(count)) = (apart, own_places) {
            let own = walk(random, h, count, stay);
            return own.iter().map(|at| at * carts as u8 + n as u8).collect();
        }
        let own = walk(random, h, places, stay);
        if !together {
            return own;
        }
        let shift = random.below(3);
        (0..h).map(|t| lead[t.saturating_sub(shift)]).collect()
    };
    (0..carts).map(&mut row).collect()
}

pub fn walk(random: &mut Random, h: usize, places: usize, stay: usize) -> Vec<u8> {
    let mut at = random.below(places);
    let mut row = Vec::with_capacity(h);
    for _ in 0..h {
        row.push(at as u8);
        if !random.chance(stay) {
            at = match places {
                0..=32 => random.below(places),
                _ => (at + places + random.below(3) - 1) % places,
            };
        }
    }
    row
}

/// Brings all carts, or all but one, to places with one mark at one step.
fn meet(random: &mut Random, rows: &mut [Vec<u8>], places: &[u32], marks: &[u32]) {
    let mark = random.pick(marks);
    let bears = |place: &usize| places[*place] >> mark & 1 == 1;
    let meeting: Vec<usize> = (0..places.len()).filter(bears).collect();
    if meeting.is_empty() {
        return;
    }
    let place = random.pick(&meeting) as u8;
    let step = random.below(rows[0].len());
    let absent = random.below(3 * rows.len());
    for (n, row) in rows.iter_mut().enumerate() {
        if n != absent {
            row[step] = place;
        }
    }
}

fn random_carts(random: &mut Random, plan: &Plan) -> Vec<Cart> {
    let one = random.chance(50).then(|| random.below(8));
    let mut class = || one.unwrap_or_else(|| random.below(8)) as u8;
    let mut cart = |row: &Vec<u8>| {
        let (class, start) = (class(), row[0]);
        Cart { class, start }
    };
    plan.rows.iter().map(&mut cart).collect()
}

/// Lanes for all moves of the plan to another place, now and then for parked carts too, some in two parts, and some more.
fn random_lanes(random: &mut Random, plan: &Plan, carts: &[Cart], places: usize) -> Vec<Lane> {
    let mut used = BTreeMap::new();
    let self_lanes = random.chance(20);
    for (cart, row) in carts.iter().zip(&plan.rows) {
        for t in 0..plan.h {
            let (from, to) = (row[t] as usize, row[plan.step(t + 1)] as usize);
            if from != to || self_lanes {
                *used.entry((from, to)).or_insert(0u8) |= 1 << cart.class;
            }
        }
    }
    let mut lanes = Vec::new();
    let mut spare = 1024 - used.len();
    for ((from, to), classes) in used {
        let part = if spare > 0 && random.chance(10) {
            random.next() as u8
        } else {
            0
        };
        spare -= (part != 0) as usize;
        let more = if random.chance(10) {
            random.next() as u8
        } else {
            0
        };
        let rest = classes & !part | more;
        lanes.push(Lane {
            from,
            to,
            classes: rest,
        });
        if part != 0 {
            lanes.push(Lane {
                from,
                to,
                classes: part,
            });
        }
    }
    let more = if random.chance(2) {
        spare
    } else {
        random.below(4).min(spare)
    };
    lanes.extend((0..more).map(|_| random_lane(random, places)));
    random.shuffle(&mut lanes);
    lanes
}

fn random_lane(random: &mut Random, places: usize) -> Lane {
    Lane {
        from: random.below(places),
        to: random.below(places),
        classes: random.next() as u8,
    }
}
