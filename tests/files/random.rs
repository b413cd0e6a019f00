//! A small generator of random numbers, and random floors and plans that are valid.

use crate::reference::{
    Floor, Plan, MOST_CARTS, MOST_DRIFT, MOST_GROUPS, MOST_LANES, MOST_NARROW, MOST_PLACES,
    MOST_STEPS,
};

/// splitmix64.
pub struct Random {
    state: u64,
}

impl Random {
    /// Every case has its own numbers, whatever the cases before it drew.
    pub fn new(seed: u64, case: u64) -> Random {
        let mut random = Random { state: seed };
        random.state = random.next() ^ case.wrapping_mul(0xd605_bbb5_8c8a_bbfd);
        random
    }

    pub fn next(&mut self) -> u64 {
        self.state = self.state.wrapping_add(0x9e37_79b9_7f4a_7c15);
        let mut z = self.state;
        z = (z ^ (z >> 30)).wrapping_mul(0xbf58_476d_1ce4_e5b9);
        z = (z ^ (z >> 27)).wrapping_mul(0x94d0_49bb_1331_11eb);
        z ^ (z >> 31)
    }

    pub fn below(&mut self, bound: usize) -> usize {
        (self.next() % bound as u64) as usize
    }

    /// From `least` to `most`, both included.
    pub fn between(&mut self, least: usize, most: usize) -> usize {
        least + self.below(most - least + 1)
    }

    pub fn percent(&mut self, chance: usize) -> bool {
        self.below(100) < chance
    }

    pub fn pick<T: Copy>(&mut self, from: &[T]) -> T {
        from[self.below(from.len())]
    }

    pub fn byte(&mut self) -> u8 {
        self.next() as u8
    }

    pub fn bytes(&mut self, length: usize) -> Vec<u8> {
        let words = (0..length.div_ceil(8)).flat_map(|_| self.next().to_le_bytes());
        words.take(length).collect()
    }
}

/// Mostly small, so that many cases fit into a run; now and then up to the limit, or the limit.
pub fn size(random: &mut Random, least: usize, limit: usize) -> usize {
    match random.below(100) {
        0..=1 => limit,
        2..=4 => random.between(least, limit),
        5..=24 => random.between(least, limit.min(least + 20)),
        _ => random.between(least, limit.min(least + 4)),
    }
}

/// A place of the floor, often the first or the last.
pub fn place(random: &mut Random, places: usize) -> u8 {
    let place = match random.below(4) {
        0 => 0,
        1 => places - 1,
        _ => random.below(places),
    };
    place as u8
}

/// The bits of all of so many carts.
fn all(carts: usize) -> u32 {
    (0..carts).map(|cart| 1 << cart).sum()
}

/// A group of so many carts: some of them, all, none, or the first or last alone.
pub fn group(random: &mut Random, carts: usize) -> u32 {
    let some = random.next() as u32 & all(carts);
    random.pick(&[some, some, some, all(carts), 0, 1, 1 << (carts - 1)])
}

/// A group with a bit beside that of the last cart, or with any bits.
pub fn group_near(random: &mut Random, carts: usize) -> u32 {
    let near = 1u32.checked_shl((carts + random.below(3)).saturating_sub(1) as u32);
    let beside = near.unwrap_or(1 << 31) | random.next() as u32 & all(carts.min(MOST_CARTS));
    let any = random.next() as u32;
    random.pick(&[beside, beside, beside, any])
}

pub fn floor(random: &mut Random) -> Floor {
    let places = size(random, 1, MOST_PLACES);
    let mut floor = Floor::default();
    for _ in 0..places {
        floor.places.push(random.next() as u32);
    }
    for _ in 0..size(random, 0, MOST_LANES) {
        let lane = [place(random, places), place(random, places), random.byte()];
        floor.lanes.extend_from_slice(&lane);
    }
    for _ in 0..size(random, 1, MOST_CARTS) {
        let class = random.below(8) as u8;
        let cart = [class, place(random, places)];
        floor.carts.extend_from_slice(&cart);
    }
    // The same place may be named twice.
    if random.percent(60) {
        let count = size(random, 0, MOST_NARROW);
        floor.narrow = (0..count).map(|_| place(random, places)).collect();
    }
    if random.percent(60) {
        let (carts, count) = (floor.carts.len() / 2, random.between(0, MOST_GROUPS));
        floor.groups = (0..count).map(|_| group(random, carts)).collect();
    }
    floor
}

pub fn plan(random: &mut Random, floor: &Floor) -> Plan {
    let h = size(random, 1, usize::from(MOST_STEPS)) as u16;
    let l = match random.below(4) {
        0 => 0,
        1 => h - 1,
        _ => random.below(usize::from(h)) as u16,
    };
    let any = random.between(0, usize::from(MOST_DRIFT)) as u16;
    let d = random.pick(&[0, MOST_DRIFT, any, any]);
    let steps = floor.carts.len() / 2 * usize::from(h);
    let rows = (0..steps)
        .map(|_| place(random, floor.places.len()))
        .collect();
    Plan { h, l, d, rows }
}
