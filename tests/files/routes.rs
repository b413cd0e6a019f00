//! Random floors and plans whose moves are open, and ways to spoil one thing of them.

use std::collections::BTreeMap;

use crate::random::{self, Random};
use crate::reference::{Floor, Plan, MOST_CARTS, MOST_DRIFT, MOST_LANES, MOST_PLACES, MOST_STEPS};

/// So many places have few enough pairs to leave room for other lanes.
const FEW_PLACES: usize = 30;

/// A floor, a plan for it, and another row for one of its carts.
pub struct Route {
    pub floor: Floor,
    pub plan: Plan,
    pub cart: usize,
    pub row: Vec<u8>,
}

/// Which rows get a lane for every move.
#[derive(Clone, Copy, PartialEq, Eq)]
pub enum Open {
    All,
    /// All but one move of some row of the plan.
    NotPlan,
    /// All but one move of the other row.
    NotRow,
}

/// From, to, and the class of the cart.
type Move = (u8, u8, u8);

/// The row's moves; the last one is the closing move.
fn moves_of(row: &[u8], l: u16, class: u8) -> Vec<Move> {
    let next = row[1..].iter().chain([&row[usize::from(l)]]);
    let pairs = row.iter().zip(next);
    pairs.map(|(&from, &to)| (from, to, class)).collect()
}

/// A step of the row, often the last or the first.
fn step(random: &mut Random, h: usize) -> usize {
    let any = random.below(h);
    random.pick(&[0, h - 1, h - 1, any, any])
}

/// A step of the row's that is left for another place, if one is soon found: parking needs no lane.
fn departing_step(random: &mut Random, moves: &[Move]) -> usize {
    let mut found = step(random, moves.len());
    for _ in 0..8 {
        let (from, to, _) = moves[found];
        if from != to {
            break;
        }
        found = step(random, moves.len());
    }
    found
}

/// A row from `start` over places of the pool; parking is frequent.
fn row(random: &mut Random, start: u8, h: u16, pool: &[u8]) -> Vec<u8> {
    let mut row = vec![start];
    for _ in 1..h {
        let last = row[row.len() - 1];
        let other = random.pick(pool);
        row.push(random.pick(&[last, other, other, other]));
    }
    row
}

/// Places that the rows keep to. With many moves they are few, so that the lanes suffice.
fn pool(random: &mut Random, places: usize, moves: usize) -> Vec<u8> {
    let most = match moves <= FEW_PLACES * FEW_PLACES {
        true => MOST_PLACES,
        false => FEW_PLACES,
    };
    let any = random.between(1, most);
    let mut pool = vec![random::place(random, places)];
    for _ in 1..random.pick(&[most, any, 3, 5]) {
        pool.push(random.below(places) as u8);
    }
    pool
}

/// A floor without lanes and a plan's head, now and then of greatest size.
fn outline(random: &mut Random) -> (Floor, Plan) {
    let mut floor = random::floor(random);
    floor.lanes.clear();
    let least = random.pick(&[1, 2, 4, 9]);
    let places = random::size(random, least, MOST_PLACES);
    floor.places.resize(places, 1);
    floor.narrow.retain(|place| usize::from(*place) < places);
    let least = random.pick(&[1, 2, 4, 9]);
    let mut h = random::size(random, least, usize::from(MOST_STEPS)) as u16;
    if random.below(400) == 0 {
        floor.places.resize(MOST_PLACES, 1);
        floor.carts.resize(2 * MOST_CARTS, 5);
        h = MOST_STEPS;
    }
    let any = random.below(usize::from(h)) as u16;
    let l = random.pick(&[0, h - 1, any, any]);
    let d = random.pick(&[0, 1, MOST_DRIFT]);
    let rows = Vec::new();
    (floor, Plan { h, l, d, rows })
}

/// A lane for each pair of places, open to the classes that need it. On most floors parked carts have none; on some their
/// places have lanes to themselves too, which change nothing.
fn needed_lanes(random: &mut Random, moves: &[Move]) -> Vec<[u8; 3]> {
    let mut classes: BTreeMap<(u8, u8), u8> = BTreeMap::new();
    let self_lanes = random.percent(20);
    for (from, to, class) in moves {
        if from != to || self_lanes {
            *classes.entry((*from, *to)).or_default() |= 1 << class;
        }
    }
    let lane = |((from, to), classes)| [from, to, classes];
    classes.into_iter().map(lane).collect()
}

/// Opens some lanes to more classes, and puts the classes of others on two lanes.
fn vary_lanes(random: &mut Random, lanes: &mut Vec<[u8; 3]>) {
    for _ in 0..random.pick(&[0, 0, 2, lanes.len()]) {
        let at = random.below(lanes.len());
        let [from, to, classes] = lanes[at];
        let some = random.byte();
        match random.below(4) {
            0 => lanes[at][2] |= some,
            1 => lanes[at][2] = 255,
            _ if lanes.len() < MOST_LANES => {
                lanes[at][2] = classes & some;
                lanes.push([from, to, classes & !some]);
            }
            _ => (),
        }
    }
}

/// Adds lanes of chance, many of them leaving one and the same place.
fn add_lanes(random: &mut Random, lanes: &mut Vec<[u8; 3]>, places: usize, pool: &[u8]) {
    let room = MOST_LANES - lanes.len();
    let more = match random.below(40) {
        0 => room,
        1..=3 => room.min(100),
        _ => room.min(random.below(4)),
    };
    let often = random.pick(pool);
    for _ in 0..more {
        let other = random::place(random, places);
        let from = random.pick(&[often, often, other]);
        let to = random::place(random, places);
        let any = random.byte();
        lanes.push([from, to, random.pick(&[0, any, 1, 128])]);
    }
}

fn shuffle(random: &mut Random, lanes: &mut [[u8; 3]]) {
    for last in (1..lanes.len()).rev() {
        lanes.swap(last, random.below(last + 1));
    }
}

/// All lanes of the floor: those for the moves, and others that change nothing about them.
fn lanes(random: &mut Random, moves: &[Move], places: usize, pool: &[u8]) -> Vec<u8> {
    let mut lanes = needed_lanes(random, moves);
    if !lanes.is_empty() {
        vary_lanes(random, &mut lanes);
    }
    add_lanes(random, &mut lanes, places, pool);
    if random.percent(70) {
        shuffle(random, &mut lanes);
    }
    lanes.concat()
}

/// The other row of a cart: mostly a new one, else the old one or another cart's.
fn other_row(random: &mut Random, plan: &Plan, cart: usize, pool: &[u8]) -> Vec<u8> {
    let h = usize::from(plan.h);
    let rows: Vec<&[u8]> = plan.rows.chunks(h).collect();
    match random.below(20) {
        0 => rows[cart].to_vec(),
        1 => rows[random.below(rows.len())].to_vec(),
        _ => row(random, rows[cart][0], plan.h, pool),
    }
}

/// Rows by chance first, then starts and lanes after them.
pub fn route(random: &mut Random, open: Open) -> Route {
    let (mut floor, mut plan) = outline(random);
    let (h, carts) = (usize::from(plan.h), floor.carts.len() / 2);
    let places = floor.places.len();
    let pool = pool(random, places, h * (carts + 1));
    let mut moves = Vec::new();
    for cart in floor.carts.chunks_mut(2) {
        cart[1] = random.pick(&pool);
        let row = row(random, cart[1], plan.h, &pool);
        moves.extend(moves_of(&row, plan.l, cart[0]));
        plan.rows.extend(row);
    }
    let cart = random.below(carts);
    let row = other_row(random, &plan, cart, &pool);
    moves.extend(moves_of(&row, plan.l, floor.carts[2 * cart]));
    let left_out = match open {
        Open::All => None,
        Open::NotPlan => Some(random.below(carts)),
        Open::NotRow => Some(carts),
    };
    if let Some(row) = left_out {
        let from = row * h;
        moves.remove(from + departing_step(random, &moves[from..from + h]));
    }
    floor.lanes = lanes(random, &moves, places, &pool);
    Route {
        floor,
        plan,
        cart,
        row,
    }
}

/// Changes all lanes between two places, or one of them.
fn change_lanes(random: &mut Random, floor: &mut Floor, moved: Move, change: fn(&mut [u8], u8)) {
    let (from, to, class) = moved;
    let between = |lane: &&mut [u8]| lane[..2] == [from, to];
    let lanes = floor.lanes.chunks_mut(3).filter(between);
    let most = random.pick(&[1, MOST_LANES, MOST_LANES]);
    lanes.take(most).for_each(|lane| change(lane, class));
}

fn remove_lane(random: &mut Random, floor: &mut Floor) {
    if !floor.lanes.is_empty() {
        let at = 3 * random.below(floor.lanes.len() / 3);
        floor.lanes.drain(at..at + 3);
    }
}

fn remove_lanes(floor: &mut Floor, moved: Move) {
    let (from, to, _) = moved;
    let lanes = floor.lanes.chunks(3);
    let others = lanes.filter(|lane| lane[..2] != [from, to]);
    floor.lanes = others.flatten().copied().collect();
}

/// Spoils one thing about the starts, the rows, the lap or the lanes; both files remain readable.
pub fn spoil(random: &mut Random, floor: &mut Floor, plan: &mut Plan) {
    let (h, places) = (usize::from(plan.h), floor.places.len());
    let cart = random.below(floor.carts.len() / 2);
    let step = step(random, h);
    let class = floor.carts[2 * cart];
    let row = &mut plan.rows[cart * h..(cart + 1) * h];
    let moved = moves_of(row, plan.l, class)[step];
    let other = random::place(random, places);
    match random.below(12) {
        0..=1 => floor.carts[2 * cart + 1] = other,
        2 => floor.carts[2 * cart] = (class + random.between(1, 7) as u8) % 8,
        3 => row[0] = other,
        4..=5 => row[step] = other,
        6 => plan.l = random.below(h) as u16,
        7 => remove_lane(random, floor),
        8..=9 => change_lanes(random, floor, moved, |lane, class| lane[2] &= !(1 << class)),
        10 => change_lanes(random, floor, moved, |lane, _| lane.swap(0, 1)),
        _ => remove_lanes(floor, moved),
    }
}
