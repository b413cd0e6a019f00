//! Random cases of checking moves, moving on and replacing rows.

use crate::call::{Call, Input};
use crate::cases;
use crate::numbers;
use crate::random::{self, Random};
use crate::reference::{self, Floor, Plan};
use crate::routes::{self, Open, Route};

/// A random case and what kind it is.
pub fn any(random: &mut Random) -> (&'static str, Call) {
    match random.below(3) {
        0 => ("moves to check", check_moves(random)),
        1 => ("plan to move on", move_on(random)),
        _ => ("row to replace", replace_row(random)),
    }
}

/// The file as it is, or at times another one made of it.
fn lent(random: &mut Random, file: Vec<u8>, places: usize, chance: usize) -> Input {
    match random.percent(chance) {
        true => cases::variant(random, file, places).1,
        false => Input::from(file),
    }
}

fn both(random: &mut Random, floor: &Floor, plan: &Plan) -> (Input, Input) {
    let places = floor.places.len();
    let floor = reference::floor_file(floor).expect("a valid floor fits a file");
    let plan = reference::plan_file(plan).expect("a valid plan fits a file");
    let floor = lent(random, floor, places, 8);
    (floor, lent(random, plan, places, 12))
}

fn spoil_some(random: &mut Random, route: &mut Route, times: &[usize]) {
    for _ in 0..random.pick(times) {
        routes::spoil(random, &mut route.floor, &mut route.plan);
    }
}

fn check_moves(random: &mut Random) -> Call {
    let open = random.pick(&[Open::All, Open::All, Open::All, Open::NotPlan]);
    let mut route = routes::route(random, open);
    spoil_some(random, &mut route, &[0, 0, 0, 1, 1, 2]);
    let (floor, plan) = both(random, &route.floor, &route.plan);
    Call::CheckMoves(floor, plan)
}

/// A number of steps: about the lap's beginning, the last step, whole laps, or any.
pub fn steps_on(random: &mut Random, h: u16, l: u16) -> u16 {
    let lap = usize::from(h - l);
    let laps = random.below(65_535 / lap + 1) * lap;
    let few_laps = usize::from(l) + random.below(4) * lap;
    let near = |random: &mut Random, n: usize| (n + random.below(3)).saturating_sub(1);
    let s = match random.below(12) {
        0 => random.pick(&[0, 1, 65_535, 65_535, 65_534, 255, 256, 32_768]),
        1..=3 => near(random, usize::from(l)),
        4..=5 => near(random, usize::from(h)),
        6..=7 => near(random, few_laps),
        8 => near(random, usize::from(l) + laps),
        9..=10 => random.below(200),
        _ => random.below(65_536),
    };
    s.min(65_535) as u16
}

fn move_on(random: &mut Random) -> Call {
    let (floor, plan) = match random.percent(30) {
        true => {
            let route = routes::route(random, Open::All);
            (route.floor, route.plan)
        }
        false => {
            let floor = random::floor(random);
            let plan = random::plan(random, &floor);
            (floor, plan)
        }
    };
    let s = steps_on(random, plan.h, plan.l);
    let (floor, plan) = both(random, &floor, &plan);
    let whole = Call::MoveOn(floor.clone(), plan.clone(), s, usize::MAX);
    let room = numbers::room(random, cases::needed(whole));
    Call::MoveOn(floor, plan, s, room)
}

/// The cart's number, or one that the floor doesn't have.
fn cart_number(random: &mut Random, cart: usize, carts: usize) -> u32 {
    let (cart, carts) = (cart as u32, carts as u32);
    let past = carts + random.below(40) as u32;
    let cut = cart + random.pick(&[32, 64, 256, 65_536, 1 << 24, 1 << 31]);
    match random.below(24) {
        0 => carts,
        1 => random.pick(&[past, cut.max(carts), u32::MAX, u32::MAX - cart]),
        _ => cart,
    }
}

/// A place that the floor doesn't have, or any if it has all of them.
fn absent_place(random: &mut Random, places: usize) -> u8 {
    let past = places.min(255);
    let any = random.between(past, 255);
    random.pick(&[past, past, any, 255]) as u8
}

fn spoil_row(random: &mut Random, row: &mut Vec<u8>, places: usize) {
    let h = row.len();
    let any = random::place(random, places);
    let step = match h {
        0 => return row.push(any),
        _ => random.below(h),
    };
    match random.below(15) {
        0 => row.truncate(h - 1),
        1 => row.push(any),
        2 => row.clear(),
        3 => row.resize(random.pick(&[63, 64, 65, h + 64, h + 256]), any),
        4 if random.percent(10) => row.resize(65_536 + h, any),
        4..=8 => row[step] = absent_place(random, places),
        9 => row[0] = absent_place(random, places),
        10..=11 => row[0] = any,
        12 => row[h - 1] = any,
        _ => row[step] = any,
    }
}

fn replace_row(random: &mut Random) -> Call {
    let (all, row, plan) = (Open::All, Open::NotRow, Open::NotPlan);
    let open = random.pick(&[all, all, all, all, all, row, row, row, plan]);
    let mut route = routes::route(random, open);
    spoil_some(random, &mut route, &[0, 0, 0, 0, 0, 0, 0, 0, 0, 1]);
    let (places, carts) = (route.floor.places.len(), route.floor.carts.len() / 2);
    for _ in 0..random.pick(&[0, 0, 0, 0, 1, 1, 1, 2]) {
        spoil_row(random, &mut route.row, places);
    }
    let (floor, plan) = both(random, &route.floor, &route.plan);
    let cart = cart_number(random, route.cart, carts);
    Call::ReplaceRow(floor, plan, cart, route.row)
}
