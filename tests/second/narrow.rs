//! Narrow places for a random plan, whose carts keep clear of one another there or meet.

use crate::conflicts::Conflicts;
use crate::plan::Plan;
use crate::random::Random;

#[derive(Clone, Copy, PartialEq)]
pub enum Wish {
    /// No conflict.
    Clear,
    /// A conflict, as a rule.
    Met,
    Any,
}

/// How many places no row should come to, so that carts may meet there.
pub fn spare(random: &mut Random, wish: Wish, count: usize) -> usize {
    match wish {
        Wish::Met if random.chance(70) => 2.min(count - 1),
        _ => 0,
    }
}

/// The narrow places; the plan's rows are changed as the wish needs it.
pub fn places(random: &mut Random, plan: &mut Plan, count: usize, wish: Wish) -> Vec<u8> {
    let mut narrow = chosen(random, plan, count);
    if wish == Wish::Clear || wish == Wish::Met && random.chance(80) {
        clear(random, plan, count, &mut narrow);
    }
    if wish == Wish::Met && plan.rows.len() > 1 {
        meet(random, plan, count, &mut narrow);
    }
    repeat_some(random, &mut narrow);
    narrow
}

/// None, a few that carts come to, some, or all.
fn chosen(random: &mut Random, plan: &Plan, count: usize) -> Vec<u8> {
    let all = 0..=(count - 1) as u8;
    match random.below(10) {
        0..=2 => Vec::new(),
        3..=5 => (0..random.range(1, 3))
            .map(|_| any_visited(random, plan))
            .collect(),
        6..=7 => all.filter(|_| random.chance(50)).collect(),
        _ => all.collect(),
    }
}

fn any_visited(random: &mut Random, plan: &Plan) -> u8 {
    let row = &plan.rows[random.below(plan.rows.len())];
    random.pick(row)
}

/// Takes conflicts out: some carts are put on other places, and where that doesn't suffice the place is no longer narrow.
fn clear(random: &mut Random, plan: &mut Plan, count: usize, narrow: &mut Vec<u8>) {
    let wide: Vec<u8> = (0..=(count - 1) as u8)
        .filter(|place| !narrow.contains(place))
        .collect();
    let tries = if plan.rows.len() * plan.h <= 64 {
        20
    } else {
        2
    };
    for _ in 0..tries {
        let all: Vec<_> = Conflicts::new(plan, narrow, count).all(true).collect();
        if all.is_empty() || wide.is_empty() {
            break;
        }
        let (cart, counter) = random.pick(&all);
        let step = plan.step(counter);
        plan.rows[cart][step] = random.pick(&wide);
    }
    let conflicts = Conflicts::new(plan, narrow, count);
    let met: Vec<usize> = conflicts
        .all(true)
        .map(|(n, v)| conflicts.place(n, v))
        .collect();
    narrow.retain(|place| !met.contains(&(*place as usize)));
}

/// Puts in one conflict: two carts as far apart as the drift allows, or less, in one place or exchanged between two. The lap's end
/// often comes between them; then the lower cart is mostly the one ahead, so that its counter is beyond h.
fn meet(random: &mut Random, plan: &mut Plan, count: usize, narrow: &mut Vec<u8>) {
    let some = random.below(plan.d + 1);
    // Farther apart than the drift the other way round the lap.
    let lap = plan.h - plan.l;
    let short = lap.saturating_sub(plan.d + 1).clamp(1, 16).min(plan.d);
    let apart = random.pick(&[plan.d, plan.d, some, short, short]);
    let any = random.below(plan.h);
    let early = random.pick(&[any, plan.h - 1]);
    let late = plan.step(early + apart);
    let behind = (late < early) != random.chance(20);
    let [one, other] = two_carts(random, plan.rows.len(), behind);
    let [here, there] = meeting_places(random, plan, count);
    narrow.push(here);
    plan.rows[one][early] = here;
    plan.rows[other][late] = here;
    if random.chance(50) {
        return;
    }
    narrow.push(there);
    let next = [early, late].map(|step| plan.step(step + 1));
    plan.rows[one][next[0]] = there;
    plan.rows[other][late] = there;
    plan.rows[other][next[1]] = here;
}

/// Two carts, the higher one first if wished so.
fn two_carts(random: &mut Random, carts: usize, higher_first: bool) -> [usize; 2] {
    let high = random.range(1, carts - 1);
    let low = random.below(high);
    if higher_first {
        [high, low]
    } else {
        [low, high]
    }
}

/// Two places that no cart comes to, if there are so many, so that the conflict is the only one.
fn meeting_places(random: &mut Random, plan: &Plan, count: usize) -> [u8; 2] {
    let free = |place: &u8| !plan.rows.iter().any(|row| row.contains(place));
    let mut places: Vec<u8> = (0..=(count - 1) as u8).filter(free).collect();
    random.shuffle(&mut places);
    places.extend([any_visited(random, plan), any_visited(random, plan)]);
    [places[0], places[1]]
}

/// The same place may be named more than once, up to the limit of records.
fn repeat_some(random: &mut Random, narrow: &mut Vec<u8>) {
    if narrow.is_empty() {
        return;
    }
    let room = 256 - narrow.len().min(256);
    let more = match random.below(40) {
        0 => room,
        1..=8 => random.range(1, 3).min(room),
        _ => 0,
    };
    for _ in 0..more {
        let again = random.pick(narrow);
        narrow.push(again);
    }
    narrow.truncate(256);
    random.shuffle(narrow);
}
