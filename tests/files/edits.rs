//! Checking moves, moving a plan on and replacing a row, straight from documents 01 and 02. Slow and plain
//! on purpose, as reference.rs is; it shares nothing with the library.

use crate::reference::{self, refuse_with, Answer, Floor, Plan, Refusal, PLAN};

/// Whether the cart stays on its place, or some lane leads to the other and is open to the class.
fn is_open(floor: &Floor, class: u8, from: u8, to: u8) -> bool {
    let opens = |lane: &[u8]| lane[0] == from && lane[1] == to && (lane[2] >> class) % 2 == 1;
    from == to || floor.lanes.chunks(3).any(opens)
}

/// Judges a row as the cart's: 10, then 11 for each step in turn. After the last step comes `l`.
fn judge_row(floor: &Floor, l: u16, cart: usize, row: &[u8]) -> Result<(), Refusal> {
    let (class, start) = (floor.carts[2 * cart], floor.carts[2 * cart + 1]);
    refuse_with(row[0] != start, 10, cart, 0)?;
    for step in 0..row.len() {
        let next = match step == row.len() - 1 {
            true => usize::from(l),
            false => step + 1,
        };
        let shut = !is_open(floor, class, row[step], row[next]);
        refuse_with(shut, 11, cart, step)?;
    }
    Ok(())
}

/// A floor and a plan that is accepted with all its moves, or the refusal.
fn checked(floor: &[u8], plan: &[u8]) -> Result<(Floor, Plan), Answer> {
    let (floor, plan) = reference::read_both(floor, plan)?;
    for (cart, row) in plan.rows.chunks(usize::from(plan.h)).enumerate() {
        let judged = judge_row(&floor, plan.l, cart, row);
        judged.map_err(|refusal| reference::refused(PLAN, refusal))?;
    }
    Ok((floor, plan))
}

/// The place on which the cart stands at counter `v`.
fn place_at(plan: &Plan, cart: usize, v: usize) -> u8 {
    let (h, l) = (usize::from(plan.h), usize::from(plan.l));
    let step = match v < h {
        true => v,
        false => l + (v - l) % (h - l),
    };
    plan.rows[cart * h + step]
}

/// The plan moved on: each of its counters stands where the old one stands `s` counters later.
fn moved(plan: &Plan, carts: usize, s: u16) -> Plan {
    let (h, l) = match s <= plan.l {
        true => (plan.h - s, plan.l - s),
        false => (plan.h - plan.l, 0),
    };
    let mut rows = Vec::new();
    for cart in 0..carts {
        for v in 0..usize::from(h) {
            rows.push(place_at(plan, cart, usize::from(s) + v));
        }
    }
    let d = plan.d;
    Plan { h, l, d, rows }
}

/// Judges a row that is to become a cart's: 19, 4, 9, 10 and 11 in that order.
fn judge_new_row(floor: &Floor, plan: &Plan, cart: usize, row: &[u8]) -> Result<(), Refusal> {
    refuse_with(cart >= floor.carts.len() / 2, 19, cart, 0)?;
    refuse_with(row.len() != usize::from(plan.h), 4, 0, 0)?;
    for (step, place) in row.iter().enumerate() {
        let absent = usize::from(*place) >= floor.places.len();
        refuse_with(absent, 9, cart, step)?;
    }
    judge_row(floor, plan.l, cart, row)
}

fn replaced(floor: &[u8], plan: &[u8], cart: usize, row: &[u8]) -> Result<Vec<u8>, Answer> {
    let (floor, mut plan) = checked(floor, plan)?;
    let judged = judge_new_row(&floor, &plan, cart, row);
    judged.map_err(|refusal| reference::refused(PLAN, refusal))?;
    let old = plan.rows.chunks_mut(row.len()).nth(cart);
    old.expect("a row for every cart").copy_from_slice(row);
    Ok(reference::plan_file(&plan).expect("a plan as long as an accepted one"))
}

pub fn answer_check_moves(floor: &[u8], plan: &[u8]) -> Answer {
    match checked(floor, plan) {
        Ok(_) => reference::accepted(),
        Err(answer) => answer,
    }
}

pub fn answer_move_on(floor: &[u8], plan: &[u8], s: u16, room: usize) -> Answer {
    match reference::read_both(floor, plan) {
        Ok((floor, plan)) => {
            let moved = moved(&plan, floor.carts.len() / 2, s);
            let file = reference::plan_file(&moved).expect("a plan no longer than an accepted one");
            reference::done(PLAN, file, room)
        }
        Err(answer) => answer,
    }
}

/// What is written is the whole plan as it stands afterwards.
pub fn answer_replace_row(floor: &[u8], plan: &[u8], cart: u32, row: &[u8]) -> Answer {
    match replaced(floor, plan, cart as usize, row) {
        Ok(written) => Answer {
            verdict: [0; 4],
            written,
        },
        Err(answer) => answer,
    }
}
