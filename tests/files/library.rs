//! The library's seven functions, declared by hand after include/cartplan.h, behind safe functions.
//!
//! Inputs too are lent as memory of our own that may change: a library that writes to an input is
//! then found by comparing, and the compiler may not assume that it can't happen.

use std::ptr;

use crate::reference::Verdict;

#[repr(C)]
struct CVerdict {
    about: u32,
    number: u32,
    first: u32,
    second: u32,
}

#[link(name = "controller", kind = "static")]
extern "C" {
    fn cartplan_read_floor(floor: *const u8, floor_len: usize) -> CVerdict;
    fn cartplan_read_plan(
        floor: *const u8,
        floor_len: usize,
        plan: *const u8,
        plan_len: usize,
    ) -> CVerdict;
    fn cartplan_write_floor(
        places: *const u32,
        place_count: usize,
        lanes: *const u8,
        lanes_len: usize,
        carts: *const u8,
        carts_len: usize,
        narrow: *const u8,
        narrow_len: usize,
        groups: *const u32,
        group_count: usize,
        out: *mut u8,
        out_len: usize,
    ) -> CVerdict;
    fn cartplan_write_plan(
        floor: *const u8,
        floor_len: usize,
        h: u16,
        l: u16,
        d: u16,
        rows: *const u8,
        rows_len: usize,
        out: *mut u8,
        out_len: usize,
    ) -> CVerdict;
    fn cartplan_check_moves(
        floor: *const u8,
        floor_len: usize,
        plan: *const u8,
        plan_len: usize,
    ) -> CVerdict;
    fn cartplan_move_on(
        floor: *const u8,
        floor_len: usize,
        plan: *const u8,
        plan_len: usize,
        s: u16,
        out: *mut u8,
        out_len: usize,
    ) -> CVerdict;
    fn cartplan_replace_row(
        floor: *const u8,
        floor_len: usize,
        plan: *mut u8,
        plan_len: usize,
        cart: u32,
        row: *const u8,
        row_len: usize,
    ) -> CVerdict;
}

/// A lent buffer; none is a null pointer with length 0.
pub type Buffer<'a, T> = Option<&'a mut [T]>;

fn parts<T>(buffer: Buffer<T>) -> (*mut T, usize) {
    match buffer {
        Some(slice) => (slice.as_mut_ptr(), slice.len()),
        None => (ptr::null_mut(), 0),
    }
}

fn numbers(verdict: CVerdict) -> Verdict {
    let CVerdict {
        about,
        number,
        first,
        second,
    } = verdict;
    [about, number, first, second]
}

pub fn read_floor(floor: Buffer<u8>) -> Verdict {
    let (floor, floor_len) = parts(floor);
    // SAFETY: the pointer and the length are those of a live slice, or null and 0.
    numbers(unsafe { cartplan_read_floor(floor, floor_len) })
}

pub fn read_plan(floor: Buffer<u8>, plan: Buffer<u8>) -> Verdict {
    let (floor, floor_len) = parts(floor);
    let (plan, plan_len) = parts(plan);
    // SAFETY: as above; the slices are borrowed apart, so they don't overlap.
    numbers(unsafe { cartplan_read_plan(floor, floor_len, plan, plan_len) })
}

pub fn write_floor(
    places: Buffer<u32>,
    lanes: Buffer<u8>,
    carts: Buffer<u8>,
    narrow: Buffer<u8>,
    groups: Buffer<u32>,
    out: Buffer<u8>,
) -> Verdict {
    let (places, place_count) = parts(places);
    let (lanes, lanes_len) = parts(lanes);
    let (carts, carts_len) = parts(carts);
    let (narrow, narrow_len) = parts(narrow);
    let (groups, group_count) = parts(groups);
    let (out, out_len) = parts(out);
    // SAFETY: as above.
    numbers(unsafe {
        cartplan_write_floor(
            places,
            place_count,
            lanes,
            lanes_len,
            carts,
            carts_len,
            narrow,
            narrow_len,
            groups,
            group_count,
            out,
            out_len,
        )
    })
}

/// `head` is h, l and d.
pub fn write_plan(floor: Buffer<u8>, head: [u16; 3], rows: Buffer<u8>, out: Buffer<u8>) -> Verdict {
    let (floor, floor_len) = parts(floor);
    let [h, l, d] = head;
    let (rows, rows_len) = parts(rows);
    let (out, out_len) = parts(out);
    // SAFETY: as above.
    numbers(unsafe { cartplan_write_plan(floor, floor_len, h, l, d, rows, rows_len, out, out_len) })
}

pub fn check_moves(floor: Buffer<u8>, plan: Buffer<u8>) -> Verdict {
    let (floor, floor_len) = parts(floor);
    let (plan, plan_len) = parts(plan);
    // SAFETY: as above.
    numbers(unsafe { cartplan_check_moves(floor, floor_len, plan, plan_len) })
}

pub fn move_on(floor: Buffer<u8>, plan: Buffer<u8>, s: u16, out: Buffer<u8>) -> Verdict {
    let (floor, floor_len) = parts(floor);
    let (plan, plan_len) = parts(plan);
    let (out, out_len) = parts(out);
    // SAFETY: as above.
    numbers(unsafe { cartplan_move_on(floor, floor_len, plan, plan_len, s, out, out_len) })
}

/// The plan is written in place.
pub fn replace_row(floor: Buffer<u8>, plan: Buffer<u8>, cart: u32, row: Buffer<u8>) -> Verdict {
    let (floor, floor_len) = parts(floor);
    let (plan, plan_len) = parts(plan);
    let (row, row_len) = parts(row);
    // SAFETY: as above.
    numbers(unsafe { cartplan_replace_row(floor, floor_len, plan, plan_len, cart, row, row_len) })
}
