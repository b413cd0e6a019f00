//! The library's functions for sheets, declared by hand after include/cartplan.h, behind safe
//! functions.
//!
//! Inputs are lent as memory of our own that may change: a library that writes to an input is then
//! found by comparing, and the compiler may not assume that it can't happen.

use std::ptr;

use crate::reference::{Part, Verdict};

#[repr(C)]
struct CVerdict {
    about: u32,
    number: u32,
    first: u32,
    second: u32,
}

#[repr(C)]
struct CSpan {
    offset: usize,
    length: usize,
}

#[link(name = "controller", kind = "static")]
extern "C" {
    fn cartplan_read_rules(rules: *const u8, rules_len: usize) -> CVerdict;
    fn cartplan_clause(
        rules: *const u8,
        rules_len: usize,
        verdict: *const u8,
        verdict_len: usize,
    ) -> CSpan;
}

/// A lent buffer; none is a null pointer with length 0.
pub type Buffer<'a> = Option<&'a mut [u8]>;

fn parts(buffer: Buffer) -> (*mut u8, usize) {
    match buffer {
        Some(slice) => (slice.as_mut_ptr(), slice.len()),
        None => (ptr::null_mut(), 0),
    }
}

pub fn read_rules(rules: Buffer) -> Verdict {
    let (rules, rules_len) = parts(rules);
    // SAFETY: the pointer and the length are those of a live slice, or null and 0.
    let verdict = unsafe { cartplan_read_rules(rules, rules_len) };
    let CVerdict {
        about,
        number,
        first,
        second,
    } = verdict;
    [about, number, first, second]
}

pub fn clause(rules: Buffer, verdict: Buffer) -> Part {
    let (rules, rules_len) = parts(rules);
    let (verdict, verdict_len) = parts(verdict);
    // SAFETY: as above; the slices are borrowed apart, so they don't overlap.
    let span = unsafe { cartplan_clause(rules, rules_len, verdict, verdict_len) };
    let CSpan { offset, length } = span;
    Part { offset, length }
}
