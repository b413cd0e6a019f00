//! Cases of groups written by hand: records of kind 7 read and written, and the operations that take
//! no notice of them.

use crate::call::{Call, Input};
use crate::limits::{
    counted, counted_numbers, limit, paper_floor, paper_floor_numbers, paper_plan, read_floor,
    read_plan, record, with, write_floor, Limit, DONE,
};
use crate::reference::Floor;

fn groups(groups: &[u32]) -> Vec<u8> {
    let records = groups.iter().map(|carts| record(7, &carts.to_le_bytes()));
    records.flatten().collect()
}

/// The paper's floor, 56 bytes and two carts, with these groups.
fn paper(carts: &[u32]) -> Vec<u8> {
    with(paper_floor(), &groups(carts))
}

fn records() -> Vec<Limit> {
    let last = |more: &[u8]| with(paper_floor(), more);
    vec![
        read_floor("one cart", paper(&[1]), DONE),
        read_floor("both carts", paper(&[3]), DONE),
        read_floor("no cart", paper(&[0]), DONE),
        read_floor("the same twice", paper(&[2, 2, 0, 0, 3, 3]), DONE),
        read_floor("absent cart", paper(&[4]), [1, 6, 56, 0]),
        read_floor("absent beside others", paper(&[7]), [1, 6, 56, 0]),
        read_floor("absent cart 31", paper(&[1 << 31]), [1, 6, 56, 0]),
        read_floor("absent cart 8", paper(&[3, 259]), [1, 6, 64, 0]),
        read_floor("empty body", last(&record(7, &[])), [1, 4, 56, 0]),
        read_floor("three bytes", last(&record(7, &[1; 3])), [1, 4, 56, 0]),
        read_floor("five bytes", last(&record(7, &[9; 5])), [1, 4, 56, 0]),
        read_floor("260 bytes", last(&record(7, &[0; 260])), [1, 4, 56, 0]),
        read_floor("cut body", last(&[4, 0, 7, 0, 1, 0, 0]), [1, 2, 56, 0]),
        read_floor("cut, absent", last(&[4, 0, 7, 0, 9]), [1, 2, 56, 0]),
        read_floor("cut header", last(&[4, 0, 7]), [1, 2, 56, 0]),
        read_floor("kind 263", last(&[4, 0, 7, 1, 1, 0, 0, 0]), [1, 3, 56, 0]),
        read_floor("kind 8", last(&[4, 0, 8, 0, 1, 0, 0, 0]), [1, 3, 56, 0]),
    ]
}

fn records_behind() -> Vec<Limit> {
    let behind = |record: Vec<u8>| with(paper(&[1]), &record);
    let narrow = record(6, &[0]);
    let between = [narrow.clone(), groups(&[1]), narrow.clone()].concat();
    vec![
        read_floor("place behind", behind(record(1, &[0; 4])), [1, 3, 64, 0]),
        read_floor("lane behind", behind(record(2, &[0; 3])), [1, 3, 64, 0]),
        read_floor("cart behind", behind(record(3, &[0; 2])), [1, 3, 64, 0]),
        read_floor("bad cart behind", behind(record(3, &[9])), [1, 3, 64, 0]),
        read_floor("head behind", behind(record(4, &[1; 6])), [1, 3, 64, 0]),
        read_floor("row behind", behind(record(5, &[0])), [1, 3, 64, 0]),
        read_floor("narrow behind", behind(narrow.clone()), [1, 3, 64, 0]),
        read_floor("absent narrow", behind(record(6, &[9])), [1, 3, 64, 0]),
        read_floor("kind 8 behind", behind(record(8, &[0; 4])), [1, 3, 64, 0]),
        read_floor("kind 12 behind", behind(record(12, &[0])), [1, 3, 64, 0]),
        read_floor(
            "behind a narrow place",
            with(with(paper_floor(), &narrow), &groups(&[3, 0])),
            DONE,
        ),
        read_floor(
            "between narrow places",
            with(paper_floor(), &between),
            [1, 3, 69, 0],
        ),
    ]
}

fn order_and_ends() -> Vec<Limit> {
    let early = |places, lanes, carts: u32| with(counted(places, lanes, 0), &groups(&[carts]));
    let cart = record(3, &[0, 0]);
    vec![
        read_floor("group first", groups(&[1]), [1, 6, 0, 0]),
        read_floor("empty group only", groups(&[0]), [1, 7, 8, 0]),
        read_floor("empty groups only", groups(&[0, 0]), [1, 7, 16, 0]),
        read_floor(
            "place behind an empty group",
            with(groups(&[0]), &counted(1, 0, 1)),
            [1, 3, 8, 0],
        ),
        read_floor("empty, no cart", early(1, 0, 0), [1, 7, 16, 0]),
        read_floor("lane, empty, no cart", early(2, 1, 0), [1, 7, 31, 0]),
        read_floor("cart 0 of none", early(1, 0, 1), [1, 6, 8, 0]),
        read_floor("cart too late", with(early(1, 0, 0), &cart), [1, 3, 16, 0]),
        read_floor(
            "its cart too late",
            with(early(1, 0, 1), &cart),
            [1, 6, 8, 0],
        ),
        read_plan(
            "group in a plan",
            with(paper_plan(), &groups(&[1])),
            [2, 3, 26, 0],
        ),
        read_plan(
            "group before a head",
            with(groups(&[1]), &paper_plan()),
            [2, 3, 0, 0],
        ),
    ]
}

fn counts() -> Vec<Limit> {
    let full = |more: &[u8]| with(paper(&[2; 8]), more);
    let of = |carts, bits: u32| with(counted(1, 0, carts), &groups(&[bits]));
    vec![
        read_floor("8 groups", full(&[]), DONE),
        read_floor("9 groups", full(&groups(&[2])), [1, 5, 120, 0]),
        read_floor("9th empty", full(&groups(&[0])), [1, 5, 120, 0]),
        read_floor("absent 9th", full(&groups(&[4])), [1, 5, 120, 0]),
        read_floor("long 9th", full(&record(7, &[1; 5])), [1, 4, 120, 0]),
        read_floor("cut 9th", full(&[4, 0, 7, 0, 1, 0, 0]), [1, 2, 120, 0]),
        read_floor("narrow for 9th", full(&record(6, &[0])), [1, 3, 120, 0]),
        read_floor(
            "absent 8th",
            with(paper(&[2; 7]), &groups(&[4])),
            [1, 6, 112, 0],
        ),
        read_floor("all of 32", of(32, u32::MAX), DONE),
        read_floor("cart 31 of 32", of(32, 1 << 31), DONE),
        read_floor("all of 31", of(31, u32::MAX >> 1), DONE),
        read_floor("cart 31 of 31", of(31, 1 << 31), [1, 6, 194, 0]),
        read_floor("cart 8 of 9", of(9, 1 << 8), DONE),
        read_floor("cart 9 of 9", of(9, 1 << 9), [1, 6, 62, 0]),
        read_floor("cart 0 of 1", of(1, 1), DONE),
        read_floor("cart 1 of 1", of(1, 2), [1, 6, 14, 0]),
    ]
}

/// All counts at their limits, and files at the greatest length.
fn longest() -> Vec<Limit> {
    let narrow = record(6, &[255]).repeat(256);
    let most = [counted(256, 1_024, 32), narrow, groups(&[u32::MAX; 8])].concat();
    let many = |count| with(counted(1, 0, 1), &groups(&vec![1; count]));
    vec![
        read_floor("all full", most.clone(), DONE),
        read_floor(
            "all full and more",
            with(most, &groups(&[0])),
            [1, 5, 10_752, 0],
        ),
        read_floor("65,534 bytes", many(8_190), [1, 5, 78, 0]),
        read_floor("65,542 bytes", many(8_191), [1, 1, 0, 0]),
    ]
}

/// The numbers of a floor with these groups.
fn also(mut numbers: Floor, groups: &[u32]) -> Floor {
    numbers.groups = groups.to_vec();
    numbers
}

fn writes() -> Vec<Limit> {
    let paper = |groups: &[u32]| also(paper_floor_numbers(), groups);
    let absent_9th = [2, 2, 2, 2, 2, 2, 2, 2, 4];
    vec![
        write_floor("just room", paper(&[1]), 64, [0, 0, 64, 0]),
        write_floor("one byte short", paper(&[1]), 63, [1, 18, 64, 0]),
        write_floor("room without them", paper(&[1, 0]), 56, [1, 18, 72, 0]),
        write_floor("no room", paper(&[0]), 0, [1, 18, 64, 0]),
        write_floor("absent", paper(&[3, 4]), 99, [1, 6, 64, 0]),
        write_floor("absent cart 31", paper(&[1 << 31]), 99, [1, 6, 56, 0]),
        write_floor("8", paper(&[3; 8]), 120, [0, 0, 120, 0]),
        write_floor("9", paper(&[3; 9]), 200, [1, 5, 120, 0]),
        write_floor("9, no room", paper(&[3; 9]), 0, [1, 5, 120, 0]),
        write_floor("absent 9th", paper(&absent_9th), 200, [1, 5, 120, 0]),
    ]
}

fn writes_of_others() -> Vec<Limit> {
    let some =
        |places, lanes, carts, groups: &[u32]| also(counted_numbers(places, lanes, carts), groups);
    let mut cut = some(1, 0, 1, &[1]);
    cut.carts.push(0);
    let mut absent_narrow = some(1, 0, 1, &[2]);
    absent_narrow.narrow = vec![0, 1];
    let mut full = some(256, 1_024, 32, &[u32::MAX; 8]);
    full.narrow = vec![255; 256];
    let many = |count| some(1, 0, 1, &vec![0; count]);
    vec![
        write_floor("empty, no cart", some(2, 0, 0, &[0]), 99, [1, 7, 24, 0]),
        write_floor("no cart", some(2, 0, 0, &[1]), 99, [1, 6, 16, 0]),
        write_floor("no place", some(0, 0, 0, &[0]), 99, [1, 7, 8, 0]),
        write_floor("a byte of a cart", cut, 99, [1, 4, 14, 0]),
        write_floor("narrow place before", absent_narrow, 99, [1, 6, 19, 0]),
        write_floor("all full", full.clone(), 10_752, [0, 0, 10_752, 0]),
        write_floor("full, short", full, 10_751, [1, 18, 10_752, 0]),
        write_floor("65,534 bytes", many(8_190), 99, [1, 5, 78, 0]),
        write_floor("65,542 bytes", many(8_191), 99, [1, 1, 0, 0]),
    ]
}

/// Behind the narrow places, in the order given, lowest byte first.
fn written_bytes() -> Vec<Limit> {
    let mut numbers = also(paper_floor_numbers(), &[2, 0, 3]);
    numbers.narrow = vec![1];
    let narrow = [1, 0, 6, 0, 1];
    let three = [
        [4, 0, 7, 0, 2, 0, 0, 0],
        [4, 0, 7, 0, 0, 0, 0, 0],
        [4, 0, 7, 0, 3, 0, 0, 0],
    ];
    let large = also(counted_numbers(1, 0, 32), &[0x8040_2010]);
    vec![
        Limit {
            written: Some(with(with(paper_floor(), &narrow), &three.concat())),
            ..write_floor("in the order given", numbers, 99, [0, 0, 85, 0])
        },
        Limit {
            written: Some(with(counted(1, 0, 32), &[4, 0, 7, 0, 16, 32, 64, 128])),
            ..write_floor("lowest byte first", large, 220, [0, 0, 208, 0])
        },
    ]
}

/// Only the check of a plan looks at groups.
fn no_notice() -> Vec<Limit> {
    let floor = || Input::from(paper(&[2, 0]));
    let plan = || Input::from(paper_plan());
    let row = || vec![0, 1, 0, 1];
    vec![
        limit("plan read", Call::ReadPlan(floor(), plan()), DONE),
        limit("moves", Call::CheckMoves(floor(), plan()), DONE),
        limit(
            "moved on",
            Call::MoveOn(floor(), plan(), 1, 26),
            [0, 0, 26, 0],
        ),
        limit("row", Call::ReplaceRow(floor(), plan(), 1, row()), DONE),
    ]
}

pub fn all() -> Vec<Limit> {
    let parts = [
        records(),
        records_behind(),
        order_and_ends(),
        counts(),
        longest(),
        writes(),
        writes_of_others(),
        written_bytes(),
        no_notice(),
    ];
    parts.into_iter().flatten().collect()
}
