//! Cases of narrow places written by hand: records of kind 6 read and written, and the operations that
//! take no notice of them.

use crate::call::{Call, Input};
use crate::limits::{
    counted, counted_numbers, limit, paper_floor, paper_floor_numbers, paper_plan, read_floor,
    read_plan, record, with, write_floor, Limit, DONE,
};
use crate::reference::Floor;

fn narrow(places: &[u8]) -> Vec<u8> {
    places
        .iter()
        .flat_map(|place| record(6, &[*place]))
        .collect()
}

/// The paper's floor, 56 bytes, with these narrow places.
fn paper(places: &[u8]) -> Vec<u8> {
    with(paper_floor(), &narrow(places))
}

fn records() -> Vec<Limit> {
    let last = |more: &[u8]| with(paper_floor(), more);
    let behind = |record: Vec<u8>| with(paper(&[0]), &record);
    vec![
        read_floor("one narrow", paper(&[0]), DONE),
        read_floor("both narrow", paper(&[1, 0]), DONE),
        read_floor("named twice", paper(&[1, 1, 0, 1]), DONE),
        read_floor("absent narrow", paper(&[2]), [1, 6, 56, 0]),
        read_floor("absent second", paper(&[1, 255]), [1, 6, 61, 0]),
        read_floor("empty narrow", last(&record(6, &[])), [1, 4, 56, 0]),
        read_floor("long narrow", last(&record(6, &[0; 2])), [1, 4, 56, 0]),
        read_floor("long, absent", last(&record(6, &[9; 2])), [1, 4, 56, 0]),
        read_floor("longer narrow", last(&record(6, &[0; 257])), [1, 4, 56, 0]),
        read_floor("cut narrow", last(&[1, 0, 6, 0]), [1, 2, 56, 0]),
        read_floor("narrow kind", last(&[1, 0, 6]), [1, 2, 56, 0]),
        read_floor("kind 262", last(&[1, 0, 6, 1, 0]), [1, 3, 56, 0]),
        read_floor("late place", behind(record(1, &[0; 4])), [1, 3, 61, 0]),
        read_floor("late lane", behind(record(2, &[0; 3])), [1, 3, 61, 0]),
        read_floor("late cart", behind(record(3, &[0; 2])), [1, 3, 61, 0]),
        read_floor("late bad cart", behind(record(3, &[9])), [1, 3, 61, 0]),
        read_floor("head behind", behind(record(4, &[1; 6])), [1, 3, 61, 0]),
        read_floor("row behind", behind(record(5, &[0])), [1, 3, 61, 0]),
        read_floor("kind 12 behind", behind(record(12, &[0])), [1, 3, 61, 0]),
    ]
}

fn order_and_ends() -> Vec<Limit> {
    let early = |places, lanes| with(counted(places, lanes, 0), &narrow(&[0]));
    let cart = record(3, &[0, 0]);
    vec![
        read_floor("narrow first", narrow(&[0]), [1, 6, 0, 0]),
        read_floor("narrow only", narrow(&[0, 0]), [1, 6, 0, 0]),
        read_floor("narrow, no cart", early(1, 0), [1, 7, 13, 0]),
        read_floor("lane, narrow, no cart", early(2, 1), [1, 7, 28, 0]),
        read_floor("cart too late", with(early(1, 0), &cart), [1, 3, 13, 0]),
        read_floor(
            "cart behind cart too late",
            with(with(counted(1, 0, 1), &narrow(&[0])), &cart),
            [1, 3, 19, 0],
        ),
        read_floor("no lanes", with(counted(1, 0, 1), &narrow(&[0])), DONE),
        read_plan(
            "narrow in a plan",
            with(paper_plan(), &narrow(&[0])),
            [2, 3, 26, 0],
        ),
        read_plan(
            "narrow before a head",
            with(narrow(&[0]), &paper_plan()),
            [2, 3, 0, 0],
        ),
    ]
}

fn counts() -> Vec<Limit> {
    let full = |more: &[u8]| with(paper(&[1; 256]), more);
    let ends = |places, place| with(counted(places, 0, 1), &narrow(&[place]));
    let most = with(counted(256, 1_024, 32), &narrow(&[255; 256]));
    vec![
        read_floor("256 narrow", full(&[]), DONE),
        read_floor("257 narrow", full(&narrow(&[1])), [1, 5, 1_336, 0]),
        read_floor("absent 257th", full(&narrow(&[2])), [1, 5, 1_336, 0]),
        read_floor("long 257th", full(&record(6, &[1; 2])), [1, 4, 1_336, 0]),
        read_floor("cut 257th", full(&[1, 0, 6, 0]), [1, 2, 1_336, 0]),
        read_floor(
            "cart for 257th",
            full(&record(3, &[0; 2])),
            [1, 3, 1_336, 0],
        ),
        read_floor("place 255 of 256", ends(256, 255), DONE),
        read_floor("place 255 of 255", ends(255, 255), [1, 6, 2_046, 0]),
        read_floor("all full", most.clone(), DONE),
        read_floor(
            "all full and more",
            with(most, &narrow(&[0])),
            [1, 5, 10_688, 0],
        ),
        read_floor(
            "65,534 bytes",
            with(counted(1, 0, 1), &narrow(&vec![0; 13_104])),
            [1, 5, 1_294, 0],
        ),
        read_floor(
            "65,539 bytes",
            with(counted(1, 0, 1), &narrow(&vec![0; 13_105])),
            [1, 1, 0, 0],
        ),
    ]
}

/// The numbers of a floor with these narrow places.
fn also(mut numbers: Floor, places: &[u8]) -> Floor {
    numbers.narrow = places.to_vec();
    numbers
}

fn writes() -> Vec<Limit> {
    let paper = |places: &[u8]| also(paper_floor_numbers(), places);
    let absent_257th = [[1; 256].as_slice(), &[9]].concat();
    vec![
        write_floor("just room", paper(&[0]), 61, [0, 0, 61, 0]),
        write_floor("one byte short", paper(&[0]), 60, [1, 18, 61, 0]),
        write_floor("room without them", paper(&[0, 1]), 56, [1, 18, 66, 0]),
        write_floor("no room", paper(&[0]), 0, [1, 18, 61, 0]),
        write_floor("absent", paper(&[1, 2]), 99, [1, 6, 61, 0]),
        write_floor("256", paper(&[1; 256]), 1_336, [0, 0, 1_336, 0]),
        write_floor("257", paper(&[1; 257]), 9_999, [1, 5, 1_336, 0]),
        write_floor(
            "absent 257th",
            paper(&absent_257th),
            9_999,
            [1, 5, 1_336, 0],
        ),
    ]
}

fn writes_of_others() -> Vec<Limit> {
    let some =
        |places, lanes, carts, narrow: &[u8]| also(counted_numbers(places, lanes, carts), narrow);
    let mut cut = some(1, 0, 1, &[0]);
    cut.carts.push(0);
    let full = some(256, 1_024, 32, &[255; 256]);
    let many = |count| some(1, 0, 1, &vec![0; count]);
    vec![
        write_floor("no cart", some(2, 0, 0, &[0]), 99, [1, 7, 21, 0]),
        write_floor("no place", some(0, 0, 0, &[0]), 99, [1, 6, 0, 0]),
        write_floor("a byte of a cart", cut, 99, [1, 4, 14, 0]),
        write_floor("all full", full.clone(), 10_688, [0, 0, 10_688, 0]),
        write_floor("full, short", full, 10_687, [1, 18, 10_688, 0]),
        write_floor("65,534 bytes", many(13_104), 99, [1, 5, 1_294, 0]),
        write_floor("65,539 bytes", many(13_105), 99, [1, 1, 0, 0]),
    ]
}

fn written_bytes() -> Limit {
    let mut numbers = paper_floor_numbers();
    numbers.narrow = vec![1, 0, 1];
    let more = [1, 0, 6, 0, 1, 1, 0, 6, 0, 0, 1, 0, 6, 0, 1];
    Limit {
        written: Some(with(paper_floor(), &more)),
        ..write_floor("in the order given", numbers, 80, [0, 0, 71, 0])
    }
}

/// Both carts of the paper's plan begin on place 0: only the check of a plan refuses that.
fn no_notice() -> Vec<Limit> {
    let floor = || Input::from(paper(&[0, 1]));
    let plan = || Input::from(paper_plan());
    let row = || vec![0, 1, 0, 1];
    vec![
        limit("conflict read", Call::ReadPlan(floor(), plan()), DONE),
        limit("conflict's moves", Call::CheckMoves(floor(), plan()), DONE),
        limit(
            "conflict moved on",
            Call::MoveOn(floor(), plan(), 1, 26),
            [0, 0, 26, 0],
        ),
        limit(
            "conflict replaced",
            Call::ReplaceRow(floor(), plan(), 1, row()),
            DONE,
        ),
    ]
}

pub fn all() -> Vec<Limit> {
    let parts = [
        records(),
        order_and_ends(),
        counts(),
        writes(),
        writes_of_others(),
        vec![written_bytes()],
        no_notice(),
    ];
    parts.into_iter().flatten().collect()
}
