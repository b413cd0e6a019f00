//! Cases written by hand with their verdicts: those of document 01, both sides of every limit, and
//! records with more than one fault.

use crate::call::{Call, Input};
use crate::reference::{Floor, Plan, Verdict};

/// `written` is the file that the call leaves behind, where that too is written by hand.
#[derive(Clone)]
pub struct Limit {
    pub name: &'static str,
    pub call: Call,
    pub verdict: Verdict,
    pub written: Option<Vec<u8>>,
}

pub const DONE: Verdict = [0; 4];

/// Two places, four lanes open to all, two carts of class 0 from place 0.
pub fn paper_floor() -> Vec<u8> {
    [
        &[4, 0, 1, 0, 1, 0, 0, 0][..],
        &[4, 0, 1, 0, 2, 0, 0, 0],
        &[3, 0, 2, 0, 0, 1, 255],
        &[3, 0, 2, 0, 1, 0, 255],
        &[3, 0, 2, 0, 0, 0, 255],
        &[3, 0, 2, 0, 1, 1, 255],
        &[2, 0, 3, 0, 0, 0],
        &[2, 0, 3, 0, 0, 0],
    ]
    .concat()
}

pub fn paper_plan() -> Vec<u8> {
    [
        &[6, 0, 4, 0, 4, 0, 0, 0, 0, 0][..],
        &[4, 0, 5, 0, 0, 1, 1, 0],
        &[4, 0, 5, 0, 0, 0, 1, 1],
    ]
    .concat()
}

pub fn paper_floor_numbers() -> Floor {
    Floor {
        places: vec![1, 2],
        lanes: vec![0, 1, 255, 1, 0, 255, 0, 0, 255, 1, 1, 255],
        carts: vec![0, 0, 0, 0],
        narrow: Vec::new(),
        groups: Vec::new(),
    }
}

/// The paper's plan with another head and other rows.
fn plan_numbers(h: u16, l: u16, d: u16, rows: &[u8]) -> Plan {
    let rows = rows.to_vec();
    Plan { h, l, d, rows }
}

const ROWS: [u8; 8] = [0, 1, 1, 0, 0, 0, 1, 1];

pub fn record(kind: u8, body: &[u8]) -> Vec<u8> {
    let [low, high] = (body.len() as u16).to_le_bytes();
    [&[low, high, kind, 0], body].concat()
}

/// The paper's floor or plan with more bytes behind it.
pub fn with(file: Vec<u8>, more: &[u8]) -> Vec<u8> {
    [&file, more].concat()
}

/// A floor of so many places, lanes from 0 to 0, and carts of class 0 from 0.
pub fn counted(places: usize, lanes: usize, carts: usize) -> Vec<u8> {
    let places = record(1, &[0; 4]).repeat(places);
    let lanes = record(2, &[0, 0, 1]).repeat(lanes);
    [places, lanes, record(3, &[0, 0]).repeat(carts)].concat()
}

pub fn counted_numbers(places: usize, lanes: usize, carts: usize) -> Floor {
    Floor {
        places: vec![0; places],
        lanes: vec![0; 3 * lanes],
        carts: vec![0; 2 * carts],
        narrow: Vec::new(),
        groups: Vec::new(),
    }
}

pub fn limit(name: &'static str, call: Call, verdict: Verdict) -> Limit {
    Limit {
        name,
        call,
        verdict,
        written: None,
    }
}

pub fn read_floor(name: &'static str, floor: Vec<u8>, verdict: Verdict) -> Limit {
    limit(name, Call::ReadFloor(Input::from(floor)), verdict)
}

/// Reads a plan for the paper's floor.
pub fn read_plan(name: &'static str, plan: Vec<u8>, verdict: Verdict) -> Limit {
    let floor = Input::from(paper_floor());
    limit(name, Call::ReadPlan(floor, Input::from(plan)), verdict)
}

pub fn write_floor(name: &'static str, numbers: Floor, room: usize, verdict: Verdict) -> Limit {
    limit(name, Call::WriteFloor(numbers, room), verdict)
}

/// Writes a plan for the paper's floor.
fn write_plan(name: &'static str, numbers: Plan, room: usize, verdict: Verdict) -> Limit {
    let floor = Input::from(paper_floor());
    limit(name, Call::WritePlan(floor, numbers, room), verdict)
}

fn floor_ends() -> Vec<Limit> {
    let floor = paper_floor;
    let short = |kept: usize| floor()[..kept].to_vec();
    vec![
        read_floor("paper's floor", floor(), DONE),
        read_floor("empty floor", Vec::new(), [1, 7, 0, 0]),
        read_floor("no cart", counted(1, 0, 0), [1, 7, 8, 0]),
        read_floor("lanes, no cart", counted(1, 2, 0), [1, 7, 22, 0]),
        read_floor("no lanes", counted(1, 0, 1), DONE),
        read_floor("one byte", vec![4], [1, 2, 0, 0]),
        read_floor("one byte more", with(floor(), &[0]), [1, 2, 56, 0]),
        read_floor("three bytes more", with(floor(), &[0; 3]), [1, 2, 56, 0]),
        read_floor("four zeros more", with(floor(), &[0; 4]), [1, 3, 56, 0]),
        read_floor("one byte less", short(55), [1, 2, 50, 0]),
        read_floor("header only", short(54), [1, 2, 50, 0]),
        read_floor("one cart less", short(50), DONE),
        read_floor("both carts less", short(44), [1, 7, 44, 0]),
    ]
}

fn floor_records() -> Vec<Limit> {
    let floor = paper_floor;
    let last = |more: &[u8]| with(floor(), more);
    let first = |record: Vec<u8>| with(record, &floor());
    let at_place = |record: Vec<u8>| with(counted(1, 0, 0), &record);
    vec![
        read_floor("kind 12", last(&record(12, &[])), [1, 3, 56, 0]),
        read_floor("kind 257", last(&[4, 0, 1, 1, 0, 0, 0, 0]), [1, 3, 56, 0]),
        read_floor("kind 259", last(&[2, 0, 3, 1, 0, 0]), [1, 3, 56, 0]),
        read_floor("cut kind 12", last(&[1, 0, 12, 0]), [1, 2, 56, 0]),
        read_floor("head in floor", last(&record(4, &[1; 6])), [1, 3, 56, 0]),
        read_floor("row in floor", first(record(5, &[0])), [1, 3, 0, 0]),
        read_floor("late place", last(&record(1, &[0; 4])), [1, 3, 56, 0]),
        read_floor("late lane", last(&record(2, &[0; 3])), [1, 3, 56, 0]),
        read_floor("late long lane", last(&record(2, &[9; 4])), [1, 3, 56, 0]),
        read_floor("lane first", first(record(2, &[0; 3])), [1, 6, 0, 0]),
        read_floor("cart first", first(record(3, &[0; 2])), [1, 6, 0, 0]),
        read_floor("short place", first(record(1, &[0; 3])), [1, 4, 0, 0]),
        read_floor("long place", first(record(1, &[0; 5])), [1, 4, 0, 0]),
        read_floor("longer place", first(record(1, &[0; 260])), [1, 4, 0, 0]),
        read_floor("empty lane", at_place(record(2, &[])), [1, 4, 8, 0]),
        read_floor("long lane", at_place(record(2, &[9; 4])), [1, 4, 8, 0]),
        read_floor("long cart", at_place(record(3, &[9; 3])), [1, 4, 8, 0]),
        read_floor("absent from", at_place(record(2, &[1, 0, 0])), [1, 6, 8, 0]),
        read_floor("absent to", at_place(record(2, &[0, 1, 0])), [1, 6, 8, 0]),
        read_floor("absent start", at_place(record(3, &[0, 1])), [1, 6, 8, 0]),
        read_floor("class 7", at_place(record(3, &[7, 0])), DONE),
        read_floor("class 8", at_place(record(3, &[8, 0])), [1, 6, 8, 0]),
    ]
}

fn floor_counts() -> Vec<Limit> {
    let many_places = |record: Vec<u8>| with(counted(256, 0, 0), &record);
    let many_carts = |record: Vec<u8>| with(counted(1, 0, 32), &record);
    let one_record = |body: usize, bytes: usize| {
        let mut file = record(2, &vec![0; body]);
        file.truncate(bytes);
        file
    };
    vec![
        read_floor("all full", counted(256, 1_024, 32), DONE),
        read_floor("257 places", counted(257, 1, 1), [1, 5, 2_048, 0]),
        read_floor(
            "long 257th",
            many_places(record(1, &[0; 5])),
            [1, 4, 2_048, 0],
        ),
        read_floor("place 255", many_places(record(3, &[0, 255])), DONE),
        read_floor("1,025 lanes", counted(1, 1_025, 1), [1, 5, 7_176, 0]),
        read_floor("33 carts", counted(1, 0, 33), [1, 5, 200, 0]),
        read_floor(
            "33rd class 9",
            many_carts(record(3, &[9, 0])),
            [1, 5, 200, 0],
        ),
        read_floor("long 33rd", many_carts(record(3, &[9; 3])), [1, 4, 200, 0]),
        read_floor("65,536 bytes", counted(8_192, 0, 0), [1, 5, 2_048, 0]),
        read_floor(
            "65,537 bytes",
            with(counted(8_192, 0, 0), &[0]),
            [1, 1, 0, 0],
        ),
        read_floor("too long and bad", vec![9; 65_537], [1, 1, 0, 0]),
        read_floor("one record", one_record(65_532, 65_536), [1, 4, 0, 0]),
        read_floor("one cut record", one_record(65_533, 65_536), [1, 2, 0, 0]),
    ]
}

fn plan_heads() -> Vec<Limit> {
    let head = |h: [u8; 2], l: u8, d: [u8; 2]| {
        let head = record(4, &[h[0], h[1], l, 0, d[0], d[1]]);
        let row = record(5, &vec![1; usize::from(h[0])]);
        [head, row.repeat(2)].concat()
    };
    vec![
        read_plan("paper's plan", paper_plan(), DONE),
        read_plan("l is h - 1", head([4, 0], 3, [0, 0]), DONE),
        read_plan("l is h", head([4, 0], 4, [0, 0]), [2, 8, 0, 0]),
        read_plan("d 16", head([4, 0], 0, [16, 0]), DONE),
        read_plan("d 17", head([4, 0], 0, [17, 0]), [2, 8, 0, 0]),
        read_plan("d 256", head([4, 0], 0, [0, 1]), [2, 8, 0, 0]),
        read_plan("h 0", head([0, 0], 0, [0, 0]), [2, 8, 0, 0]),
        read_plan("h 1", head([1, 0], 0, [0, 0]), DONE),
        read_plan("h 64", head([64, 0], 63, [16, 0]), DONE),
        read_plan("h 65", head([65, 0], 0, [0, 0]), [2, 8, 0, 0]),
        read_plan("h 257", head([1, 1], 0, [0, 0]), [2, 8, 0, 0]),
        read_plan("short head", record(4, &[4, 0, 0, 0, 0]), [2, 4, 0, 0]),
        read_plan("long head", record(4, &[9; 7]), [2, 4, 0, 0]),
        read_plan("cut head", vec![6, 0, 4, 0, 99, 99], [2, 2, 0, 0]),
    ]
}

/// The paper's plan with a record behind it.
fn plan_and(record: Vec<u8>) -> Vec<u8> {
    with(paper_plan(), &record)
}

/// The first bytes of the paper's plan, then a record.
fn plan_part(kept: usize, record: Vec<u8>) -> Vec<u8> {
    with(paper_plan()[..kept].to_vec(), &record)
}

fn plan_kinds() -> Vec<Limit> {
    let (last, only) = (plan_and, plan_part);
    vec![
        read_plan("empty plan", Vec::new(), [2, 7, 0, 0]),
        read_plan("head only", only(10, Vec::new()), [2, 7, 10, 0]),
        read_plan("one row", only(18, Vec::new()), [2, 7, 18, 0]),
        read_plan("row first", record(5, &[0; 4]), [2, 3, 0, 0]),
        read_plan("cut row first", vec![1, 0, 5, 0], [2, 2, 0, 0]),
        read_plan(
            "second head",
            last(record(4, &[4, 0, 0, 0, 0, 0])),
            [2, 3, 26, 0],
        ),
        read_plan(
            "early second head",
            only(10, record(4, &[9; 6])),
            [2, 3, 10, 0],
        ),
        read_plan("short second head", only(10, record(4, &[])), [2, 3, 10, 0]),
        read_plan("place in plan", last(record(1, &[0; 4])), [2, 3, 26, 0]),
        read_plan("cart first", record(3, &[0; 2]), [2, 3, 0, 0]),
        read_plan("kind 0", only(18, record(0, &[0; 4])), [2, 3, 18, 0]),
        read_plan("kind 261", only(18, vec![0, 0, 5, 1]), [2, 3, 18, 0]),
    ]
}

fn plan_rows() -> Vec<Limit> {
    let (last, only) = (plan_and, plan_part);
    vec![
        read_plan("short row", only(18, record(5, &[9; 3])), [2, 4, 18, 0]),
        read_plan("long row", only(18, record(5, &[9; 5])), [2, 4, 18, 0]),
        read_plan(
            "absent place",
            only(18, record(5, &[0, 0, 0, 2])),
            [2, 9, 18, 0],
        ),
        read_plan("surplus row", last(record(5, &[0; 4])), [2, 5, 26, 0]),
        read_plan("surplus absent", last(record(5, &[9; 4])), [2, 5, 26, 0]),
        read_plan("surplus long", last(record(5, &[9; 5])), [2, 4, 26, 0]),
        read_plan("surplus cut", last(vec![4, 0, 5, 0, 9]), [2, 2, 26, 0]),
        read_plan(
            "65,536 bytes",
            only(10, record(5, &[0; 65_522])),
            [2, 4, 10, 0],
        ),
        read_plan(
            "65,537 bytes",
            only(10, record(5, &[0; 65_523])),
            [2, 1, 0, 0],
        ),
    ]
}

/// The floor's refusals come first, whatever the plan is.
fn floors_below() -> Vec<Limit> {
    let bad = counted(1, 0, 33);
    let long = vec![0; 65_537];
    let read = |floor: &[u8], plan: &[u8]| {
        let (floor, plan) = (floor.to_vec(), plan.to_vec());
        Call::ReadPlan(Input::from(floor), Input::from(plan))
    };
    let write = |floor: &[u8], h: u16, rows: &[u8]| {
        let numbers = plan_numbers(h, 0, 0, rows);
        Call::WritePlan(Input::from(floor.to_vec()), numbers, 5)
    };
    let cases = [
        ("empty floor, empty plan", read(&[], &[]), [1, 7, 0, 0]),
        ("empty floor, long plan", read(&[], &long), [1, 7, 0, 0]),
        ("bad floor, bad plan", read(&bad, &[1]), [1, 5, 200, 0]),
        ("long floor, long plan", read(&long, &long), [1, 1, 0, 0]),
        ("empty floor to write", write(&[], 0, &[]), [1, 7, 0, 0]),
        (
            "bad floor, long rows",
            write(&bad, 4, &long),
            [1, 5, 200, 0],
        ),
        ("long floor, no rows", write(&long, 4, &[]), [1, 1, 0, 0]),
    ];
    cases
        .map(|(name, call, verdict)| limit(name, call, verdict))
        .into()
}

/// Everything at its limit: 32 rows of 64 steps on 256 places.
fn full_plans() -> Vec<Limit> {
    let floor = || Input::from(counted(256, 1_024, 32));
    let head = record(4, &[64, 0, 63, 0, 16, 0]);
    let plan = |rows: usize| [head.clone(), record(5, &[255; 64]).repeat(rows)].concat();
    let read = |rows: usize| Call::ReadPlan(floor(), Input::from(plan(rows)));
    let write = |rows: usize, room: usize| {
        let numbers = plan_numbers(64, 63, 16, &vec![255; 64 * rows]);
        Call::WritePlan(floor(), numbers, room)
    };
    vec![
        limit("full plan", read(32), DONE),
        limit("33 rows", read(33), [2, 5, 2_186, 0]),
        limit("31 rows", read(31), [2, 7, 2_118, 0]),
        limit("full plan to write", write(32, 2_186), [0, 0, 2_186, 0]),
        limit("one byte short", write(32, 2_185), [2, 18, 2_186, 0]),
        limit("33 rows to write", write(33, 4_000), [2, 5, 2_186, 0]),
        limit("31 rows to write", write(31, 4_000), [2, 7, 2_118, 0]),
    ]
}

fn floor_writes() -> Vec<Limit> {
    let paper = paper_floor_numbers;
    let some = counted_numbers;
    vec![
        write_floor("just room", paper(), 56, [0, 0, 56, 0]),
        write_floor("more room", paper(), 70, [0, 0, 56, 0]),
        write_floor("one byte short", paper(), 55, [1, 18, 56, 0]),
        write_floor("no room", paper(), 0, [1, 18, 56, 0]),
        write_floor("all full", some(256, 1_024, 32), 9_408, [0, 0, 9_408, 0]),
        write_floor(
            "full, short",
            some(256, 1_024, 32),
            9_407,
            [1, 18, 9_408, 0],
        ),
        write_floor("nothing", some(0, 0, 0), 0, [1, 7, 0, 0]),
        write_floor("no cart, no room", some(2, 1, 0), 0, [1, 7, 23, 0]),
        write_floor("no place", some(0, 1, 1), 99, [1, 6, 0, 0]),
        write_floor("no place, no lane", some(0, 0, 1), 99, [1, 6, 0, 0]),
        write_floor("257 places", some(257, 1, 1), 9_999, [1, 5, 2_048, 0]),
        write_floor("1,025 lanes", some(1, 1_025, 1), 9_999, [1, 5, 7_176, 0]),
        write_floor("33 carts", some(1, 0, 33), 999, [1, 5, 200, 0]),
        write_floor("65,536 bytes", some(8_192, 0, 0), 99, [1, 5, 2_048, 0]),
        write_floor("65,544 bytes", some(8_193, 0, 0), 99, [1, 1, 0, 0]),
    ]
}

fn floor_left_over() -> Vec<Limit> {
    let lanes = |count: usize, more: &[u8]| {
        let mut numbers = counted_numbers(1, count, 1);
        numbers.lanes.extend_from_slice(more);
        numbers
    };
    let carts = |count: usize, more: &[u8]| {
        let mut numbers = counted_numbers(1, 0, count);
        numbers.carts.extend_from_slice(more);
        numbers
    };
    vec![
        write_floor("a byte of a lane", lanes(1, &[9]), 99, [1, 4, 15, 0]),
        write_floor("two bytes", lanes(1, &[9, 9]), 99, [1, 4, 15, 0]),
        write_floor("1,025th cut", lanes(1_024, &[9]), 99, [1, 4, 7_176, 0]),
        write_floor("absent to", lanes(1, &[0, 1, 0]), 99, [1, 6, 15, 0]),
        write_floor("a byte of a cart", carts(1, &[9]), 99, [1, 4, 14, 0]),
        write_floor("33rd cut", carts(32, &[9]), 999, [1, 4, 200, 0]),
        write_floor("class 8", carts(1, &[8, 0]), 99, [1, 6, 14, 0]),
        write_floor("class 7", carts(1, &[7, 0]), 99, [0, 0, 20, 0]),
        // A place and 10,920 carts are 65,528 bytes; a byte left over takes five more.
        write_floor("65,533 bytes", carts(10_920, &[0]), 99, [1, 5, 200, 0]),
        write_floor("65,539 bytes", carts(10_921, &[0]), 99, [1, 1, 0, 0]),
        // A place, a cart and 9,360 lanes are 65,534 bytes; left-over bytes take five or six.
        write_floor("65,534 bytes", lanes(9_360, &[]), 99, [1, 5, 7_176, 0]),
        write_floor("65,532 bytes", lanes(9_359, &[0]), 99, [1, 5, 7_176, 0]),
        write_floor("65,539 by lanes", lanes(9_360, &[0]), 99, [1, 1, 0, 0]),
    ]
}

fn plan_writes() -> Vec<Limit> {
    let numbers = plan_numbers;
    let paper = |room: usize, verdict: Verdict| {
        write_plan("paper's plan", numbers(4, 0, 0, &ROWS), room, verdict)
    };
    let zeros = |h: u16, count: usize| numbers(h, 0, 0, &vec![0; count]);
    vec![
        paper(26, [0, 0, 26, 0]),
        paper(31, [0, 0, 26, 0]),
        paper(25, [2, 18, 26, 0]),
        paper(0, [2, 18, 26, 0]),
        write_plan("l is h - 1", numbers(4, 3, 16, &ROWS), 26, [0, 0, 26, 0]),
        write_plan("l is h", numbers(4, 4, 0, &ROWS), 26, [2, 8, 0, 0]),
        write_plan("d 17", numbers(4, 0, 17, &ROWS), 0, [2, 8, 0, 0]),
        write_plan("h 64", zeros(64, 128), 146, [0, 0, 146, 0]),
        write_plan("h 65", zeros(65, 130), 148, [2, 8, 0, 0]),
    ]
}

fn plan_left_over() -> Vec<Limit> {
    let rows = |rows: &[u8]| plan_numbers(4, 0, 0, rows);
    let zeros = |h: u16, count: usize| plan_numbers(h, 0, 0, &vec![0; count]);
    vec![
        write_plan("h 0, no rows", zeros(0, 0), 0, [2, 8, 0, 0]),
        write_plan("h 0, 65,536 bytes", zeros(0, 65_522), 9, [2, 8, 0, 0]),
        write_plan("h 0, 65,537 bytes", zeros(0, 65_523), 9, [2, 1, 0, 0]),
        write_plan("h 65,535, cut", zeros(65_535, 65_522), 9, [2, 8, 0, 0]),
        write_plan("h 65,535, long", zeros(65_535, 65_523), 9, [2, 1, 0, 0]),
        write_plan("65,535 bytes", zeros(1, 13_105), 9, [2, 5, 20, 0]),
        write_plan("65,540 bytes", zeros(1, 13_106), 9, [2, 1, 0, 0]),
        // A head and 8,190 rows of 8 bytes are 65,530; two bytes left over take six more.
        write_plan("65,536, cut", zeros(4, 32_762), 9, [2, 5, 26, 0]),
        write_plan("65,537, cut", zeros(4, 32_763), 9, [2, 1, 0, 0]),
        write_plan("no rows", rows(&[]), 99, [2, 7, 10, 0]),
        write_plan("one row", rows(&ROWS[..4]), 99, [2, 7, 18, 0]),
        write_plan("a byte less", rows(&ROWS[..7]), 99, [2, 4, 18, 0]),
        write_plan("a byte left over", rows(&[0; 9]), 99, [2, 4, 26, 0]),
        write_plan("surplus row", rows(&[0; 12]), 99, [2, 5, 26, 0]),
        write_plan(
            "absent place",
            rows(&[0, 0, 0, 0, 0, 0, 0, 2]),
            99,
            [2, 9, 18, 0],
        ),
    ]
}

pub fn all() -> Vec<Limit> {
    let parts = [
        floor_ends(),
        floor_records(),
        floor_counts(),
        plan_heads(),
        plan_kinds(),
        plan_rows(),
        floors_below(),
        full_plans(),
        floor_writes(),
        floor_left_over(),
        plan_writes(),
        plan_left_over(),
    ];
    parts.into_iter().flatten().collect()
}
