//! Floors and plans straight from documents 01 and 02: what a file says, what it is refused for, and what
//! writing gives. Slow and plain on purpose; it shares nothing with the library.

pub const LONGEST_FILE: usize = 65_536;
pub const MOST_PLACES: usize = 256;
pub const MOST_LANES: usize = 1_024;
pub const MOST_CARTS: usize = 32;
pub const MOST_NARROW: usize = 256;
pub const MOST_GROUPS: usize = 8;
pub const MOST_STEPS: u16 = 64;
pub const MOST_DRIFT: u16 = 16;

pub const FLOOR: u32 = 1;
pub const PLAN: u32 = 2;

/// A floor's numbers as the C interface takes them: three bytes a lane, two bytes a cart, one byte a
/// narrow place, a number a group with bit n for cart n.
#[derive(Clone, Default, PartialEq, Eq, Debug)]
pub struct Floor {
    pub places: Vec<u32>,
    pub lanes: Vec<u8>,
    pub carts: Vec<u8>,
    pub narrow: Vec<u8>,
    pub groups: Vec<u32>,
}

/// A plan's numbers as the C interface takes them: h bytes a row.
#[derive(Clone, Default, PartialEq, Eq, Debug)]
pub struct Plan {
    pub h: u16,
    pub l: u16,
    pub d: u16,
    pub rows: Vec<u8>,
}

/// A refusal and its two further numbers; for a file these are an offset and 0.
#[derive(Clone, Copy, PartialEq, Eq, Debug)]
pub struct Refusal {
    pub number: u32,
    pub first: usize,
    pub second: usize,
}

/// The four numbers of a verdict: about, number, first, second.
pub type Verdict = [u32; 4];

/// What a call answers, and the bytes with which the buffer that it writes to begins afterwards;
/// the others stay.
#[derive(Clone, PartialEq, Eq, Debug)]
pub struct Answer {
    pub verdict: Verdict,
    pub written: Vec<u8>,
}

struct Record<'a> {
    kind: u16,
    body: &'a [u8],
}

/// A refusal with these further numbers.
pub fn refuse_with(wrong: bool, number: u32, first: usize, second: usize) -> Result<(), Refusal> {
    if wrong {
        Err(Refusal {
            number,
            first,
            second,
        })
    } else {
        Ok(())
    }
}

fn refuse_if(wrong: bool, number: u32, first: usize) -> Result<(), Refusal> {
    refuse_with(wrong, number, first, 0)
}

fn two_bytes(bytes: &[u8], at: usize) -> u16 {
    u16::from_le_bytes([bytes[at], bytes[at + 1]])
}

fn four_bytes(body: &[u8]) -> u32 {
    (0..4).map(|i| u32::from(body[i]) << (8 * i)).sum()
}

/// The record at `start`. The body counts as missing before anyone looks at the kind.
fn record_at(file: &[u8], start: usize) -> Result<Record<'_>, Refusal> {
    let rest = &file[start..];
    refuse_if(rest.len() < 4, 2, start)?;
    let length = usize::from(two_bytes(rest, 0));
    refuse_if(rest.len() < 4 + length, 2, start)?;
    Ok(Record {
        kind: two_bytes(rest, 2),
        body: &rest[4..4 + length],
    })
}

pub fn read_floor(file: &[u8]) -> Result<Floor, Refusal> {
    refuse_if(file.len() > LONGEST_FILE, 1, 0)?;
    let mut floor = Floor::default();
    let mut start = 0;
    let mut highest_kind = 1;
    while start < file.len() {
        let record = record_at(file, start)?;
        let known = [1, 2, 3, 6, 7].contains(&record.kind);
        let out_of_place = !known || record.kind < highest_kind;
        refuse_if(out_of_place, 3, start)?;
        take_floor_record(&mut floor, &record, start)?;
        highest_kind = record.kind;
        start += 4 + record.body.len();
    }
    let nothing = floor.places.is_empty() || floor.carts.is_empty();
    refuse_if(nothing, 7, file.len())?;
    Ok(floor)
}

/// Takes one record of kind 1, 2, 3, 6 or 7 after judging 4, 5 and 6 in that order.
fn take_floor_record(floor: &mut Floor, record: &Record, start: usize) -> Result<(), Refusal> {
    let body = record.body;
    let places = floor.places.len();
    let absent = |place: u8| usize::from(place) >= places;
    match record.kind {
        1 => {
            refuse_if(body.len() != 4, 4, start)?;
            refuse_if(places == MOST_PLACES, 5, start)?;
            floor.places.push(four_bytes(body));
        }
        2 => {
            refuse_if(body.len() != 3, 4, start)?;
            refuse_if(floor.lanes.len() == 3 * MOST_LANES, 5, start)?;
            refuse_if(absent(body[0]) || absent(body[1]), 6, start)?;
            floor.lanes.extend_from_slice(body);
        }
        3 => {
            refuse_if(body.len() != 2, 4, start)?;
            refuse_if(floor.carts.len() == 2 * MOST_CARTS, 5, start)?;
            refuse_if(body[0] > 7 || absent(body[1]), 6, start)?;
            floor.carts.extend_from_slice(body);
        }
        6 => {
            refuse_if(body.len() != 1, 4, start)?;
            refuse_if(floor.narrow.len() == MOST_NARROW, 5, start)?;
            refuse_if(absent(body[0]), 6, start)?;
            floor.narrow.push(body[0]);
        }
        _ => {
            refuse_if(body.len() != 4, 4, start)?;
            refuse_if(floor.groups.len() == MOST_GROUPS, 5, start)?;
            let carts = floor.carts.len() / 2;
            let member = |cart: usize| body[cart / 8] >> (cart % 8) & 1 == 1;
            refuse_if((carts..32).any(member), 6, start)?;
            floor.groups.push(four_bytes(body));
        }
    }
    Ok(())
}

/// Reads a plan for an accepted floor.
pub fn read_plan(floor: &Floor, file: &[u8]) -> Result<Plan, Refusal> {
    refuse_if(file.len() > LONGEST_FILE, 1, 0)?;
    let carts = floor.carts.len() / 2;
    let mut head: Option<Plan> = None;
    let mut rows = 0;
    let mut start = 0;
    while start < file.len() {
        let record = record_at(file, start)?;
        match (record.kind, &mut head) {
            (4, None) => head = Some(head_of(record.body, start)?),
            (5, Some(plan)) => {
                refuse_if(record.body.len() != usize::from(plan.h), 4, start)?;
                refuse_if(rows == carts, 5, start)?;
                take_row(plan, floor, record.body, start)?;
                rows += 1;
            }
            _ => refuse_if(true, 3, start)?,
        }
        start += 4 + record.body.len();
    }
    let finished = head.filter(|_| rows == carts);
    finished.ok_or(Refusal {
        number: 7,
        first: file.len(),
        second: 0,
    })
}

fn head_of(body: &[u8], start: usize) -> Result<Plan, Refusal> {
    refuse_if(body.len() != 6, 4, start)?;
    let (h, l, d) = (two_bytes(body, 0), two_bytes(body, 2), two_bytes(body, 4));
    let out_of_range = h == 0 || h > MOST_STEPS || l >= h || d > MOST_DRIFT;
    refuse_if(out_of_range, 8, start)?;
    let rows = Vec::new();
    Ok(Plan { h, l, d, rows })
}

fn take_row(plan: &mut Plan, floor: &Floor, row: &[u8], start: usize) -> Result<(), Refusal> {
    let absent = |place: &u8| usize::from(*place) >= floor.places.len();
    refuse_if(row.iter().any(absent), 9, start)?;
    plan.rows.extend_from_slice(row);
    Ok(())
}

/// Parts of `size` bytes, a shorter last one included. With no size all bytes are left over.
fn parts(bytes: &[u8], size: usize) -> impl Iterator<Item = &[u8]> {
    let whole = bytes.len().max(1);
    bytes.chunks(if size == 0 { whole } else { size })
}

/// The records one after another, or 1 if no file could hold them.
fn laid_out(records: &[(u8, Vec<u8>)]) -> Result<Vec<u8>, Refusal> {
    let length: usize = records.iter().map(|(_, body)| 4 + body.len()).sum();
    refuse_if(length > LONGEST_FILE, 1, 0)?;
    let mut file = Vec::with_capacity(length);
    for (kind, body) in records {
        let length = u16::try_from(body.len()).expect("a file's body fits its length field");
        file.extend_from_slice(&length.to_le_bytes());
        file.extend_from_slice(&[*kind, 0]);
        file.extend_from_slice(body);
    }
    Ok(file)
}

/// The floor's numbers as a file, whether or not that file is readable.
pub fn floor_file(floor: &Floor) -> Result<Vec<u8>, Refusal> {
    let place = |marks: &u32| (1, marks.to_le_bytes().to_vec());
    let lane = |part: &[u8]| (2, part.to_vec());
    let cart = |part: &[u8]| (3, part.to_vec());
    let narrow = |part: &[u8]| (6, part.to_vec());
    let group = |carts: &u32| (7, carts.to_le_bytes().to_vec());
    let mut records: Vec<(u8, Vec<u8>)> = floor.places.iter().map(place).collect();
    records.extend(parts(&floor.lanes, 3).map(lane));
    records.extend(parts(&floor.carts, 2).map(cart));
    records.extend(parts(&floor.narrow, 1).map(narrow));
    records.extend(floor.groups.iter().map(group));
    laid_out(&records)
}

/// The plan's numbers as a file, whether or not that file is readable.
pub fn plan_file(plan: &Plan) -> Result<Vec<u8>, Refusal> {
    let head = [plan.h, plan.l, plan.d].map(u16::to_le_bytes).concat();
    let mut records = vec![(4, head)];
    let row = |part: &[u8]| (5, part.to_vec());
    records.extend(parts(&plan.rows, usize::from(plan.h)).map(row));
    laid_out(&records)
}

pub fn refused(about: u32, refusal: Refusal) -> Answer {
    let further = |number: usize| u32::try_from(number).expect("further numbers are small");
    let (first, second) = (further(refusal.first), further(refusal.second));
    Answer {
        verdict: [about, refusal.number, first, second],
        written: Vec::new(),
    }
}

pub fn accepted() -> Answer {
    Answer {
        verdict: [0; 4],
        written: Vec::new(),
    }
}

/// The end of every write: 18 if the result is longer than the room for it.
pub fn done(about: u32, written: Vec<u8>, room: usize) -> Answer {
    let length = written.len();
    if let Err(refusal) = refuse_if(length > room, 18, length) {
        return refused(about, refusal);
    }
    Answer {
        verdict: [0, 0, length as u32, 0],
        written,
    }
}

/// A floor and a plan for it, or the refusal of either, the floor's first.
pub fn read_both(floor: &[u8], plan: &[u8]) -> Result<(Floor, Plan), Answer> {
    let floor = read_floor(floor).map_err(|refusal| refused(FLOOR, refusal))?;
    let plan = read_plan(&floor, plan).map_err(|refusal| refused(PLAN, refusal))?;
    Ok((floor, plan))
}

pub fn answer_read_floor(floor: &[u8]) -> Answer {
    match read_floor(floor) {
        Ok(_) => accepted(),
        Err(refusal) => refused(FLOOR, refusal),
    }
}

pub fn answer_read_plan(floor: &[u8], plan: &[u8]) -> Answer {
    match read_both(floor, plan) {
        Ok(_) => accepted(),
        Err(answer) => answer,
    }
}

pub fn answer_write_floor(numbers: &Floor, room: usize) -> Answer {
    let file = floor_file(numbers).and_then(|file| read_floor(&file).map(|_| file));
    match file {
        Ok(file) => done(FLOOR, file, room),
        Err(refusal) => refused(FLOOR, refusal),
    }
}

pub fn answer_write_plan(floor: &[u8], numbers: &Plan, room: usize) -> Answer {
    let floor = match read_floor(floor) {
        Ok(floor) => floor,
        Err(refusal) => return refused(FLOOR, refusal),
    };
    let file = plan_file(numbers).and_then(|file| read_plan(&floor, &file).map(|_| file));
    match file {
        Ok(file) => done(PLAN, file, room),
        Err(refusal) => refused(PLAN, refusal),
    }
}
