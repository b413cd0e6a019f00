//! Damaged files: valid ones with records or bytes changed, cut, added, or piled up to a limit.

use crate::call::Input;
use crate::random::{self, Random};
use crate::reference::{
    LONGEST_FILE, MOST_CARTS, MOST_GROUPS, MOST_LANES, MOST_NARROW, MOST_PLACES,
};

#[derive(Clone)]
struct Record {
    kind: u16,
    body: Vec<u8>,
}

/// The records of a file that holds whole records only.
fn records_of(file: &[u8]) -> Vec<Record> {
    let mut records = Vec::new();
    let mut rest = file;
    while rest.len() >= 4 {
        let length = usize::from(u16::from_le_bytes([rest[0], rest[1]]));
        let kind = u16::from_le_bytes([rest[2], rest[3]]);
        let body = rest[4..4 + length].to_vec();
        records.push(Record { kind, body });
        rest = &rest[4 + length..];
    }
    records
}

fn file_of(records: &[Record]) -> Vec<u8> {
    let mut file = Vec::new();
    for record in records {
        file.extend_from_slice(&(record.body.len() as u16).to_le_bytes());
        file.extend_from_slice(&record.kind.to_le_bytes());
        file.extend_from_slice(&record.body);
    }
    file
}

/// Where the records start, going by their length fields as far as they lead.
fn starts_of(file: &[u8]) -> Vec<usize> {
    let mut starts = Vec::new();
    let mut start = 0;
    while start + 4 <= file.len() {
        starts.push(start);
        start += 4 + usize::from(u16::from_le_bytes([file[start], file[start + 1]]));
    }
    starts
}

/// Kinds 8 to 11 are reserved: wherever chance made one, another unknown kind takes its place.
fn avoid_reserved_kinds(file: &mut [u8]) {
    for start in starts_of(file) {
        if (8..=11).contains(&file[start + 2]) && file[start + 3] == 0 {
            file[start + 2] += 12;
        }
    }
}

fn any_kind(random: &mut Random) -> u16 {
    let large = random.between(12, 65_535) as u16;
    let unknown = random.pick(&[0, 12, 13, 255, 256, 257, 258, 259, 260, 261, 65_535, large]);
    let known = random.between(1, 7) as u16;
    random.pick(&[known, unknown])
}

/// A byte near the number of places, or near the highest class, or any.
fn telling_byte(random: &mut Random, places: usize) -> u8 {
    let near = (places + random.below(3)).wrapping_sub(1) as u8;
    let any = random.byte();
    random.pick(&[near, near, near, 7, 8, 0, 255, any])
}

fn any_record(random: &mut Random, places: usize) -> Record {
    let kind = any_kind(random);
    let usual = match kind {
        1 => 4,
        2 => 3,
        3 => 2,
        4 => 6,
        6 => 1,
        7 => 4,
        _ => random.below(6),
    };
    let odd = random.below(8);
    let length = random.pick(&[usual, usual, usual, odd]);
    let mut body = Vec::new();
    for _ in 0..length {
        body.push(telling_byte(random, places));
    }
    Record { kind, body }
}

/// A record's position, often the first or the last, so that several faults meet in one record.
fn position(random: &mut Random, records: usize) -> usize {
    match random.below(4) {
        0 => 0,
        1 => records - 1,
        _ => random.below(records),
    }
}

fn damage_body_length(random: &mut Random, body: &mut Vec<u8>) {
    match random.below(4) {
        0 => body.clear(),
        1 => body.truncate(body.len().saturating_sub(1)),
        2 => body.push(random.byte()),
        _ => body.resize(random.pick(&[1, 2, 3, 4, 5, 6, 7, 255, 256, 258, 260]), 0),
    }
}

fn damage_body_byte(random: &mut Random, body: &mut [u8], places: usize) {
    if !body.is_empty() {
        let at = random.below(body.len());
        body[at] = telling_byte(random, places);
    }
}

/// Values on both sides of the limits of h, l and d.
fn damage_head(random: &mut Random, body: &mut [u8]) {
    if body.len() != 6 {
        return;
    }
    let h = u16::from_le_bytes([body[0], body[1]]);
    let (at, value) = match random.below(3) {
        0 => (0, random.pick(&[0, 1, 63, 64, 65, 128, 256, 257, 65_535])),
        1 => (
            2,
            random.pick(&[h.wrapping_sub(1), h, h, h.wrapping_add(1), h ^ 256]),
        ),
        _ => (4, random.pick(&[15, 16, 17, 32, 255, 256, 272, 65_535])),
    };
    body[at..at + 2].copy_from_slice(&value.to_le_bytes());
}

/// Repeats a record until its kind stands at its limit or one above, and spoils the last at times.
fn pile_up(random: &mut Random, records: &mut Vec<Record>, places: usize) {
    let at = position(random, records.len());
    let sample = records[at].clone();
    let have = records.iter().filter(|r| r.kind == sample.kind).count();
    let limit = match sample.kind {
        1 => MOST_PLACES,
        2 => MOST_LANES,
        3 => MOST_CARTS,
        6 => MOST_NARROW,
        7 => MOST_GROUPS,
        _ => have,
    };
    let want = limit + random.below(2);
    let copies = vec![sample; want.saturating_sub(have)];
    let last = at + copies.len();
    records.splice(at..at, copies);
    match random.below(4) {
        0 => damage_body_length(random, &mut records[last].body),
        1 => damage_body_byte(random, &mut records[last].body, places),
        _ => (),
    }
}

/// Gives a group another set of carts, or adds one behind the last record, with an absent cart in most of them.
fn damage_group(random: &mut Random, records: &mut Vec<Record>) {
    let carts = records.iter().filter(|record| record.kind == 3).count();
    let body = random::group_near(random, carts).to_le_bytes().to_vec();
    let groups = (0..records.len()).filter(|&at| records[at].kind == 7);
    let groups: Vec<usize> = groups.collect();
    match groups.is_empty() || random.percent(40) {
        true => records.push(Record { kind: 7, body }),
        false => records[random.pick(&groups)].body = body,
    }
}

fn damage_records(random: &mut Random, records: &mut Vec<Record>, places: usize) {
    if records.is_empty() {
        records.push(any_record(random, places));
        return;
    }
    let at = position(random, records.len());
    let other = position(random, records.len());
    match random.below(34) {
        0..=2 => drop(records.remove(at)),
        3..=5 => records.insert(other, records[at].clone()),
        6 => records.push(records[at].clone()),
        7..=9 => records.swap(at, other),
        10..=11 => records.swap(at, at.saturating_sub(1)),
        12..=14 => records[at].kind = any_kind(random),
        15..=18 => damage_body_length(random, &mut records[at].body),
        19..=23 => damage_body_byte(random, &mut records[at].body, places),
        24..=25 => records.insert(at, any_record(random, places)),
        26 => pile_up(random, records, places),
        27..=30 => damage_group(random, records),
        _ => damage_head(random, &mut records[0].body),
    }
}

/// Changes one byte, often one of a record's length or kind.
fn damage_byte(random: &mut Random, file: &mut [u8], places: usize) {
    let starts = starts_of(file);
    if starts.is_empty() {
        return;
    }
    let header = starts[position(random, starts.len())] + random.below(4);
    let anywhere = random.below(file.len());
    let at = random.pick(&[header, header, anywhere]);
    file[at] = match random.below(5) {
        0 => file[at].wrapping_add(1),
        1 => file[at].wrapping_sub(1),
        2 => file[at] ^ 1 << random.below(8),
        3 => telling_byte(random, places),
        _ => random.byte(),
    };
}

/// A length to cut a file to: at a record's start, in its header, in its body, or anywhere.
fn cut(random: &mut Random, file: &[u8]) -> usize {
    let mut ends = starts_of(file);
    ends.push(file.len());
    let end = ends[position(random, ends.len())];
    let cut = match random.below(6) {
        0 => end,
        1 | 2 => end + random.between(1, 4),
        3 | 4 => end.saturating_sub(random.between(1, 3)),
        _ => random.below(file.len() + 1),
    };
    cut.min(file.len())
}

fn extend(random: &mut Random, file: &mut Vec<u8>, places: usize) {
    let more = match random.below(4) {
        0 => vec![0; random.between(1, 8)],
        1 => random
            .pick(&[
                [4, 0, 1, 0],
                [2, 0, 3, 0],
                [4, 0, 5, 0],
                [1, 0, 6, 0],
                [4, 0, 7, 0],
            ])
            .to_vec(),
        2 => file_of(&[any_record(random, places)]),
        _ => {
            let length = random.between(1, 6);
            random.bytes(length)
        }
    };
    file.extend_from_slice(&more);
}

/// A valid file, damaged in one to several ways.
pub fn damaged(random: &mut Random, file: &[u8], places: usize) -> Input {
    let mut records = records_of(file);
    for _ in 0..random.pick(&[0, 1, 1, 1, 1, 2, 2, 3]) {
        damage_records(random, &mut records, places);
    }
    let mut bytes = file_of(&records);
    let way = random.below(10);
    if way < 3 {
        damage_byte(random, &mut bytes, places);
    }
    if way == 3 {
        extend(random, &mut bytes, places);
    }
    avoid_reserved_kinds(&mut bytes);
    // What was cut off stays in memory behind the lent part: a reader must not reach for it.
    let behind = match way {
        4 => bytes.split_off(cut(random, &bytes)),
        _ => Vec::new(),
    };
    Input { bytes, behind }
}

/// Records of chance alone.
pub fn soup(random: &mut Random) -> Input {
    let mut records = Vec::new();
    for _ in 0..random.below(6) {
        records.push(any_record(random, 2));
    }
    Input::from(file_of(&records))
}

/// A file at the greatest length or a little to either side of it, seldom valid.
pub fn longest(random: &mut Random, file: &[u8]) -> Input {
    let far = random.between(LONGEST_FILE + 1, LONGEST_FILE + 9_000);
    let near = random.between(LONGEST_FILE - 1, LONGEST_FILE + 2);
    let length = random.pick(&[near, near, LONGEST_FILE, LONGEST_FILE + 1, far]);
    let mut bytes = file.to_vec();
    match random.below(3) {
        // One more record that fills the file to its end.
        0 => {
            let body = (length - bytes.len() - 4).min(65_535) as u16;
            bytes.extend_from_slice(&body.to_le_bytes());
            bytes.extend_from_slice(&any_kind(random).to_le_bytes());
        }
        1 => bytes = file.iter().cycle().take(length).copied().collect(),
        _ => bytes = random.bytes(length),
    }
    bytes.resize(length, 0);
    avoid_reserved_kinds(&mut bytes);
    Input::from(bytes)
}
