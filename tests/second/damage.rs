//! Damaged bytes.

use crate::random::Random;

/// The three files of one check.
#[derive(Clone)]
pub struct Triple {
    pub floor: Vec<u8>,
    pub plan: Vec<u8>,
    pub rules: Vec<u8>,
}

/// A file cut short, or with a few bytes more.
pub fn cut(random: &mut Random, file: &mut Vec<u8>) {
    if random.chance(70) {
        file.truncate(random.below(file.len() + 1));
    } else {
        file.extend((0..random.range(1, 4)).map(|_| random.below(7) as u8));
    }
}

/// A file filled up to about its greatest length, with whole records or with zeros.
pub fn too_long(random: &mut Random, file: &mut Vec<u8>) {
    let length = random.pick(&[65_536, 65_537, 65_538, 70_000]);
    if random.chance(50) {
        file.resize(length, 0);
        return;
    }
    let unit = file.clone();
    while file.len() < length && !unit.is_empty() {
        file.extend(&unit);
    }
    if random.chance(50) {
        file.truncate(length);
    }
}

const ALPHABET: &[u8] = b" \n!&(),0123456789%FGRUX[]mtrue|m1[(,&U@";

/// Changes some bytes of a file, a sheet mostly within its alphabet.
pub fn damage(random: &mut Random, file: &mut Vec<u8>, sheet: bool) {
    for _ in 0..random.pick(&[1, 1, 1, 2, 3, 8]) {
        let any = (random.next() as u8).max(1);
        let byte = if sheet && random.chance(85) {
            random.pick(ALPHABET)
        } else {
            any
        };
        damage_at(random, file, byte);
    }
}

fn damage_at(random: &mut Random, file: &mut Vec<u8>, byte: u8) {
    let at = random.below(file.len() + 1);
    let inside = at < file.len();
    match random.below(8) {
        0 => file.truncate(at),
        1 | 2 => file.insert(at, byte),
        3 if inside => {
            file.remove(at);
        }
        4 if inside => file[at] ^= 1 << random.below(6),
        5 if inside => {
            let end = (at + random.range(1, 12)).min(file.len());
            let part = file[at..end].to_vec();
            let to = random.below(file.len() + 1);
            file.splice(to..to, part);
        }
        6 if inside => {
            let end = (at + random.range(1, 6)).min(file.len());
            file.drain(at..end);
        }
        _ if inside => file[at] = byte,
        _ => file.push(byte),
    }
}

/// Kinds 8 to 11 may get a meaning later: others take their place.
pub fn without_later_forms(triple: &mut Triple) {
    without_later_kinds(&mut triple.floor);
    without_later_kinds(&mut triple.plan);
}

fn without_later_kinds(file: &mut [u8]) {
    let mut at = 0;
    while at + 4 <= file.len() {
        if (8..=11).contains(&file[at + 2]) && file[at + 3] == 0 {
            file[at + 2] += 100;
        }
        at += 4 + u16::from_le_bytes([file[at], file[at + 1]]) as usize;
    }
}
