//! Tokens and bytes that tell a wrong reader from a right one.

use crate::random::Random;
use crate::sheets::Token;

const WORDS: [&[u8]; 6] = [b"true", b"true", b"tru", b"t", b"truex", b"trUe"];
const SIGNS: [&[u8]; 20] = [
    b"(", b")", b"[", b"]", b",", b"!", b"X", b"F", b"G", b"U", b"R", b"&", b"|", b"%", b"\n",
    b" ", b"x", b"True", b"[m0,1]", b"(true)",
];
const ODD_MARKS: [&[u8]; 7] = [b"m", b"m00", b"m01", b"m031", b"m 1", b"m1%", b"M1"];
const GROUPS: [&[u8]; 4] = [b"@0", b"@1", b"@6", b"@7"];
const ODD_GROUPS: [&[u8]; 12] = [
    b"@8", b"@9", b"@", b"@ 0", b"@00", b"@01", b"@10", b"@78", b"@0%", b"@@0", b"@0@1", b"@m0",
];
const ODD_NUMBERS: [&[u8]; 6] = [b"00", b"01", b"0100", b"1 %", b"1%%", b"-1"];

/// On both sides of the limits.
const MARKS: [u128; 9] = [0, 1, 9, 30, 31, 32, 39, 40, 100];
const NUMBERS: [u128; 12] = [0, 9, 32, 99, 100, 101, 200, 356, 998, 999, 1_000, 1_001];

/// A number with one of these added is small again when cut to so many bits.
const TURNS: [u128; 4] = [1 << 8, 1 << 16, 1 << 32, 1 << 64];

const BYTES: &[u8] = b"\n\n   ()[],,!XFGUR&|%@@m00123456789truexM\0\t\r\x80\xff";

pub fn byte(random: &mut Random) -> u8 {
    let any = random.byte();
    match random.percent(15) {
        true => any,
        false => random.pick(BYTES),
    }
}

fn value(random: &mut Random, near: &[u128]) -> u128 {
    let turn = random.pick(&TURNS);
    match random.percent(20) {
        true => random.pick(near) + turn,
        false => random.pick(near),
    }
}

fn mark(random: &mut Random) -> Token {
    match random.percent(25) {
        true => random.pick(&ODD_MARKS).to_vec(),
        false => format!("m{}", value(random, &MARKS)).into_bytes(),
    }
}

fn number(random: &mut Random) -> Token {
    let number = value(random, &NUMBERS);
    match random.below(8) {
        0 => random.pick(&ODD_NUMBERS).to_vec(),
        1..=3 => format!("{number}%").into_bytes(),
        _ => number.to_string().into_bytes(),
    }
}

fn group(random: &mut Random) -> Token {
    match random.percent(50) {
        true => random.pick(&ODD_GROUPS).to_vec(),
        false => random.pick(&GROUPS).to_vec(),
    }
}

pub fn token(random: &mut Random) -> Token {
    match random.below(10) {
        0 => random.pick(&WORDS).to_vec(),
        1..=2 => mark(random),
        3..=4 => number(random),
        5 => group(random),
        _ => random.pick(&SIGNS).to_vec(),
    }
}

/// A token of the same kind as this one: a word, mark, number, group, or any other.
pub fn alike(random: &mut Random, token: &[u8]) -> Token {
    match token[0] {
        b't' => random.pick(&WORDS).to_vec(),
        b'm' => mark(random),
        b'0'..=b'9' => number(random),
        b'@' => group(random),
        _ => random.pick(&SIGNS).to_vec(),
    }
}
