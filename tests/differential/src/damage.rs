//! Damages a call: mode or a choice, a table, the code or the text. What it leaves may still be valid.

use crate::call::{Choices, PARTS};
use crate::damaged_table::{DECOMPOSITIONS, table};
use crate::random::Random;
use crate::texts::LONG_TEXT;
use oracle::MOST_CHARACTERS;

/// tables, code and text, to be changed in place
pub type Damaged = [Vec<u8>; PARTS.len()];

pub fn damage(random: &mut Random, mode: &mut u8, choices: &mut Choices, parts: &mut Damaged) {
    match random.below(102) {
        0..3 => *mode = random.between(4, 255) as u8,
        3..5 => choices.capitals = random.between(2, 255) as u8,
        5..7 => choices.o_ang = random.between(2, 255) as u8,
        7..9 => choices.readings = random.between(2, 255) as u8,
        9..35 => table(random, 0, &mut parts[0]),
        35..46 => table(random, 1, &mut parts[1]),
        46..55 => table(random, 2, &mut parts[2]),
        55..75 => table(random, DECOMPOSITIONS, &mut parts[3]),
        75..79 => code(random, &mut parts[4]),
        79..94 => text(random, &mut parts[5]),
        // two at once: the one that is looked for first is named
        _ => {
            damage(random, mode, choices, parts);
            damage(random, mode, choices, parts);
        }
    }
}

fn code(random: &mut Random, code: &mut Vec<u8>) {
    *code = match random.below(4) {
        0 => (0..random.choice(&[1, 2, 4, 6])).map(|_| b'a' + random.below(26) as u8).collect(),
        1 => (0..3).map(|_| random.choice(b"abz`{AZ1 ")).collect(),
        2 => (0..3).map(|_| random.byte()).collect(),
        _ => random.choice(&["zzz", "aaa", "", "ab\0", "a-b", "éa"]).as_bytes().to_vec(),
    };
}

/// overlong, surrogates, above U+10FFFF, cut short, stray; and some that are right
const SEQUENCES: [&[u8]; 46] = [
    b"\x80",
    b"\xBF",
    b"\xC0\x80",
    b"\xC0\xAF",
    b"\xC1\xBF",
    b"\xC2",
    b"\xC2\x41",
    b"\xC2\xC2\x80",
    b"\xDF",
    b"\xDF\xFF",
    b"\xE0\x80\x80",
    b"\xE0\x9F\xBF",
    b"\xE0\xA0",
    b"\xE0",
    b"\xE0\xA0\x41",
    b"\xE1\x80",
    b"\xE1\x41\x80",
    b"\xE1\xC2\x80",
    b"\xED\xA0\x80",
    b"\xED\xAF\xBF",
    b"\xED\xB0\x80",
    b"\xED\xBF\xBF",
    b"\xEF\xBF",
    b"\xF0\x80\x80\x80",
    b"\xF0\x8F\xBF\xBF",
    b"\xF0\x90\x80",
    b"\xF0\x90",
    b"\xF0",
    b"\xF0\x90\x80\x41",
    b"\xF0\x41\x80\x80",
    b"\xF4\x90\x80\x80",
    b"\xF4\xBF\xBF\xBF",
    b"\xF4\x8F\xBF",
    b"\xF5\x80\x80\x80",
    b"\xF8\x88\x80\x80\x80",
    b"\xFC\x84\x80\x80\x80\x80",
    b"\xFE",
    b"\xFF",
    b"\x7F",
    b"\xC2\x80",
    b"\xE0\xA0\x80",
    b"\xED\x9F\xBF",
    b"\xEE\x80\x80",
    b"\xEF\xBB\xBF",
    b"\xF0\x90\x80\x80",
    b"\xF4\x8F\xBF\xBF",
];
/// both sides of each border of what is left out
pub const NEAR_LEFT_OUT: [char; 15] = [
    '\u{EFF}', '\u{F00}', '\u{F40}', '\u{FFF}', '\u{1000}', '\u{27FF}', '\u{2800}', '\u{2855}', '\u{28FF}', '\u{2900}',
    '\u{ABFF}', '\u{AC00}', '\u{C544}', '\u{D7A3}', '\u{D7A4}',
];

fn text(random: &mut Random, text: &mut Vec<u8>) {
    match random.below(20) {
        0..8 => {
            let at = boundary(random, text);
            let sequence = random.choice(&SEQUENCES);
            text.splice(at..at, sequence.iter().copied());
        }
        8..11 => change_any(random, text),
        11 => drop(text.pop()),
        12..14 => lengthen(random, text),
        _ => {
            let at = boundary(random, text);
            let c = random.choice(&NEAR_LEFT_OUT);
            text.splice(at..at, c.encode_utf8(&mut [0; 4]).bytes());
        }
    }
}

/// where a character begins, or the end
fn boundary(random: &mut Random, text: &[u8]) -> usize {
    let mut at = random.below(text.len() + 1);
    while at < text.len() && text[at] & 0xC0 == 0x80 {
        at += 1;
    }
    at
}

fn change_any(random: &mut Random, text: &mut [u8]) {
    if !text.is_empty() {
        text[random.below(text.len())] = random.byte();
    }
}

/// over 4,096 characters; rarely just so many, which the Rust takes its time for, or about 512
fn lengthen(random: &mut Random, text: &mut Vec<u8>) {
    let n = text.iter().filter(|b| **b & 0xC0 != 0x80).count();
    let wanted = match random.below(300) {
        0 => MOST_CHARACTERS,
        1..15 => random.choice(&[LONG_TEXT, LONG_TEXT + 1]),
        _ => random.choice(&[MOST_CHARACTERS + 1, MOST_CHARACTERS + 1, MOST_CHARACTERS + 2, MOST_CHARACTERS + 500]),
    };
    for _ in n..wanted {
        text.extend(random.choice(&["a", "q", "é", "क"]).bytes());
    }
}
