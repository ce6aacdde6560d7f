//! Damages a decomposition table: a field of a row, or a character of it that has a row itself; or makes a row with something
//! at a border.

use crate::damage::NEAR_LEFT_OUT;
use crate::damaged_table::{BORDER_SCALARS, BORDERS};
use crate::random::Random;
use crate::refusals::MOST_ROWS;
use crate::rows::{block, form_row, three};
use std::ops::Range;

/// where tag, count and characters stand in a row
const TAG: usize = 3;
const COUNT: usize = 4;
const HELD: usize = 5;

/// some fields of some rows: of several faults the first row must be named, and a row that is not there makes none
pub fn damage(random: &mut Random, bytes: &mut [u8], rows: &[Range<usize>]) {
    for _ in 0..random.choice(&[1, 1, 1, 2, 3]) {
        if rows.is_empty() {
            return;
        }
        let row = rows[random.below(rows.len())].clone();
        let other = rows[random.below(rows.len())].start;
        let has_row = bytes[other..other + 3].try_into().expect("three bytes");
        change(random, &mut bytes[row], has_row);
    }
}

fn change(random: &mut Random, row: &mut [u8], has_row: [u8; 3]) {
    let near = row[COUNT].wrapping_add(random.choice(&[1, 255]));
    match random.below(10) {
        0 => row[TAG] = random.choice(&[0, 4, 5, 6, 255]),
        1 => row[COUNT] = random.choice(&[near, near, 0, 18, 19, 255]),
        2 => row[..3].copy_from_slice(&odd_character(random)),
        3 => row[..3].copy_from_slice(&three(0x20)),
        4..6 => put(random, row, |random| odd_character(random)),
        _ => put(random, row, |_| has_row),
    }
}

/// one of the characters that a row holds becomes another
fn put(random: &mut Random, row: &mut [u8], other: impl FnOnce(&mut Random) -> [u8; 3]) {
    let n = (row.len() - HELD) / 3;
    if n > 0 {
        let at = HELD + 3 * random.below(n);
        let c = other(random);
        row[at..at + 3].copy_from_slice(&c);
    }
}

/// at a border of scalar values, or of what number 8 refuses
fn odd_character(random: &mut Random) -> [u8; 3] {
    three(if random.chance(0.5) { random.choice(&BORDER_SCALARS) } else { random.choice(&NEAR_LEFT_OUT) as u32 })
}

/// a row of its own, often with a part at or past its border
pub fn odd(random: &mut Random) -> Vec<u8> {
    let c = match random.below(4) {
        0 => 0x20,
        1 => random.choice(&BORDER_SCALARS),
        2 => random.choice(&NEAR_LEFT_OUT) as u32,
        _ => random.below(0x3100) as u32,
    };
    let n = random.choice(&[1, 1, 2, 3, 17, 18, 19]);
    let mut row = form_row(c, random.choice(&[0, 4, 5, 5, 5, 6]), &vec![0x31; n]);
    if random.chance(0.3) {
        put(random, &mut row, odd_character);
    }
    if random.chance(0.1) {
        row[COUNT] = random.choice(&BORDERS);
    }
    row
}

/// As many rows as are allowed, or one more; one may hold a character that has a row, or would have it.
pub fn full(random: &mut Random) -> Vec<u8> {
    let n = random.choice(&[MOST_ROWS, MOST_ROWS + 1]);
    let character = |k: usize| 0x3400 + k as u32;
    let (at, any) = (random.below(n), random.below(n));
    let nested = random.chance(0.5).then(|| (at, random.choice(&[0, n - 2, n - 1, n, any])));
    let held = |k: usize| nested.filter(|(at, _)| *at == k).map_or(0x31, |(_, other)| character(other));
    block((0..n).map(|k| form_row(character(k), 5, &[held(k)])))
}
