//! Damages a table: bytes, rows, or a row of its own with something at a border.

use crate::damaged_form;
use crate::damaged_rule::{damage, odd_rule};
use crate::random::Random;
use crate::refusals::MOST_ROWS;
use crate::rows::{Rule, block, class_row, set_length, vowel_row};
use std::ops::Range;

/// the borders of the fields of all rows, on both sides
pub const BORDERS: [u8; 29] =
    [0, 1, 2, 3, 4, 5, 7, 8, 9, 12, 15, 16, 17, 31, 32, 63, 64, 65, 96, 97, 122, 123, 126, 127, 128, 199, 200, 201, 255];
pub const BORDER_SCALARS: [u32; 9] = [0, 0xD7FF, 0xD800, 0xDBFF, 0xDFFF, 0xE000, 0x10FFFF, 0x110000, 0xFFFFFF];

const RULES: usize = 0;
const CLASSES: usize = 1;
const VOWELS: usize = 2;
pub const DECOMPOSITIONS: usize = 3;

/// `kind` is 0 for rules, 1 for classes, 2 for vowels, 3 for decompositions
pub fn table(random: &mut Random, kind: usize, bytes: &mut Vec<u8>) {
    if kind != VOWELS && random.chance(0.002) {
        *bytes = full(random, kind);
        return;
    }
    let rows = rows(kind, bytes);
    // a rule row has more fields than the others, and its faults have kinds; and a decomposition looks at all other rows
    match random.below(if kind == RULES || kind == DECOMPOSITIONS { 24 } else { 12 }) {
        0..4 => change(random, bytes, 5),
        4 => change(random, bytes, 0),
        5 => drop(bytes.split_off(bytes.len() - random.below(bytes.len().min(12)))),
        6 => cut(random, bytes),
        7 => add(random, bytes),
        8 => swap(random, bytes, &rows),
        9 => repeat(random, bytes, &rows),
        10 => take_out(random, bytes, &rows),
        11..18 if kind == RULES => change_row(random, bytes, &rows, damage),
        11..20 if kind == DECOMPOSITIONS => damaged_form::damage(random, bytes, &rows),
        _ => put_in(random, kind, bytes, &rows),
    }
    if random.chance(0.85) {
        set_length(bytes);
    }
}

/// where its rows lie, as far as they can be told
fn rows(kind: usize, bytes: &[u8]) -> Vec<Range<usize>> {
    let mut rows = Vec::new();
    let mut at = 5;
    while let Some(left) = bytes.get(at..).filter(|left| left.len() > 2) {
        let n = match kind {
            RULES => 2 + left[0] as usize * 256 + left[1] as usize,
            CLASSES => 6,
            VOWELS => 3 + left[2] as usize,
            _ => 5 + 3 * *left.get(4).unwrap_or(&0) as usize,
        };
        if n > left.len() {
            break;
        }
        rows.push(at..at + n);
        at += n;
    }
    rows
}

/// a byte from `from` on becomes another
fn change(random: &mut Random, bytes: &mut [u8], from: usize) {
    if bytes.len() <= from {
        return;
    }
    let at = from + random.below(if from == 0 { bytes.len().min(5) } else { bytes.len() - from });
    bytes[at] = match random.below(4) {
        0 => bytes[at] ^ (1 << random.below(8)),
        1 => bytes[at].wrapping_add(random.choice(&[1, 255])),
        2 => random.choice(&BORDERS),
        _ => random.byte(),
    };
}

fn cut(random: &mut Random, bytes: &mut Vec<u8>) {
    let at = random.below(bytes.len());
    let end = (at + random.between(1, 8)).min(bytes.len());
    bytes.drain(at..end);
}

fn add(random: &mut Random, bytes: &mut Vec<u8>) {
    let at = if random.chance(0.5) { bytes.len() } else { random.below(bytes.len()) };
    let more: Vec<u8> = (0..random.between(1, 7)).map(|_| random.choice(&BORDERS)).collect();
    bytes.splice(at..at, more);
}

fn swap(random: &mut Random, bytes: &mut Vec<u8>, rows: &[Range<usize>]) {
    if rows.len() < 2 {
        return;
    }
    let k = random.below(rows.len() - 1);
    let (first, second) = (rows[k].clone(), rows[k + 1].clone());
    let swapped = [&bytes[second.clone()], &bytes[first.clone()]].concat();
    bytes.splice(first.start..second.end, swapped);
}

/// a row again, behind itself or at the end; a rule may stand twice, a class and a vowel may not
fn repeat(random: &mut Random, bytes: &mut Vec<u8>, rows: &[Range<usize>]) {
    if rows.is_empty() {
        return;
    }
    let row = rows[random.below(rows.len())].clone();
    let at = if random.chance(0.5) { row.end } else { bytes.len() };
    let again = bytes[row].to_vec();
    bytes.splice(at..at, again);
}

fn take_out(random: &mut Random, bytes: &mut Vec<u8>, rows: &[Range<usize>]) {
    if !rows.is_empty() {
        bytes.drain(rows[random.below(rows.len())].clone());
    }
}

/// one of its rows becomes another
pub fn change_row(
    random: &mut Random,
    bytes: &mut Vec<u8>,
    rows: &[Range<usize>],
    damage: impl FnOnce(&mut Random, &mut Vec<u8>),
) {
    if rows.is_empty() {
        return;
    }
    let place = rows[random.below(rows.len())].clone();
    let mut row = bytes[place.clone()].to_vec();
    damage(random, &mut row);
    bytes.splice(place, row);
}

/// a row of its own, mostly with something at a border, where its order allows it
fn put_in(random: &mut Random, kind: usize, bytes: &mut Vec<u8>, rows: &[Range<usize>]) {
    let k = random.below(rows.len() + 1);
    let row = match kind {
        RULES => odd_rule(random, rows.get(k).map_or(&[], |row| &bytes[row.clone()])),
        CLASSES => odd_class(random),
        VOWELS => odd_vowel(random),
        _ => damaged_form::odd(random),
    };
    let behind = |at: &&Range<usize>| bytes[(*at).clone()] > row[..];
    let at = match kind {
        RULES => rows.get(k).map(|row| row.end),
        _ => rows.iter().find(behind).map(|row| row.start),
    };
    let at = at.unwrap_or(bytes.len());
    bytes.splice(at..at, row);
}

fn odd_class(random: &mut Random) -> Vec<u8> {
    let c = match random.below(4) {
        0 => 0x20,
        1 => random.choice(b"@A[Z`a{zmM") as u32,
        2 => random.choice(&BORDER_SCALARS),
        _ => random.below(0x3100) as u32,
    };
    let category = random.choice(&[0, 1, 1, 1, 2, 3, 4, 5, 6, 7, 7, 8, 255]);
    let script = random.choice(&[0, 0, 0, 5, 127, 128, 255]);
    let flags = random.choice(&[0, 0, 0, 1, 64, 127, 128, 255]);
    class_row(c, (category, script, flags)).to_vec()
}

fn odd_vowel(random: &mut Random) -> Vec<u8> {
    let script = random.choice(&[0, 1, 4, 7, 10, 126, 127, 128, 255]);
    let letters = random.choice(&["a", "z", "abcd", "", "abcde", "A", "a`", "{", "a b", "1"]);
    vowel_row(script, random.choice(&[0, 0, 1, 1, 2, 255]), letters)
}

/// As many rows as are allowed, or one more; the last may be damaged, out of order, or cut by the block's end.
fn full_rules(random: &mut Random) -> Vec<u8> {
    let row = |source: char| Rule { source: &[source], ..Rule::default() }.row();
    let like = row('b');
    let mut last = match random.below(4) {
        0 => row('c'),
        1 => odd_rule(random, &like),
        2 => row('a'),
        _ => like.clone(),
    };
    if random.chance(0.2) {
        last.truncate(random.between(1, last.len()));
    }
    let others = random.choice(&[MOST_ROWS - 1, MOST_ROWS]);
    block(std::iter::repeat_n(like, others).chain([last]))
}

fn full(random: &mut Random, kind: usize) -> Vec<u8> {
    match kind {
        RULES => full_rules(random),
        CLASSES => full_classes(random),
        _ => damaged_form::full(random),
    }
}

/// as many rows as are allowed, or one more
fn full_classes(random: &mut Random) -> Vec<u8> {
    let n = random.choice(&[MOST_ROWS, MOST_ROWS + 1]);
    block((0..n as u32).map(|k| class_row(0x4E00 + k, (0, 0, 0))))
}
