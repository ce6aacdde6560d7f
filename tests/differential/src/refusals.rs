//! What a call is refused by before its lattice, and where: document 01's "Numbers a call returns" and "Table and output
//! bytes", for the choices and decompositions tickets 2, 3, 5 and 8, and for the longest text ticket 10 (docs/DECISIONS.md), written
//! from their words alone. The rule table's refusals are in rule_refusals.rs.

use crate::call::{Choices, Parts};
use crate::rule_refusals::rule_fault;

pub const MOST_ROWS: usize = 8192;
const MOST_TEXT: usize = 4096;

/// number and place; none where the call goes on to its lattice
pub type Refusal = Option<(u64, u64)>;

pub fn refusal(mode: u8, choices: Choices, [rules, classes, vowels, decompositions, code, text]: Parts) -> Refusal {
    if mode > 3 {
        return Some((1, 0));
    }
    if choices.capitals > 1 {
        return Some((12, 0));
    }
    if choices.o_ang > 1 {
        return Some((15, 0));
    }
    if choices.readings > 1 {
        return Some((17, 0));
    }
    let faulty = |number| move |place: usize| (number, place as u64);
    rule_fault(rules)
        .err()
        .map(|(number, place)| (number, place as u64))
        .or_else(|| class_fault(classes).map(faulty(3)))
        .or_else(|| vowel_fault(vowels).map(faulty(4)))
        .or_else(|| decomposition_fault(decompositions).map(faulty(13)))
        .or_else(|| code_fault(code).map(faulty(5)))
        .or_else(|| text_fault(text))
}

pub fn scalar(value: u32) -> bool {
    value < 0xD800 || (0xE000..0x110000).contains(&value)
}

pub fn small_letters(bytes: &[u8]) -> bool {
    bytes.iter().all(|b| (b'a'..=b'z').contains(b))
}

pub fn number(bytes: &[u8]) -> u32 {
    bytes.iter().fold(0, |n, b| n * 256 + *b as u32)
}

/// whether the header is version 1 and the length of the rest
pub fn headed(table: &[u8]) -> bool {
    table.len() >= 5 && table[0] == 1 && number(&table[1..5]) as usize == table.len() - 5
}

/// The place of the first faulty row of a table without kinds of faults. `row` is given what is left of the block from a row on, and
/// tells the row's length, or none where it is faulty.
fn fault(table: &[u8], mut row: impl FnMut(&[u8]) -> Option<usize>) -> Option<usize> {
    if !headed(table) {
        return Some(0);
    }
    let (mut at, mut rows) = (5, 0);
    while at < table.len() {
        let Some(n) = row(&table[at..]).filter(|_| rows < MOST_ROWS) else {
            return Some(at);
        };
        at += n;
        rows += 1;
    }
    None
}

/// Takes a row's parts from its front.
struct Row<'a>(&'a [u8]);

impl<'a> Row<'a> {
    fn take(&mut self, n: usize) -> Option<&'a [u8]> {
        let (part, rest) = self.0.split_at_checked(n)?;
        self.0 = rest;
        Some(part)
    }
    fn byte(&mut self) -> Option<usize> {
        Some(self.take(1)?[0] as usize)
    }
    fn count(&mut self, least: usize, most: usize) -> Option<usize> {
        self.byte().filter(|n| (least..=most).contains(n))
    }
    fn character(&mut self) -> Option<u32> {
        Some(number(self.take(3)?)).filter(|c| scalar(*c))
    }
}

fn class_fault(table: &[u8]) -> Option<usize> {
    let mut last = None;
    fault(table, |left| {
        let row = left.get(..6)?;
        let c = number(&row[..3]);
        let (category, script, flags) = (row[3], row[4], row[5]);
        let rises = last.is_none_or(|last| last < c);
        let space_right = c != 0x20 || (category, script, flags) == (7, 0, 0);
        let letter = (0x41..=0x5A).contains(&c) || (0x61..=0x7A).contains(&c);
        let right = scalar(c) && category <= 7 && script <= 127;
        last = Some(c);
        (right && rises && space_right && (!letter || category == 1)).then_some(6)
    })
}

fn vowel_fault(table: &[u8]) -> Option<usize> {
    let mut last = 0;
    fault(table, |left| {
        let mut row = Row(left);
        let script = row.count(last + 1, 127)?;
        row.count(0, 1)?;
        let n = row.count(1, 4)?;
        last = script;
        small_letters(row.take(n)?).then_some(3 + n)
    })
}

/// A row of the decomposition table that is right by itself.
struct Form {
    at: usize,
    character: u32,
    holds: Vec<u32>,
}

/// The first row that holds a character with a row; else the first that is wrong by itself. Rows from that one on are not
/// there, so a row may hold their characters.
fn decomposition_fault(table: &[u8]) -> Option<usize> {
    let mut rows: Vec<Form> = Vec::new();
    let wrong = fault(table, |left| {
        let at = table.len() - left.len();
        let mut row = Row(left);
        let character = row.character()?;
        row.count(0, 5)?;
        let n = row.count(1, 18)?;
        let holds = (0..n).map(|_| row.character().filter(|c| !is_left_out(*c))).collect::<Option<Vec<_>>>()?;
        let rises = rows.last().is_none_or(|last| last.character < character);
        // a row too many is not there either
        if !rises || character == 0x20 || rows.len() == MOST_ROWS {
            return None;
        }
        rows.push(Form { at, character, holds });
        Some(5 + 3 * n)
    });
    let has_row = |c: &u32| rows.binary_search_by_key(c, |row| row.character).is_ok();
    rows.iter().find(|row| row.holds.iter().any(has_row)).map(|row| row.at).or(wrong)
}

fn code_fault(code: &[u8]) -> Option<usize> {
    let right = code.is_empty() || (code.len() == 3 && small_letters(code));
    if right { None } else { Some(0) }
}

fn text_fault(text: &[u8]) -> Refusal {
    let (mut at, mut chars, mut left_out) = (0, 0, None);
    while at < text.len() {
        let Some((c, n)) = sequence(&text[at..]) else {
            return Some((6, at as u64));
        };
        if left_out.is_none() && is_left_out(c) {
            left_out = Some((8, chars as u64));
        }
        at += n;
        chars += 1;
    }
    if chars > MOST_TEXT { Some((7, MOST_TEXT as u64)) } else { left_out }
}

fn is_left_out(c: u32) -> bool {
    (0x0F00..=0x0FFF).contains(&c) || (0x2800..=0x28FF).contains(&c) || (0xAC00..=0xD7A3).contains(&c)
}

/// The character in front and its bytes, by the syntax of RFC 3629's section 4.
fn sequence(text: &[u8]) -> Option<(u32, usize)> {
    let (length, second) = match text[0] {
        0x00..=0x7F => return Some((text[0] as u32, 1)),
        0xC2..=0xDF => (2, 0x80..=0xBF),
        0xE0 => (3, 0xA0..=0xBF),
        0xE1..=0xEC | 0xEE..=0xEF => (3, 0x80..=0xBF),
        0xED => (3, 0x80..=0x9F),
        0xF0 => (4, 0x90..=0xBF),
        0xF1..=0xF3 => (4, 0x80..=0xBF),
        0xF4 => (4, 0x80..=0x8F),
        _ => return None,
    };
    let tail = text.get(1..length)?;
    if !second.contains(&tail[0]) || !tail[1..].iter().all(|b| (0x80..=0xBF).contains(b)) {
        return None;
    }
    let head = (text[0] & (0x7F >> length)) as u32;
    Some((tail.iter().fold(head, |c, b| c << 6 | (b & 0x3F) as u32), length))
}
