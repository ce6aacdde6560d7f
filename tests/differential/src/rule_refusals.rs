//! What is wrong with a rule table, and where: ticket 1 of docs/DECISIONS.md, and ticket 10 for the longest text, written from their
//! words alone.

use crate::refusals::{MOST_ROWS, headed, number, scalar, small_letters};

const LENGTH: u64 = 20;
const RANGE: u64 = 21;
const LETTER: u64 = 22;
const BYTE: u64 = 23;
const ORDER: u64 = 24;
const ROWS: u64 = 25;

/// bytes of a target, an end-of-syllable target or an alternative
const MOST_TARGET: u8 = 200;

/// number and offset in the table
type Fault = (u64, usize);

/// rows are taken in order, and the first faulty one decides
pub fn rule_fault(table: &[u8]) -> Result<(), Fault> {
    if !headed(table) {
        return Err((LENGTH, 0));
    }
    let (mut at, mut rows, mut last) = (5, 0, Vec::new());
    while at < table.len() {
        // a row too many is named before anything of it is looked at
        if rows == MOST_ROWS {
            return Err((ROWS, at));
        }
        let row = whole_row(table, at).ok_or((LENGTH, at))?;
        let source = row_fault(Fields { row, at: at + 2 })?;
        // character by character, a prefix first
        if source < last {
            return Err((ORDER, at));
        }
        (at, rows, last) = (row.len(), rows + 1, source);
    }
    Ok(())
}

/// the table up to the end of the row at an offset; none where the block ends within the row
fn whole_row(table: &[u8], at: usize) -> Option<&[u8]> {
    let rest = number(table.get(at..at + 2)?) as usize;
    table.get(..at + 2 + rest)
}

/// the row's source; or its first field that is faulty, and else the first byte that is left over
fn row_fault(mut fields: Fields) -> Result<Vec<u32>, Fault> {
    let flags = fields.count(0, 127)?;
    fields.take(2)?;
    let mut source = Vec::new();
    for _ in 0..fields.count(1, 16)? {
        let c = fields.tested(3, LETTER, |c| scalar(number(c)))?;
        source.push(number(c));
    }
    for _ in 0..fields.count(0, 8)? {
        fields.tested(3, LETTER, small_letters)?;
    }
    for bit in [5, 6] {
        if flags >> bit & 1 == 1 {
            fields.text()?;
        }
    }
    for _ in 0..fields.count(0, 8)? {
        fields.text()?;
    }
    if fields.at < fields.row.len() { Err((LENGTH, fields.at)) } else { Ok(source) }
}

/// Takes a row's fields one after another, up to the first that is faulty.
struct Fields<'a> {
    /// the table up to the row's end, so that an offset in it is one in the table
    row: &'a [u8],
    at: usize,
}

impl<'a> Fields<'a> {
    /// a field that the row ends before or within is a length fault, whatever is there of it
    fn take(&mut self, n: usize) -> Result<&'a [u8], Fault> {
        let field = self.row.get(self.at..self.at + n).ok_or((LENGTH, self.at))?;
        self.at += n;
        Ok(field)
    }

    fn tested(&mut self, n: usize, otherwise: u64, right: impl Fn(&[u8]) -> bool) -> Result<&'a [u8], Fault> {
        let at = self.at;
        let field = self.take(n)?;
        if right(field) { Ok(field) } else { Err((otherwise, at)) }
    }

    fn count(&mut self, least: u8, most: u8) -> Result<u8, Fault> {
        Ok(self.tested(1, RANGE, |n| (least..=most).contains(&n[0]))?[0])
    }

    /// each byte of a text is a field by itself
    fn text(&mut self) -> Result<(), Fault> {
        for _ in 0..self.count(0, MOST_TARGET)? {
            self.tested(1, BYTE, |b| (0x20..=0x7E).contains(&b[0]))?;
        }
        Ok(())
    }
}
