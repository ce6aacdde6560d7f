//! Writes the bytes of tables, by document 01's "Table and output bytes".

/// a rule before it is a row
#[derive(Clone, Default)]
pub struct Rule<'a> {
    pub source: &'a [char],
    pub flags: u8,
    pub count: u16,
    pub codes: Vec<&'a str>,
    pub target: Option<Vec<u8>>,
    pub end: Option<Vec<u8>>,
    pub others: Vec<Vec<u8>>,
}

/// texts of rules of over so many bytes are long
pub const LONG_TARGET: usize = 64;
/// bytes of a target, an end-of-syllable target or an alternative
pub const MOST_TARGET: usize = 200;

pub const HAS_TARGET: u8 = 1 << 5;
pub const HAS_END: u8 = 1 << 6;

fn text(row: &mut Vec<u8>, t: &[u8]) {
    row.push(t.len() as u8);
    row.extend(t);
}

pub fn three(n: u32) -> [u8; 3] {
    let [_, a, b, c] = n.to_be_bytes();
    [a, b, c]
}

impl Rule<'_> {
    /// how many of its texts are long, and how many of these are as long as can be
    pub fn long_texts(&self) -> [usize; 2] {
        let sizes = || self.target.iter().chain(&self.end).chain(&self.others).map(Vec::len);
        [sizes().filter(|n| *n > LONG_TARGET).count(), sizes().filter(|n| *n == MOST_TARGET).count()]
    }

    pub fn row(&self) -> Vec<u8> {
        let has = |part: &Option<_>, flag| if part.is_some() { flag } else { 0 };
        let mut row = vec![0, 0, self.flags | has(&self.target, HAS_TARGET) | has(&self.end, HAS_END)];
        row.extend(self.count.to_be_bytes());
        row.push(self.source.len() as u8);
        row.extend(self.source.iter().flat_map(|&c| three(c as u32)));
        row.push(self.codes.len() as u8);
        row.extend(self.codes.iter().flat_map(|code| code.bytes()));
        for t in [&self.target, &self.end].into_iter().flatten() {
            text(&mut row, t);
        }
        row.push(self.others.len() as u8);
        for t in &self.others {
            text(&mut row, t);
        }
        let rest = row.len() - 2;
        set_row_length(&mut row, rest);
        row
    }
}

/// what a rule row says of the length of its rest
pub fn set_row_length(row: &mut [u8], rest: usize) {
    row[..2].copy_from_slice(&(rest as u16).to_be_bytes());
}

/// category, script and flags
pub type Class = (u8, u8, u8);

pub fn class_row(c: u32, (category, script, flags): Class) -> [u8; 6] {
    let [x, y, z] = three(c);
    [x, y, z, category, script, flags]
}

pub fn vowel_row(script: u8, kind: u8, letters: &str) -> Vec<u8> {
    let mut row = vec![script, kind];
    text(&mut row, letters.as_bytes());
    row
}

pub fn form_row(c: u32, tag: u8, held: &[u32]) -> Vec<u8> {
    let mut row = three(c).to_vec();
    row.extend([tag, held.len() as u8]);
    row.extend(held.iter().flat_map(|&c| three(c)));
    row
}

pub fn block<R: AsRef<[u8]>>(rows: impl IntoIterator<Item = R>) -> Vec<u8> {
    let mut bytes = vec![1, 0, 0, 0, 0];
    for row in rows {
        bytes.extend(row.as_ref());
    }
    set_length(&mut bytes);
    bytes
}

/// makes the header's length right again
pub fn set_length(block: &mut [u8]) {
    if block.len() >= 5 {
        let n = (block.len() - 5) as u32;
        block[1..5].copy_from_slice(&n.to_be_bytes());
    }
}
