//! Damages a rule row: one field or two, of any kind, its end or its length; or makes one with a part at its border.

use crate::damaged_table::{BORDER_SCALARS, BORDERS};
use crate::random::Random;
use crate::rows::{HAS_END, HAS_TARGET, Rule, set_row_length, three};

#[derive(Clone, Copy, PartialEq)]
enum Kind {
    Flags,
    Restriction,
    SourceCount,
    Character,
    CodeCount,
    Code,
    TextLength,
    TextByte,
    OtherCount,
}

impl Kind {
    fn size(self) -> usize {
        match self {
            Kind::Restriction => 2,
            Kind::Character | Kind::Code => 3,
            _ => 1,
        }
    }
}

/// a row's fields with their offsets, as far as they can be told; the last may be cut
struct Fields<'a> {
    row: &'a [u8],
    at: usize,
    found: Vec<(Kind, usize)>,
}

impl Fields<'_> {
    fn of(row: &[u8]) -> Vec<(Kind, usize)> {
        let mut fields = Fields { row, at: 2, found: Vec::new() };
        fields.find();
        fields.found
    }

    fn find(&mut self) -> Option<()> {
        let flags = self.next(Kind::Flags)?;
        self.next(Kind::Restriction)?;
        self.list(Kind::SourceCount, |fields| fields.next(Kind::Character).map(drop))?;
        self.list(Kind::CodeCount, |fields| fields.next(Kind::Code).map(drop))?;
        for has in [HAS_TARGET, HAS_END] {
            if flags & has > 0 {
                self.text()?;
            }
        }
        self.list(Kind::OtherCount, Self::text)
    }

    /// the first byte of the field that comes next
    fn next(&mut self, kind: Kind) -> Option<u8> {
        let first = *self.row.get(self.at)?;
        self.found.push((kind, self.at));
        self.at += kind.size();
        Some(first)
    }

    /// a count, and so many of what is counted
    fn list(&mut self, count: Kind, mut one: impl FnMut(&mut Self) -> Option<()>) -> Option<()> {
        let n = self.next(count)?;
        (0..n).try_for_each(|_| one(self))
    }

    fn text(&mut self) -> Option<()> {
        self.list(Kind::TextLength, |fields| fields.next(Kind::TextByte).map(drop))
    }
}

/// one field or two, the end, or both: of several faults in a row the first must be named
pub fn damage(random: &mut Random, row: &mut Vec<u8>) {
    let fields = Fields::of(row);
    let changed = random.choice(&[0, 1, 1, 1, 2, 2]);
    for _ in 0..changed {
        if let Some((kind, at)) = any_field(random, &fields) {
            change(random, kind, &mut row[at..]);
        }
    }
    if changed == 0 || random.chance(0.3) {
        change_end(random, row, &fields);
    }
}

/// each kind that is there is as likely as any other
fn any_field(random: &mut Random, fields: &[(Kind, usize)]) -> Option<(Kind, usize)> {
    let mut kinds: Vec<Kind> = Vec::new();
    for (kind, _) in fields {
        if !kinds.contains(kind) {
            kinds.push(*kind);
        }
    }
    if kinds.is_empty() {
        return None;
    }
    let chosen = random.choice(&kinds);
    let of_kind: Vec<_> = fields.iter().copied().filter(|(kind, _)| *kind == chosen).collect();
    Some(random.choice(&of_kind))
}

/// `field` goes on to the row's end
fn change(random: &mut Random, kind: Kind, field: &mut [u8]) {
    let near = field[0].wrapping_add(random.choice(&[1, 255]));
    match kind {
        Kind::Flags => field[0] ^= 1 << random.choice(&[0, 5, 6, 7, 7, 7]),
        Kind::Restriction => field[0] = random.byte(),
        Kind::SourceCount => field[0] = random.choice(&[near, near, 0, 0, 16, 17, 255]),
        Kind::CodeCount | Kind::OtherCount => field[0] = random.choice(&[near, near, 0, 8, 9, 255]),
        Kind::TextLength => field[0] = random.choice(&[near, near, 0, 64, 65, 200, 201, 255]),
        Kind::TextByte => field[0] = random.choice(&[0, 0x1F, 0x20, 0x7E, 0x7F, 0x80, 0xFF]),
        Kind::Character => {
            let scalar = three(random.choice(&BORDER_SCALARS));
            field.iter_mut().zip(scalar).for_each(|(byte, new)| *byte = new);
        }
        Kind::Code => {
            let letter = random.below(field.len().min(3));
            field[letter] = random.choice(b"`{@AZ[ 1\0\xFFaz");
        }
    }
}

/// Fewer bytes or more, of which the length mostly tells; or another length.
fn change_end(random: &mut Random, row: &mut Vec<u8>, fields: &[(Kind, usize)]) {
    match random.below(5) {
        0 | 1 => cut(random, row, fields),
        2 => row.extend((0..random.between(1, 4)).map(|_| random.choice(&BORDERS))),
        _ => return change_length(random, row),
    }
    let rest = row.len() - 2;
    if random.chance(0.9) {
        set_row_length(row, rest);
    }
}

/// the row ends before a field or within it
fn cut(random: &mut Random, row: &mut Vec<u8>, fields: &[(Kind, usize)]) {
    if let Some((kind, at)) = any_field(random, fields) {
        row.truncate(at + random.below(kind.size()));
    }
}

fn change_length(random: &mut Random, row: &mut [u8]) {
    let rest = row.len() - 2;
    let any = random.below(2 * rest + 1);
    set_row_length(row, random.choice(&[any, any, any, rest + 1, rest.saturating_sub(1), 0, 0xFFFF]));
}

/// a rule with the source of another, often one part at or past its border, and often damaged besides
pub fn odd_rule(random: &mut Random, like: &[u8]) -> Vec<u8> {
    let mut source = source_of(like);
    let last = *source.last().unwrap_or(&'\u{10FFFF}');
    source.resize(source.len().max(1), last);
    let part = random.below(12);
    if part == 0 {
        source.resize(random.choice(&[15, 16, 17, 18]), last);
    }
    let mut rule = Rule {
        source: &source,
        flags: random.below(32) as u8,
        codes: vec!["abc"; random.below(3)],
        target: random.chance(0.7).then(|| b"ka".to_vec()),
        end: random.chance(0.5).then(|| b"k".to_vec()),
        others: vec![b"w".to_vec(); random.below(3)],
        ..Rule::default()
    };
    match part {
        1 => rule.codes = vec!["abc"; random.choice(&[7, 8, 9, 255])],
        2 => rule.codes = vec!["abc", random.choice(&["ABC", "ab1", "`bc", "ab{", "a c", "zzz", "aaa"])],
        3 => rule.target = Some(odd_target(random)),
        4 => rule.end = Some(odd_target(random)),
        5 => rule.others = vec![b"w".to_vec(), odd_target(random)],
        6 => rule.others = vec![b"w".to_vec(); random.choice(&[7, 8, 9, 255])],
        7 => rule.flags = random.choice(&[0, 31, 128, 128 | 31, HAS_TARGET, HAS_END]),
        _ => {}
    }
    let mut row = rule.row();
    if random.chance(0.6) {
        damage(random, &mut row);
    }
    row
}

/// a row's source, without what is no character
fn source_of(row: &[u8]) -> Vec<char> {
    let count = row.get(5).map_or(0, |n| *n as usize);
    let scalars = row.get(6..6 + 3 * count).unwrap_or(&[]).chunks(3);
    scalars.filter_map(|c| char::from_u32((c[0] as u32) << 16 | (c[1] as u32) << 8 | c[2] as u32)).collect()
}

fn odd_target(random: &mut Random) -> Vec<u8> {
    let n = random.choice(&[0, 1, 3, 64, 65, 199, 200, 200, 201, 201, 255]);
    let mut target = vec![b'x'; n];
    if n > 0 && random.chance(0.5) {
        target[random.below(n)] = random.choice(&[0, 0x1F, 0x20, 0x7E, 0x7F, 0x80, 0xFF]);
    }
    target
}
