//! Reads the four tables; none where one is faulty (where it is, is not asked here).

use crate::dicts::{AbugidaRuleType, Data, Rule};
use crate::left_out;

/// The most bytes of a target, an end-of-syllable target or an alternative.
const MOST_TARGET: usize = 200;

pub struct Reader<'a> {
    bytes: &'a [u8],
    at: usize,
}
impl<'a> Reader<'a> {
    pub fn new(bytes: &'a [u8]) -> Self {
        Reader { bytes, at: 0 }
    }
    pub fn take(&mut self, n: usize) -> Option<&'a [u8]> {
        let part = self.bytes.get(self.at..self.at.checked_add(n)?)?;
        self.at += n;
        Some(part)
    }
    pub fn number(&mut self, n: usize) -> Option<u32> {
        Some(self.take(n)?.iter().fold(0u32, |a, &x| a << 8 | x as u32))
    }
    pub fn done(&self) -> bool {
        self.at == self.bytes.len()
    }
    /// the rows of a block: version 1, the length of all that follows
    fn block(bytes: &'a [u8]) -> Option<Self> {
        let mut r = Reader::new(bytes);
        (r.number(1)? == 1 && r.number(4)? as usize == bytes.len() - 5).then_some(r)
    }
    fn target(&mut self) -> Option<String> {
        let n = self.number(1)? as usize;
        let t = self.take(n)?;
        (n <= MOST_TARGET && t.iter().all(|c| (0x20..=0x7e).contains(c))).then(|| String::from_utf8(t.to_vec()).unwrap())
    }
    fn letters(&mut self, n: usize) -> Option<String> {
        let t = self.take(n)?;
        t.iter().all(u8::is_ascii_lowercase).then(|| String::from_utf8(t.to_vec()).unwrap())
    }
    fn count(&mut self, most: u32) -> Option<u32> {
        self.number(1).filter(|n| *n <= most)
    }
    fn character(&mut self) -> Option<char> {
        char::from_u32(self.number(3)?)
    }
    /// a count of at least one, and as many characters
    fn characters(&mut self, most: u32) -> Option<Vec<char>> {
        let n = self.count(most).filter(|n| *n > 0)?;
        (0..n).map(|_| self.character()).collect()
    }
}

pub fn read([rules, classes, vowels, decompositions]: [&[u8]; 4]) -> Option<Data> {
    let mut data = Data::default();
    read_rules(&mut data, rules)?;
    read_classes(&mut data, classes)?;
    read_vowels(&mut data, vowels)?;
    read_decompositions(&mut data, decompositions)?;
    Some(data)
}

fn read_rules(data: &mut Data, bytes: &[u8]) -> Option<()> {
    let mut r = Reader::block(bytes)?;
    let mut last: Vec<char> = Vec::new();
    let mut rows = 0;
    while !r.done() {
        let n = r.number(2)? as usize;
        let mut row = Reader::new(r.take(n)?);
        let (source, rule) = read_rule(&mut row)?;
        rows += 1;
        if !row.done() || source < last || rows > 8192 {
            return None;
        }
        for i in 1..=source.len() {
            data.prefixes.insert(source[..i].iter().collect());
        }
        data.rules.entry(source.iter().collect()).or_default().push(rule);
        last = source;
    }
    Some(())
}

fn read_rule(row: &mut Reader) -> Option<(Vec<char>, Rule)> {
    let flags = row.number(1).filter(|f| *f < 128)?;
    let flag = |bit: u32| flags >> bit & 1 == 1;
    let n_restr = row.number(2)?;
    let source = row.characters(16)?;
    let mut lcodes = Vec::new();
    for _ in 0..row.count(8)? {
        lcodes.push(row.letters(3)?);
    }
    let t = if flag(5) { Some(row.target()?) } else { None };
    let t_at_end_of_syllable = if flag(6) { Some(row.target()?) } else { None };
    let mut t_alts = Vec::new();
    for _ in 0..row.count(8)? {
        t_alts.push(row.target()?);
    }
    let rule = Rule {
        t,
        lcodes,
        use_only_at_start_of_word: flag(0),
        dont_use_at_start_of_word: flag(1),
        use_only_at_end_of_word: flag(2),
        dont_use_at_end_of_word: flag(3),
        use_only_for_whole_word: flag(4),
        n_restr,
        t_alts,
        t_at_end_of_syllable,
    };
    Some((source, rule))
}

fn read_classes(data: &mut Data, bytes: &[u8]) -> Option<()> {
    let mut r = Reader::block(bytes)?;
    while !r.done() {
        let value = r.number(3)?;
        let (category, script, flags) = (r.number(1)? as u8, r.number(1)? as u8, r.number(1)? as u8);
        let c = char::from_u32(value)?;
        if category > 7
            || script > 127
            || (c == ' ' && (category, script, flags) != (7, 0, 0))
            || (c.is_ascii_alphabetic() && category != 1)
            || data.classes.last().is_some_and(|row| row.0 >= value)
            || data.classes.len() == 8192
        {
            return None;
        }
        data.classes.push((value, category, script, flags));
    }
    Some(())
}

fn read_vowels(data: &mut Data, bytes: &[u8]) -> Option<()> {
    let mut r = Reader::block(bytes)?;
    let mut last = 0;
    while !r.done() {
        let script = r.number(1)? as u8;
        let kind = match r.number(1)? {
            0 => AbugidaRuleType::A,
            1 => AbugidaRuleType::AO,
            _ => return None,
        };
        let n = r.count(4).filter(|n| *n > 0)? as usize;
        let letters = r.letters(n)?;
        if script <= last || script > 127 {
            return None;
        }
        data.vowels.insert(script, (kind, letters));
        last = script;
    }
    Some(())
}

fn read_decompositions(data: &mut Data, bytes: &[u8]) -> Option<()> {
    let mut r = Reader::block(bytes)?;
    let mut last = None;
    while !r.done() {
        let c = r.character()?;
        let tag = r.count(5)? as u8;
        let characters = r.characters(18)?;
        if c == ' ' || last >= Some(c) || characters.iter().any(|c| left_out(*c)) || data.decompositions.len() == 8192 {
            return None;
        }
        data.decompositions.insert(c, (tag, characters.iter().collect()));
        last = Some(c);
    }
    let rows = &data.decompositions;
    let nested = rows.values().any(|(_, characters)| characters.chars().any(|c| rows.contains_key(&c)));
    (!nested).then_some(())
}
