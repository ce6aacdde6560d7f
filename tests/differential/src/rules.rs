//! The rules of a world, made from pieces of its texts.

use crate::alphabets::{CAPITALS, CODES, EN_DASH, LONG, PASSED, PRE, TARGETS, USUAL};
use crate::readings::Texts;
use crate::rows::{LONG_TARGET, MOST_TARGET, Rule, block};
use crate::world::{Maker, Text};

impl Maker<'_> {
    /// rows rise by source; equal sources keep the order in which they were made
    pub fn rule_table(&mut self, texts: &[Text]) -> Vec<u8> {
        let mut sources = self.sources(&texts[0]);
        for text in &texts[1..] {
            if self.chance(0.2) {
                let more = self.sources(text);
                sources.extend(more.into_iter().filter(|s| s.len() > 1));
            }
        }
        self.add_held(&texts[0], &mut sources);
        if self.chance(0.003) {
            self.add_many(&mut sources);
        }
        let mut made = Vec::new();
        let long = vec![LONG];
        if self.forms.iter().any(|(_, _, held)| held.contains(&LONG)) {
            // three of these are 600 bytes
            let target = Some(b"ka".repeat(MOST_TARGET / 2));
            made.push((&long, self.noted(Rule { source: &long, target, ..Rule::default() })));
        }
        for source in &sources {
            let few = if self.read { self.few_texts(source) } else { Vec::new() };
            for _ in 0..self.random.choice(&[1, 1, 1, 1, 2, 2, 3]) {
                made.push((source, self.rule(source, &few)));
            }
            if self.chance(0.1) {
                // the same target by another rule, with alternatives of its own
                let others = vec![b"x".to_vec(), b"k".to_vec()];
                made.push((source, Rule { source, target: Some(b"k".to_vec()), others, ..Rule::default() }.row()));
            }
        }
        made.sort_by_key(|(source, _)| *source);
        block(made.iter().map(|(_, row)| row))
    }

    /// characters and stretches of what decompositions hold
    fn add_held(&mut self, text: &Text, sources: &mut Vec<Text>) {
        for (_, _, held) in self.forms.clone() {
            if held.contains(&LONG) {
                continue;
            }
            for (k, c) in held.iter().enumerate() {
                if !held[..k].contains(c) && !text.contains(c) && self.chance(0.5) {
                    sources.push(vec![*c]);
                }
            }
            if held.len() > 1 && self.chance(0.3) {
                let at = self.random.below(held.len() - 1);
                let n = self.random.choice(&[2, 2, 3]);
                sources.push(held[at..(at + n).min(held.len())].to_vec());
            }
        }
    }

    /// some hundreds of strangers, which a search must pass by
    fn add_many(&mut self, sources: &mut Vec<Text>) {
        for _ in 0..self.random.between(100, 500) {
            let n = self.random.between(1, 4);
            let mut source: Text = (0..n).map(|_| self.random.choice(&self.letters)).collect();
            if self.chance(0.5) {
                let at = self.random.below(n);
                source[at] = char::from_u32(self.random.between(0x4E00, 0x4E40) as u32).unwrap();
            }
            sources.push(source);
        }
    }

    /// characters of the text, stretches of it, patterns around a character, and strangers
    fn sources(&mut self, text: &Text) -> Vec<Text> {
        let mut sources: Vec<Text> = Vec::new();
        for (k, c) in text.iter().enumerate() {
            let passed = self.has_form(*c) || self.lined && PASSED.contains(c);
            if !text[..k].contains(c) && (if passed { self.chance(0.25) } else { !self.odd(0.15) }) {
                sources.push(vec![*c]);
            }
        }
        for _ in 0..self.random.choice(&[0, 0, 1, 2, 4]) {
            if text.len() > 1 {
                let at = self.random.below(text.len() - 1);
                let n = self.random.choice(&[2, 2, 2, 3, 3, 4, 6, 16]);
                sources.push(text[at..(at + n).min(text.len())].to_vec());
            }
        }
        for at in 1..text.len().saturating_sub(1) {
            if self.lined && text[at] == ' ' && self.chance(0.1) {
                let (start, end) = (at - self.random.below(2), at + self.random.between(1, 3));
                sources.push(text[start..end.min(text.len())].to_vec());
            }
            if self.kind(text[at - 1]).is_some_and(|kind| kind.2 & PRE > 0) && self.chance(0.4) {
                let n = self.random.between(1, 3);
                let mut source = vec![text[at - 1], EN_DASH];
                source.extend(&text[at + 1..(at + 1 + n).min(text.len())]);
                sources.push(source);
            }
        }
        if !self.kinds.is_empty() && self.chance(0.3) {
            let kinds = &self.kinds;
            sources.push([(); 2].map(|_| self.random.choice(kinds).0).to_vec());
        }
        sources
    }

    /// a rule, by texts of its own or of few
    fn rule(&mut self, source: &Text, few: &[Vec<u8>]) -> Vec<u8> {
        let plain = !self.odd(0.45);
        let flags = match (plain, self.random.below(3)) {
            (true, _) | (_, 0) => 0,
            (_, 1) => 1 << self.random.below(5),
            _ => self.random.below(32) as u8,
        };
        let count = if plain { 0 } else { self.random.choice(&[0, 1, 1, 2, 255, 256, 65535]) };
        let Texts { target, end, others } = if few.is_empty() { self.any_texts(source) } else { self.texts_of(few) };
        let rule = Rule { source, flags, count, codes: self.rule_codes(), target, end, others };
        self.noted(rule)
    }

    /// the row of a rule, whose long texts are counted
    fn noted(&mut self, rule: Rule) -> Vec<u8> {
        self.long_targets.iter_mut().zip(rule.long_texts()).for_each(|(n, more)| *n += more);
        rule.row()
    }

    fn any_texts(&mut self, source: &Text) -> Texts {
        let target = if self.odd(0.08) { None } else { Some(self.target(source)) };
        let end = if self.odd(0.25) { Some(self.target(&[])) } else { None };
        let others = (0..self.random.choice(&[0, 0, 0, 1, 2, 3])).map(|_| self.target(&[])).collect();
        Texts { target, end, others }
    }

    fn rule_codes(&mut self) -> Vec<&'static str> {
        if !self.odd(0.15) {
            return Vec::new();
        }
        let n = self.random.between(1, 3);
        let mut codes = self.random.sample(&CODES, n);
        if !self.code.is_empty() && self.chance(0.5) {
            codes[0] = self.code;
        }
        codes
    }

    pub fn target(&mut self, source: &[char]) -> Vec<u8> {
        let passed = matches!(source, [c] if PASSED.contains(c)) || source.contains(&' ');
        if self.lined && passed && self.chance(0.6) {
            return Vec::new();
        }
        if let [c] = source
            && let Some((_, usual)) = USUAL.iter().find(|(d, _)| d == c)
            && !self.odd(0.5)
        {
            let large = self.cased && self.chance(0.5);
            return if large { usual.to_ascii_uppercase() } else { usual.to_string() }.into_bytes();
        }
        if self.cased && self.chance(0.6) {
            return self.random.choice(&CAPITALS).as_bytes().to_vec();
        }
        if self.chance(0.03) {
            let any = self.random.between(LONG_TARGET + 1, MOST_TARGET);
            let n = self.random.choice(&[3, 5, 9, LONG_TARGET, LONG_TARGET + 1, any, MOST_TARGET]);
            return (0..n).map(|_| self.random.choice(b"kgnyaio+- KA1")).collect();
        }
        let mut chosen = self.random.choice(&TARGETS).as_bytes().to_vec();
        if !chosen.is_empty() && self.chance(0.15) {
            // some other letter
            let at = self.random.below(chosen.len());
            chosen[at] = b'a' + self.random.below(26) as u8;
        }
        chosen
    }
}
