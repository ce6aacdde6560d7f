//! A world: tables, and texts and codes to ask under them. Small alphabets meet random rules made from pieces of the texts,
//! so that sources match, targets chain and the special characters stand beside each other.

use crate::alphabets::{Alphabet, CODES, LETTER, LIKELY, LOWER, THAI_ALPHABET, VOWELS, ZS};
use crate::forms::Form;
use crate::random::Random;
use crate::rows::{Class, block, class_row, vowel_row};

/// tables, and what is asked under them
pub struct World {
    pub rules: Vec<u8>,
    pub classes: Vec<u8>,
    pub vowels: Vec<u8>,
    pub decompositions: Vec<u8>,
    /// code and text
    pub asked: Vec<(&'static str, String)>,
    /// texts of rules that are long, and those of them that are as long as can be
    pub long_targets: [usize; 2],
}

pub fn world(random: &mut Random) -> World {
    let mut maker = Maker::new(random);
    let texts = maker.texts();
    maker.class_all(&texts);
    maker.bend();
    if maker.formed {
        maker.some_forms(&texts);
    }
    let rules = maker.rule_table(&texts);
    let asked = texts.iter().map(|text| (maker.near_code(), text.iter().collect())).collect();
    let (classes, vowels, decompositions) = (maker.class_table(), maker.vowel_table(), maker.form_table());
    World { rules, classes, vowels, decompositions, asked, long_targets: maker.long_targets }
}

pub type Text = Vec<char>;

pub struct Maker<'r> {
    pub random: &'r mut Random,
    alphabets: Vec<&'static Alphabet>,
    pub kinds: Vec<(char, Class)>,
    pub phrases: Vec<&'static str>,
    pub code: &'static str,
    /// whether most texts are lines of Thai words
    pub lined: bool,
    /// whether there is lower case, and many targets have capitals
    pub cased: bool,
    /// whether the rules of a source have few texts
    pub read: bool,
    /// whether there are decompositions
    formed: bool,
    /// by their characters
    pub forms: Vec<Form>,
    /// what texts are made from, some of it more often
    pub letters: Vec<char>,
    /// as of its world
    pub long_targets: [usize; 2],
}

impl<'r> Maker<'r> {
    fn new(random: &'r mut Random) -> Self {
        let lined = random.chance(0.4);
        let mut alphabets: Vec<&'static Alphabet> = if lined { vec![&THAI_ALPHABET] } else { Vec::new() };
        for _ in 0..random.choice(&[1, 1, 2, 2, 3]) {
            let one = random.choice(&LIKELY);
            if !alphabets.iter().any(|a| std::ptr::eq(*a, one)) {
                alphabets.push(one);
            }
        }
        let code = if random.chance(3.0 / 11.0) { "" } else { random.choice(&CODES) };
        let (formed, read) = (random.chance(0.6), random.chance(0.3));
        let (kinds, phrases, forms, letters) = Default::default();
        let (cased, long_targets) = (false, [0; 2]);
        let mut maker =
            Maker { random, alphabets, kinds, phrases, code, lined, cased, read, formed, forms, letters, long_targets };
        maker.cased = maker.odd(0.5);
        for alphabet in maker.alphabets.clone() {
            let all = alphabet.kinds;
            let n = maker.random.between(all.len().min(3), all.len());
            for (c, kind) in maker.random.sample(all, n) {
                maker.set(c, kind);
            }
            let phrases = maker.random.sample(alphabet.phrases, 2);
            maker.phrases.extend(phrases);
        }
        if formed {
            maker.meet_forms();
        }
        maker.letters = maker.some_letters();
        maker
    }

    pub fn chance(&mut self, p: f64) -> bool {
        self.random.chance(p)
    }

    /// what is odd is rare in lines, where most of it keeps the walk from a consonant
    pub fn odd(&mut self, p: f64) -> bool {
        self.chance(if self.lined { p / 4.0 } else { p })
    }

    pub fn kind(&self, c: char) -> Option<Class> {
        self.kinds.iter().find(|(d, _)| *d == c).map(|(_, kind)| *kind)
    }

    pub fn set(&mut self, c: char, kind: Class) {
        match self.kinds.iter_mut().find(|(d, _)| *d == c) {
            Some(row) => row.1 = kind,
            None => self.kinds.push((c, kind)),
        }
    }

    /// characters that came with a phrase get their usual class
    fn class_all(&mut self, texts: &[Text]) {
        for alphabet in self.alphabets.clone() {
            for &(c, kind) in alphabet.kinds {
                if texts.iter().any(|text| text.contains(&c)) {
                    self.set(c, kind);
                }
            }
        }
    }

    /// some characters get another class or none, so that every test meets its unlikely side
    fn bend(&mut self) {
        if self.chance(0.7) {
            self.set(' ', (ZS, 0, 0));
        }
        let strange = self.odd(0.4);
        let mut scripts = vec![0];
        scripts.extend(self.kinds.iter().map(|(_, kind)| kind.1));
        for k in (0..self.kinds.len()).rev() {
            let (c, kind) = self.kinds[k];
            if c == ' ' {
                continue;
            }
            if strange {
                self.kinds[k].1 = self.bent(c, kind, &scripts);
            }
            if self.chance(if self.cased { 0.7 } else { 0.03 }) {
                self.kinds[k].1.2 |= LOWER;
            }
            if self.chance(0.05) {
                self.kinds.remove(k);
            }
        }
        // characters of targets may be classed too
        for c in ['1', '-', 'y'] {
            if self.chance(0.1) {
                let category = if c == 'y' { LETTER } else { self.random.below(8) as u8 };
                let script = self.random.choice(&scripts);
                self.set(c, (category, script, 0));
            }
        }
    }

    fn bent(&mut self, c: char, (mut category, mut script, mut flags): Class, scripts: &[u8]) -> Class {
        if self.chance(0.3) && !c.is_ascii_alphabetic() {
            category = self.random.below(8) as u8;
        }
        if self.chance(0.3) {
            script = self.random.choice(scripts);
        }
        if self.chance(0.3) {
            flags = match self.random.below(3) {
                0 => 0,
                1 => 1 << self.random.below(8),
                _ => self.random.byte(),
            };
        }
        (category, script, flags)
    }

    fn class_table(&mut self) -> Vec<u8> {
        self.kinds.sort_unstable_by_key(|(c, _)| *c);
        block(self.kinds.iter().map(|(c, kind)| class_row(*c as u32, *kind)))
    }

    fn vowel_table(&mut self) -> Vec<u8> {
        let mut rows = Vec::new();
        for alphabet in self.alphabets.clone() {
            let (script, usual) = alphabet.vowels;
            if self.chance(if usual { 0.95 } else { 0.2 }) {
                let letters = self.random.choice(&VOWELS);
                rows.push(vowel_row(script, self.random.choice(&[0, 0, 1]), letters));
            }
        }
        rows.sort_unstable();
        block(rows)
    }
}
