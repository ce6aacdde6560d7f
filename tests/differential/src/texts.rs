//! The texts of a world: one as tests/generate makes it, and others akin to it.

use crate::alphabets::{CODES, OPEN_WORDS, WORDS};
use crate::forms::usually_has;
use crate::world::{Maker, Text};
use oracle::MOST_CHARACTERS;

/// texts of over so many characters are long: they are rare, since the Rust takes its time for them
pub const LONG_TEXT: usize = 512;
const TEXTS: usize = 4;

impl Maker<'_> {
    pub fn some_letters(&mut self) -> Vec<char> {
        let mut letters = Vec::new();
        for _ in 0..3 {
            letters.extend(self.kinds.iter().map(|(c, _)| *c));
        }
        let spaces = self.random.choice(&[0, 0, 1, 3]);
        letters.extend(std::iter::repeat_n(' ', spaces));
        if self.chance(0.2) {
            letters.push('q');
        }
        letters
    }

    pub fn texts(&mut self) -> Vec<Text> {
        let first = self.some_text();
        let mut texts = vec![first];
        while texts.len() < TEXTS {
            let next = self.akin(&texts[0].clone());
            texts.push(next);
        }
        texts
    }

    /// words of a line; or letters of the alphabets, phrases, a few spaces, now and then a repeated stretch
    fn some_text(&mut self) -> Text {
        if self.lined && self.chance(0.9) {
            return self.line();
        }
        let mut length = self.random.choice(&[0, 1, 1, 2, 2, 3, 3, 4, 4, 5, 6, 7, 8, 10, 12, 16, 20]);
        if self.chance(0.01) {
            length = self.random.between(21, 60);
        }
        let mut text: Text = (0..length).map(|_| self.random.choice(&self.letters)).collect();
        while length > 1 && self.chance(0.5) {
            let phrase = self.random.choice(&self.phrases);
            let at = self.random.below(length);
            let end = (at + phrase.chars().count()).min(text.len());
            text.splice(at..end, phrase.chars());
        }
        if length > 4 && self.chance(0.3) {
            let front = text[..length - length / 2].to_vec();
            text.truncate(length / 2);
            text.extend(front);
        }
        text.truncate(60);
        text
    }

    fn line(&mut self) -> Text {
        let mut text = self.some_words(2, 6);
        let forms: Text = self.kinds.iter().map(|(c, _)| *c).filter(|c| usually_has(*c)).collect();
        if !forms.is_empty() && self.chance(0.5) {
            let at = self.random.below(text.len() + 1);
            text.splice(at..at, [self.random.choice(&forms), ' ']);
        }
        text
    }

    pub fn some_words(&mut self, least: usize, most: usize) -> Text {
        let n = self.random.between(least, most);
        let words: Vec<&str> = (0..n)
            .map(|_| if self.chance(0.5) { self.random.choice(&OPEN_WORDS) } else { self.random.choice(&WORDS) })
            .collect();
        words.join(" ").chars().collect()
    }

    fn akin(&mut self, first: &Text) -> Text {
        match self.random.below(100) {
            0..30 => self.some_text(),
            30..55 => self.words(first),
            55..75 => self.stretch(first),
            75..98 => self.changed(first),
            _ if self.chance(0.2) => self.long(first),
            _ => self.words(first),
        }
    }

    fn words(&mut self, first: &Text) -> Text {
        let mut text = Text::new();
        for k in 0..self.random.between(2, 5) {
            if k > 0 {
                text.push(' ');
            }
            let word = if self.chance(0.5) { self.some_text() } else { self.stretch(first) };
            text.extend(word.iter().take(8));
        }
        text
    }

    fn stretch(&mut self, first: &Text) -> Text {
        let start = self.random.below(first.len());
        let end = self.random.between(start, first.len());
        first[start..end].to_vec()
    }

    /// the text with a character more, less, or another
    fn changed(&mut self, first: &Text) -> Text {
        let mut text = first.clone();
        let at = self.random.below(text.len());
        let c = self.random.choice(&self.letters);
        match self.random.below(3) {
            0 => text.insert(at, c),
            1 if !text.is_empty() => text[at] = c,
            _ if !text.is_empty() => drop(text.remove(at)),
            _ => {}
        }
        text
    }

    /// up to 512 characters, now and then just that many; and rarely up to 4,096, or just that many
    fn long(&mut self, first: &Text) -> Text {
        let n = match self.random.below(100) {
            0..20 => LONG_TEXT,
            20..32 => self.random.between(LONG_TEXT + 1, 2 * LONG_TEXT),
            32..35 => self.random.between(2 * LONG_TEXT + 1, MOST_CHARACTERS),
            35..38 => self.random.choice(&[MOST_CHARACTERS - 1, MOST_CHARACTERS]),
            _ => self.random.between(61, LONG_TEXT),
        };
        let mut text = Text::new();
        while text.len() < n {
            let word = if self.chance(0.5) { first.clone() } else { self.some_text() };
            text.extend(word);
            if self.chance(0.5) {
                text.push(' ');
            } else {
                text.push(self.random.choice(&self.letters));
            }
        }
        text.truncate(n);
        text
    }

    pub fn near_code(&mut self) -> &'static str {
        match self.random.below(10) {
            0 => "",
            1 => self.random.choice(&CODES),
            _ => self.code,
        }
    }
}
