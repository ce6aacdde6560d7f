//! The decompositions of a world.

use crate::alphabets::{FILLER, FORM_KINDS, FORM_PHRASES, HELD, LONG, NUMBER, USUAL_FORMS};
use crate::rows::{block, form_row};
use crate::world::{Maker, Text};

const MOST_FORM: usize = 18;
/// the tag of an edge; those below it give none
const FORM: u8 = 5;

/// a row: its character, tag and what it holds
pub type Form = (char, u8, Text);

impl Maker<'_> {
    /// some characters that usually have a row, and what stands together with them
    pub fn meet_forms(&mut self) {
        let n = self.random.between(1, 4);
        for (c, kind) in self.random.sample(&FORM_KINDS, n) {
            self.set(c, kind);
        }
        // numbers beside numbers
        if self.chance(0.5) {
            self.set('1', (NUMBER, 0, 0));
        }
        let phrases = self.random.sample(&FORM_PHRASES, 2);
        self.phrases.extend(phrases);
    }

    /// rows for most of the characters that usually have one, and for some others; none holds a character with a row
    pub fn some_forms(&mut self, texts: &[Text]) {
        let mut characters: Text =
            FORM_KINDS.iter().map(|(c, _)| *c).chain(texts.concat()).filter(|c| *c != ' ').collect();
        characters.sort_unstable();
        characters.dedup();
        let has: Text = characters
            .into_iter()
            .filter(|c| if usually_has(*c) { self.chance(0.8) } else { self.odd(0.06) })
            .collect();
        let all = self.kinds.iter().map(|(c, _)| *c).chain(texts[0].iter().copied()).chain(HELD);
        let free: Text = all.filter(|c| !has.contains(c)).collect();
        for c in has {
            let tag = if self.chance(0.85) { FORM } else { self.random.below(5) as u8 };
            let held = self.held(c, &free);
            self.forms.push((c, tag, held));
        }
    }

    /// what a row holds: a line, the usual, a phrase, a few characters, many, or about as many bytes as a text may have
    fn held(&mut self, c: char, free: &Text) -> Text {
        if self.lined && self.chance(0.6) {
            let mut line = self.some_words(2, 4);
            line.retain(|c| free.contains(c));
            line.truncate(MOST_FORM);
            if !line.is_empty() {
                return line;
            }
        }
        let usual = USUAL_FORMS.iter().find(|(d, _)| *d == c).map_or("", |(_, usual)| usual);
        if !usual.is_empty() && usual.chars().all(|c| free.contains(&c)) && self.chance(0.4) {
            return usual.chars().collect();
        }
        if self.chance(0.1) {
            let filler = if self.chance(0.7) { FILLER } else { self.random.choice(free) };
            let more = self.random.between(4, 8);
            return [vec![LONG; 3], vec![filler; more]].concat();
        }
        if self.chance(0.2) {
            let phrase: Text = self.random.choice(&self.phrases).chars().filter(|c| free.contains(c)).collect();
            if !phrase.is_empty() {
                return phrase;
            }
        }
        let n = self.random.choice(&[1, 1, 1, 2, 2, 3, 3, 4, 6, MOST_FORM]);
        (0..n).map(|_| self.random.choice(free)).collect()
    }

    pub fn has_form(&self, c: char) -> bool {
        self.forms.iter().any(|(d, _, _)| *d == c)
    }

    /// rows came in the order of their characters
    pub fn form_table(&self) -> Vec<u8> {
        block(self.forms.iter().map(|(c, tag, held)| {
            let held: Vec<u32> = held.iter().map(|c| *c as u32).collect();
            form_row(*c as u32, *tag, &held)
        }))
    }
}

pub fn usually_has(c: char) -> bool {
    FORM_KINDS.iter().any(|(d, _)| *d == c)
}
