//! The texts of rules. In worlds with readings a source has few, so that a rule's end-of-syllable target is often its
//! target, one of its alternatives, or a text of another rule of that source, or empty.

use crate::world::{Maker, Text};

pub struct Texts {
    pub target: Option<Vec<u8>>,
    /// at the end of a syllable
    pub end: Option<Vec<u8>>,
    /// alternatives
    pub others: Vec<Vec<u8>>,
}

impl Maker<'_> {
    pub fn few_texts(&mut self, source: &Text) -> Vec<Vec<u8>> {
        vec![self.target(source), self.target(&[]), self.target(&[]), Vec::new()]
    }

    /// the target is the first of the few more often than another
    pub fn texts_of(&mut self, few: &[Vec<u8>]) -> Texts {
        let first = self.chance(0.5);
        let target = if first { few[0].clone() } else { self.one_of(few) };
        Texts {
            target: if self.chance(0.05) { None } else { Some(target) },
            end: if self.chance(0.2) { None } else { Some(self.one_of(few)) },
            others: (0..self.random.choice(&[0, 0, 0, 1, 2, 3])).map(|_| self.one_of(few)).collect(),
        }
    }

    fn one_of(&mut self, few: &[Vec<u8>]) -> Vec<u8> {
        few[self.random.below(few.len())].clone()
    }
}
