//! Spoilt answers, by which a run shows that it finds differences.

use crate::library::Library;

const KINDS: usize = 8;

/// Which cases to spoil: one in each stretch of cases, at a place that the seed says.
pub struct Spoil {
    pub wanted: u64,
    pub done: u64,
    every: u64,
    seed: u64,
}

impl Spoil {
    pub fn new(wanted: u64, every: u64, seed: u64) -> Self {
        Spoil { wanted, done: 0, every: every.max(1), seed }
    }

    /// whether this case is spoilt; then something of the library's answer is changed
    pub fn spoil(&mut self, case: u64, got: &mut Library) -> bool {
        let stretch = case / self.every;
        if stretch >= self.wanted || case % self.every != stretch.wrapping_mul(self.seed | 1) % self.every {
            return false;
        }
        change(stretch as usize % KINDS, stretch as usize, got);
        self.done += 1;
        true
    }
}

/// a kind that finds no byte changes the number instead
fn change(kind: usize, salt: usize, got: &mut Library) {
    let length = got.numbers.length as usize;
    let out = got.room(2).len();
    match kind {
        1 => got.numbers.place ^= 1,
        2 => got.numbers.length ^= 1,
        3 => got.numbers.edges ^= 1,
        4 if (1..=out).contains(&length) => got.room_mut(2)[salt % length] ^= 1 << (salt % 8),
        5 if length < out => got.room_mut(2)[length + salt % (out - length)] ^= 0x80,
        6 | 7 if !got.room(kind - 6).is_empty() => {
            let n = got.room(kind - 6).len();
            got.room_mut(kind - 6)[salt % n] ^= 1;
        }
        _ => got.numbers.number ^= 1,
    }
}
