//! The proved library, called in guarded rooms.

use crate::call::{Call, Numbers, PARTS, ROOMS};
// the library is built for x86-64: on another processor it can't be linked
#[cfg(not(target_arch = "x86_64"))]
use crate::emulated::Callee;
#[cfg(target_arch = "x86_64")]
use crate::linked::Callee;
use std::path::Path;

const GUARD: [u8; 16] = *b"guard behind it.";

/// a lent slice, and the guard behind it
#[derive(Default)]
pub struct Slice {
    pub bytes: Vec<u8>,
}

impl Slice {
    fn put(&mut self, part: &[u8]) {
        self.bytes.clear();
        self.bytes.extend(part);
        self.bytes.extend(GUARD);
    }

    /// what stands in a room before must not matter
    fn put_rubbish(&mut self, n: usize, rubbish: u64) {
        self.bytes.clear();
        for k in 0..n.div_ceil(8) as u64 {
            self.bytes.extend((rubbish ^ k.wrapping_mul(0x0101_0305_0711_1317)).to_le_bytes());
        }
        self.bytes.truncate(n);
        self.bytes.extend(GUARD);
    }

    pub fn lent(&self) -> &[u8] {
        &self.bytes[..self.bytes.len() - GUARD.len()]
    }

    pub fn lent_mut(&mut self) -> &mut [u8] {
        let n = self.bytes.len() - GUARD.len();
        &mut self.bytes[..n]
    }

    fn guarded(&self) -> bool {
        self.bytes.ends_with(&GUARD)
    }
}

pub type Given = [Slice; PARTS.len()];
pub type Rooms = [Slice; ROOMS.len()];

/// What a call got and what it left; used again and again, so that a call allocates nothing.
pub struct Library {
    callee: Callee,
    parts: Given,
    rooms: Rooms,
    pub numbers: Numbers,
}

impl Library {
    /// `folder` has what `run` built
    pub fn new(folder: &Path) -> Self {
        let (parts, rooms) = Default::default();
        Library { callee: Callee::start(folder), parts, rooms, numbers: Numbers::default() }
    }

    pub fn call(&mut self, call: &Call, rubbish: u64) {
        for (slice, part) in self.parts.iter_mut().zip(call.parts) {
            slice.put(part);
        }
        for (slice, n) in self.rooms.iter_mut().zip(call.lent) {
            slice.put_rubbish(n, rubbish);
        }
        self.numbers = self.callee.call(call, &mut self.parts, &mut self.rooms);
    }

    pub fn room(&self, k: usize) -> &[u8] {
        self.rooms[k].lent()
    }

    pub fn room_mut(&mut self, k: usize) -> &mut [u8] {
        self.rooms[k].lent_mut()
    }

    /// a slice that is only read and was written, or a guard that was
    pub fn overstepped(&self, call: &Call) -> Option<String> {
        for (k, slice) in self.parts.iter().enumerate() {
            if slice.lent() != call.parts[k] || !slice.guarded() {
                return Some(format!("{} or the bytes behind it were written", PARTS[k]));
            }
        }
        let k = self.rooms.iter().position(|slice| !slice.guarded())?;
        Some(format!("bytes behind {} were written", ROOMS[k]))
    }
}
