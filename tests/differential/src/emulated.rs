//! The library in a process of its own: it is built for x86-64, and on another processor an emulator runs it there.
//! answers.c is that process, and says what is sent to and fro.

use crate::call::{Call, Numbers};
use crate::library::{Given, Rooms};
use std::io::{Read, Write};
use std::path::Path;
use std::process::{Child, ChildStdin, ChildStdout, Command, Stdio};

const EMULATOR: &str = "qemu-x86_64-static";
const NUMBERS: usize = 4 * 8;

pub struct Callee {
    child: Child,
    to: ChildStdin,
    from: ChildStdout,
    /// what is sent, then what comes back; used again and again
    bytes: Vec<u8>,
}

impl Callee {
    /// FOLDER/answers is the program, as `run` builds it
    pub fn start(folder: &Path) -> Self {
        let mut command = Command::new(EMULATOR);
        command.arg(folder.join("answers")).stdin(Stdio::piped()).stdout(Stdio::piped());
        let mut child = command.spawn().unwrap_or_else(|e| panic!("{EMULATOR}: {e}"));
        let (to, from) = (child.stdin.take().expect("piped"), child.stdout.take().expect("piped"));
        Callee { child, to, from, bytes: Vec::new() }
    }

    /// One call; the slices become what it has left of them.
    pub fn call(&mut self, call: &Call, parts: &mut Given, rooms: &mut Rooms) -> Numbers {
        self.bytes.clear();
        for number in std::iter::once(call.mode).chain(call.choices.all()) {
            self.bytes.extend((number as u32).to_le_bytes());
        }
        for slice in parts.iter().chain(&*rooms) {
            self.bytes.extend((slice.lent().len() as u32).to_le_bytes());
        }
        for slice in parts.iter().chain(&*rooms) {
            self.bytes.extend(&slice.bytes);
        }
        self.exchange(parts.iter().chain(&*rooms).map(|slice| slice.bytes.len()).sum());
        let mut left = &self.bytes[NUMBERS..];
        for slice in parts.iter_mut().chain(rooms) {
            let (mine, rest) = left.split_at(slice.bytes.len());
            slice.bytes.copy_from_slice(mine);
            left = rest;
        }
        let number = |k: usize| u64::from_le_bytes(self.bytes[8 * k..8 * k + 8].try_into().expect("eight bytes"));
        Numbers { number: number(0), place: number(1), length: number(2), edges: number(3) }
    }

    /// sends `bytes`, and reads the numbers and so many bytes of slices into it
    fn exchange(&mut self, slices: usize) {
        let sent = self.to.write_all(&self.bytes);
        self.bytes.resize(NUMBERS + slices, 0);
        let answered = sent.and_then(|()| self.from.read_exact(&mut self.bytes));
        answered.unwrap_or_else(|e| panic!("the library's process ended in a call: {e}; {:?}", self.child.wait()));
    }
}
