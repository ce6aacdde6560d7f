//! Romanizes standard input by document 01's sample tables and a decomposition table, and prints the string, or the refusal.
//!
//!     tools/build jettyfig
//!     rustc -O examples/romanize.rs -L target/staticlib -o romanize
//!     printf 'कत ①' | ./romanize      prints kat 1

#[path = "../include/jettyfig.rs"]
mod jettyfig;

use jettyfig::{Choices, MOST_CHARACTERS, Refusal, Rooms, SHOW_STRING, Tables, room_for, slots_for, string_for};
use std::io::{Read, Write};
use std::process::ExitCode;

const SAMPLE: Tables = Tables {
    rules: include_bytes!("../crates/romanize/data/rules.bin"),
    classes: include_bytes!("../crates/romanize/data/classes.bin"),
    vowels: include_bytes!("../crates/romanize/data/vowels.bin"),
    decompositions: include_bytes!("../crates/romanize/data/decompositions.bin"),
};

/// The path's string; or the refusal, and its place.
fn string(tables: Tables, code: &[u8], text: &[u8]) -> Result<Vec<u8>, (Refusal, u64)> {
    // each character has a byte at least; a text of more than these is refused before it needs any room
    let n = text.len().min(MOST_CHARACTERS);
    let (mut slots, mut room, mut out) = (vec![0; slots_for(n)], vec![0; room_for(n)], vec![0; string_for(n)]);
    let rooms = Rooms { slots: &mut slots, room: &mut room, out: &mut out };
    let answer = jettyfig::romanize(SHOW_STRING, Choices::default(), tables, code, text, rooms);
    if let Some(refusal) = answer.refusal() {
        return Err((refusal, answer.place));
    }
    out.truncate(answer.length as usize);
    Ok(out)
}

fn main() -> ExitCode {
    let mut text = Vec::new();
    if std::io::stdin().read_to_end(&mut text).is_err() {
        return ExitCode::FAILURE;
    }
    match string(SAMPLE, b"", &text) {
        Ok(mut line) => {
            line.push(b'\n');
            if std::io::stdout().write_all(&line).is_ok() { ExitCode::SUCCESS } else { ExitCode::FAILURE }
        }
        Err((refusal, place)) => {
            eprintln!("refused with {} ({refusal:?}) at {place}", refusal as u64);
            ExitCode::FAILURE
        }
    }
}
