//! The Python rule for capitals. The published Rust has it as a comment, over a step that never acts; behind that step it is called,
//! and acts where a call chooses it.

use crate::dicts::is_lower;
use crate::shim::choice;

/// if start+1 == end and rom.isupper() and next_char.islower(): rom = rom.capitalize()
pub fn as_python(rom: String, start: usize, end: usize, next_char: Option<char>) -> String {
    if choice::made().capitals && start + 1 == end && is_upper(&rom) && next_char.is_some_and(is_lower) {
        return capitalize(rom);
    }
    rom
}

fn is_upper(rom: &str) -> bool {
    rom.contains(|c: char| c.is_ascii_uppercase()) && !rom.contains(|c: char| c.is_ascii_lowercase())
}

/// the first of an upper-case romanization stays: it is a capital, or no letter
fn capitalize(rom: String) -> String {
    let (first, rest) = rom.split_at(1);
    let made = first.to_string() + &rest.to_ascii_lowercase();
    if made != rom {
        choice::note_change();
    }
    made
}
