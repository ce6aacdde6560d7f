//! Where the walk back behind O ang ends: the published Rust goes back to the text's start, and where a call chooses it, the walk ends
//! at the nearest U+0020.

use crate::shim::choice;

/// What `walk` finds on its way back from `end` to the position that it is given.
pub fn walked(text: &[char], end: usize, walk: impl Fn(usize) -> String) -> String {
    if !choice::made().o_ang {
        return walk(0);
    }
    let found = walk(behind_space(text, end));
    if found != walk(0) {
        choice::note_ended_walk();
    }
    found
}

/// the position right behind the nearest U+0020 to the left of `end`, or 0
fn behind_space(text: &[char], end: usize) -> usize {
    text[..end].iter().rposition(|c| *c == ' ').map_or(0, |at| at + 1)
}
