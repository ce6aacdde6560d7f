//! Which text a "rom-alt2" has: the rule's target again, as published, which is always listed already; and where a call chooses it the
//! rule's end-of-syllable target.

use crate::shim::choice;

/// The text that is listed unless it is already.
pub fn asked<'a>(target: &'a str, end_of_syllable: &'a str) -> &'a str {
    choice::note_asked();
    reading(target, end_of_syllable)
}

/// The same text, where it is listed.
pub fn listed<'a>(target: &'a str, end_of_syllable: &'a str) -> &'a str {
    choice::note_listed();
    reading(target, end_of_syllable)
}

fn reading<'a>(target: &'a str, end_of_syllable: &'a str) -> &'a str {
    if choice::made().readings {
        return end_of_syllable;
    }
    target
}
