//! Whether the library answered as wanted, and left its rooms as promised.

use crate::call::{Answer, Call, Numbers, ROOMS};
use crate::library::Library;

/// what differs, in words; none where nothing does
pub fn difference(call: &Call, wanted: &Answer, got: &Library) -> Option<String> {
    if got.numbers != wanted.numbers {
        return Some(format!("wanted {}, got {}", told(&wanted.numbers), told(&got.numbers)));
    }
    let Some((output, behind)) = got.room(2).split_at_checked(wanted.output.len()) else {
        return Some("the wanted output is longer than what was lent".to_string());
    };
    if output != wanted.output {
        return Some(format!("wanted the output {}, got {}", hex(wanted.output), hex(output)));
    }
    if !zero(behind) {
        return Some("the output is not zero behind its length".to_string());
    }
    for k in 0..2 {
        if !zero(got.room(k)) {
            return Some(format!("{} not zero after the call", ROOMS[k]));
        }
    }
    got.overstepped(call)
}

fn zero(bytes: &[u8]) -> bool {
    bytes.iter().fold(0, |all, b| all | b) == 0
}

pub fn told(n: &Numbers) -> String {
    format!("number {} place {} length {} edges {}", n.number, n.place, n.length, n.edges)
}

fn hex(bytes: &[u8]) -> String {
    bytes.iter().map(|b| format!("{b:02x}")).collect()
}
