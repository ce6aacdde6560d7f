//! What a call answers where this much is lent. The oracle knows nothing of slots, text room and output size, nor of the
//! longest text of an edge and of a listing: 9, 10, 11, 14 and 19 follow by the words of document 01 and tickets 3 and 10 from its
//! edges in their adding order.

use crate::call::{Answer, Lent};
use crate::random::Random;
use oracle::Added;

const SLOT: usize = 12;
const MOST_EDGE_TEXT: usize = 606;
/// of a listing: the bytes before its rows, and the most that these may have
const HEADER: usize = 5;
const MOST_LISTED: usize = u32::MAX as usize;
/// far more than most calls need; to clear it takes time, so it is lent rarely
const MUCH: [usize; 2] = [100_000, 300_000];

/// exactly what the call needs; the edges that a decomposition's comes of are gone before it is added
pub fn exact(added: &[Added], output: &[u8]) -> Lent {
    let (mut slots, mut room, mut used) = (0, 0, 0);
    for (k, edge) in added.iter().enumerate() {
        slots = slots.max(k + edge.inner.len().max(1));
        room = room.max(used + edge.length.max(edge.inner.iter().sum()));
        used += edge.length;
    }
    [SLOT * slots, room, output.len()]
}

/// 9 or 10 at the first of these lengths that does not fit: the slot is asked before the room
fn misfit(lengths: &[usize], slots: usize, mut room: usize) -> Option<u64> {
    for (k, length) in lengths.iter().enumerate() {
        if k == slots {
            return Some(9);
        }
        if *length > room {
            return Some(10);
        }
        room -= length;
    }
    None
}

/// what keeps an edge out: 9 or 10 of the edges that it comes of, 14 where it is too long, its own 9 or 10
fn hindered(edge: &Added, slots: usize, room: usize) -> Option<u64> {
    let too_long = !edge.inner.is_empty() && edge.length > MOST_EDGE_TEXT;
    misfit(&edge.inner, slots, room).or(too_long.then_some(14)).or_else(|| misfit(&[edge.length], slots, room))
}

/// the refusal of the first edge that can't be added
fn first_misfit(added: &[Added], [slots, mut room, _]: Lent) -> Option<Answer<'static>> {
    for (k, edge) in added.iter().enumerate() {
        if let Some(number) = hindered(edge, slots / SLOT - k, room) {
            return Some(Answer::refused(number, edge.start as u64));
        }
        room -= edge.length;
    }
    None
}

pub fn answered<'a>(mode: u8, added: &[Added], output: &'a [u8], lent: Lent) -> Answer<'a> {
    if let Some(refused) = first_misfit(added, lent) {
        return refused;
    }
    if mode > 0 && output.len() - HEADER > MOST_LISTED {
        return Answer::refused(19, 0);
    }
    if lent[2] < output.len() {
        return Answer::refused(11, output.len() as u64);
    }
    Answer::done(output, added.len())
}

/// enough, exactly enough, or short of slots, of room or of output
pub fn some(random: &mut Random, added: &[Added], output: &[u8]) -> Lent {
    let exact = exact(added, output);
    let [slots, room, out] = exact;
    let mut less = || exact.map(|n| random.below(n));
    let [less_slots, less_room, less_out] = less();
    match random.below(100) {
        0..20 => exact,
        20..75 if random.chance(0.002) => [slots.max(MUCH[0]), room.max(MUCH[1]), out + random.below(9)],
        20..75 => [slots + random.below(30), room + random.below(9), out + random.below(9)],
        75..84 => [less_slots, room, out],
        84..93 => [slots, less_room, out],
        _ => [random.choice(&[slots, less_slots]), random.choice(&[room, less_room]), less_out],
    }
}
