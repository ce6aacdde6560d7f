//! The library linked into this program.

use crate::call::{Call, Numbers};
use crate::jettyfig::{Choices, Rooms, Tables, romanize};
use crate::library::{self, Given, Slice};
use std::path::Path;

pub struct Callee;

impl Callee {
    pub fn start(_: &Path) -> Self {
        Callee
    }

    pub fn call(&mut self, call: &Call, parts: &mut Given, rooms: &mut library::Rooms) -> Numbers {
        let [rules, classes, vowels, decompositions, code, text] = parts.each_ref().map(Slice::lent);
        let [slots, room, out] = rooms.each_mut().map(Slice::lent_mut);
        let tables = Tables { rules, classes, vowels, decompositions };
        let rooms = Rooms { slots, room, out };
        let [capitals, o_ang, readings] = call.choices.all();
        let choices = Choices { capitals, o_ang, readings };
        let answer = romanize(call.mode, choices, tables, code, text, rooms);
        Numbers { number: answer.number, place: answer.place, length: answer.length, edges: answer.edges }
    }
}
