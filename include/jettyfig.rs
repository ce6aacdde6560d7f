//! Jettyfig for Rust: the call of `jettyfig.h`, made safe by slices, and its constants. Take this file into a program as a
//! module, and link target/staticlib/libjettyfig.a (`rustc -L target/staticlib`). Any number of calls may run at once.

// a program uses what it needs of these
#![allow(dead_code)]

/// The version of this file and its library: as text, and as a number that rises.
pub const VERSION: &str = "7.0.0";
pub const VERSION_NUMBER: u32 = 70000;

/// What a call shows: its mode. The string, the path, the path and its alternatives, all edges.
pub const SHOW_STRING: u8 = 0;
pub const SHOW_PATH: u8 = 1;
pub const SHOW_ALTERNATIVES: u8 = 2;
pub const SHOW_ALL_EDGES: u8 = 3;

/// The choice of capitals; `jettyfig.h` explains both.
pub const CAPITALS_OFF: u8 = 0;
pub const CAPITALS_ON: u8 = 1;

/// The choice of O ang; `jettyfig.h` explains both, and says who should turn it on.
pub const O_ANG_OFF: u8 = 0;
pub const O_ANG_ON: u8 = 1;

/// The choice of readings; `jettyfig.h` explains both, and says who should turn it on.
pub const READINGS_OFF: u8 = 0;
pub const READINGS_ON: u8 = 1;

/// What an edge is: the annotation of its row in a listing; `jettyfig.h` explains each.
pub const EDGE_ROM: u8 = 1;
pub const EDGE_CORE: u8 = 2;
pub const EDGE_TAIL: u8 = 3;
pub const EDGE_EXPANDED: u8 = 4;
pub const EDGE_DELETED: u8 = 5;
pub const EDGE_SINGLE: u8 = 6;
pub const EDGE_MN: u8 = 7;
pub const EDGE_CF: u8 = 8;
pub const EDGE_CO: u8 = 9;
pub const EDGE_ZS: u8 = 10;
pub const EDGE_ORIG: u8 = 11;
pub const EDGE_ALT: u8 = 12;
pub const EDGE_ALT2: u8 = 13;
pub const EDGE_ALT3: u8 = 14;
pub const EDGE_DECOMP: u8 = 15;

/// The number of an answer that is no refusal.
pub const DONE: u64 = 0;

/// The refusals, in the order in which they are looked for; `jettyfig.h` explains each, and what its place is.
#[derive(Clone, Copy, Debug, PartialEq, Eq)]
pub enum Refusal {
    Mode = 1,
    Capitals = 12,
    OAng = 15,
    Readings = 17,
    Length = 20,
    Range = 21,
    Letter = 22,
    Byte = 23,
    Order = 24,
    Rows = 25,
    Classes = 3,
    Vowels = 4,
    Decompositions = 13,
    Code = 5,
    Utf8 = 6,
    TooLong = 7,
    LeftOut = 8,
    Slots = 9,
    Room = 10,
    EdgeText = 14,
    Listing = 19,
    Output = 11,
}

impl Refusal {
    /// The refusal of an answer's number; none for 0, and for numbers that no call answers.
    pub const fn from_number(number: u64) -> Option<Refusal> {
        Some(match number {
            1 => Refusal::Mode,
            12 => Refusal::Capitals,
            15 => Refusal::OAng,
            17 => Refusal::Readings,
            20 => Refusal::Length,
            21 => Refusal::Range,
            22 => Refusal::Letter,
            23 => Refusal::Byte,
            24 => Refusal::Order,
            25 => Refusal::Rows,
            3 => Refusal::Classes,
            4 => Refusal::Vowels,
            13 => Refusal::Decompositions,
            5 => Refusal::Code,
            6 => Refusal::Utf8,
            7 => Refusal::TooLong,
            8 => Refusal::LeftOut,
            9 => Refusal::Slots,
            10 => Refusal::Room,
            14 => Refusal::EdgeText,
            19 => Refusal::Listing,
            11 => Refusal::Output,
            _ => return None,
        })
    }
}

/// What a call returns. After a refusal length and edges are 0.
#[repr(C)]
#[derive(Clone, Copy, Debug, Default, PartialEq, Eq)]
pub struct Answer {
    pub number: u64,
    pub place: u64,
    pub length: u64,
    pub edges: u64,
}

impl Answer {
    /// The refusal, if it is one.
    pub const fn refusal(&self) -> Option<Refusal> {
        Refusal::from_number(self.number)
    }
}

/// The most characters of a text.
pub const MOST_CHARACTERS: usize = 4096;

/// Bytes that are always enough for a text of `n` characters, whatever the tables: slots, text room, and the output of each
/// mode but alternatives, which have no such size (where they are refused with `Refusal::Output`, the place is what they need).
/// A text of `b` bytes has at most `b` characters, and at most `MOST_CHARACTERS` where it is not refused.
pub const fn slots_for(n: usize) -> usize {
    17 * 12 * (n + 18)
}

pub const fn room_for(n: usize) -> usize {
    17 * 606 * (n + 18)
}

pub const fn string_for(n: usize) -> usize {
    606 * n
}

pub const fn path_for(n: usize) -> usize {
    5 + (8 + 606) * n
}

pub const fn all_edges_for(n: usize) -> usize {
    5 + 17 * (8 + 606) * n
}

/// Bytes of stack that are enough for a call, on x86-64 as the library is built there, whatever text and tables; a text of
/// `SHORT_CHARACTERS` at most needs `SHORT_STACK`.
pub const SHORT_CHARACTERS: usize = 512;
pub const SHORT_STACK: usize = 26624;
pub const STACK: usize = 83968;

/// What a call may choose; all of it is off by default.
#[derive(Clone, Copy, Debug, Default, PartialEq, Eq)]
pub struct Choices {
    pub capitals: u8,
    pub o_ang: u8,
    pub readings: u8,
}

/// Tables that are lent to calls. They need not be right: a call checks them. One without rows is `&[1, 0, 0, 0, 0]`.
#[derive(Clone, Copy)]
pub struct Tables<'a> {
    pub rules: &'a [u8],
    pub classes: &'a [u8],
    pub vowels: &'a [u8],
    pub decompositions: &'a [u8],
}

/// Rooms that a call works in and writes to.
pub struct Rooms<'a> {
    pub slots: &'a mut [u8],
    pub room: &'a mut [u8],
    pub out: &'a mut [u8],
}

#[link(name = "jettyfig", kind = "static")]
unsafe extern "C" {
    fn jettyfig_romanize(
        mode: u8,
        capitals: u8,
        o_ang: u8,
        readings: u8,
        rules: *const u8,
        rules_length: usize,
        classes: *const u8,
        classes_length: usize,
        vowels: *const u8,
        vowels_length: usize,
        decompositions: *const u8,
        decompositions_length: usize,
        code: *const u8,
        code_length: usize,
        text: *const u8,
        text_length: usize,
        slots: *mut u8,
        slots_length: usize,
        room: *mut u8,
        room_length: usize,
        out: *mut u8,
        out_length: usize,
    ) -> Answer;
}

/// The call. Its borrows say what C can't: no slice is null, and those that are written overlap no other.
pub fn romanize(mode: u8, choices: Choices, tables: Tables, code: &[u8], text: &[u8], rooms: Rooms) -> Answer {
    // SAFETY: each pointer comes with the length of its slice, and the borrows last through the call.
    unsafe {
        jettyfig_romanize(
            mode,
            choices.capitals,
            choices.o_ang,
            choices.readings,
            tables.rules.as_ptr(),
            tables.rules.len(),
            tables.classes.as_ptr(),
            tables.classes.len(),
            tables.vowels.as_ptr(),
            tables.vowels.len(),
            tables.decompositions.as_ptr(),
            tables.decompositions.len(),
            code.as_ptr(),
            code.len(),
            text.as_ptr(),
            text.len(),
            rooms.slots.as_mut_ptr(),
            rooms.slots.len(),
            rooms.room.as_mut_ptr(),
            rooms.room.len(),
            rooms.out.as_mut_ptr(),
            rooms.out.len(),
        )
    }
}
