//! The published Rust as a library, whose left-out passes are switched off: `answer` for a case with all its tables,
//! `Tables` for many texts under the same ones.
#![allow(dead_code, clippy::all)]

mod capitals;
mod dicts;
mod edge;
mod lattice;
mod listing;
mod o_ang;
mod readings;
mod shim;
mod tables;
mod utils;

pub use shim::Added;
pub use shim::blocks::report;
pub use tables::Reader;

use dicts::{Data, Dicts};
use lattice::Lattice;
use listing::listing;
use std::panic::{AssertUnwindSafe, catch_unwind};

// `decomp_rom` asks these for the string of a decomposition.
pub mod rom_format {
    pub struct Str;
}
pub struct Uroman;
impl Uroman {
    pub fn new() -> Self {
        Uroman
    }
    /// The mode 0 string under the tables and choices of the call. No character of it has a decomposition, so there is no third lattice.
    pub fn romanize_string<F>(&self, s: &str, lcode: Option<&str>) -> String {
        let made = shim::within(|| output(&mut filled(Dicts::installed(), lcode.unwrap_or(""), s), 0, s));
        String::from_utf8(made).unwrap()
    }
}

pub const DONE: u8 = 0;
pub const PANICKED: u8 = 1;
pub const REFUSED: u8 = 2;

/// What a call may choose.
#[derive(Clone, Copy)]
pub struct Choices {
    /// capitals as the Python has them
    pub capitals: bool,
    /// the walk back behind O ang ends at a space
    pub o_ang: bool,
    /// a rule's end-of-syllable target is listed among the alternatives
    pub readings: bool,
}

impl Choices {
    /// as published
    pub const NONE: Choices = Choices { capitals: false, o_ang: false, readings: false };
}

pub struct Answer {
    /// `DONE`, `PANICKED`, or `REFUSED` for mode, choices, tables, code or text
    pub status: u8,
    pub output: Vec<u8>,
    /// every lattice edge, in adding order
    pub added: Vec<Added>,
}

/// The same lattice shown in each mode.
pub struct Shown {
    pub outputs: [Vec<u8>; 4],
    /// as in `Answer`
    pub added: Vec<Added>,
    /// how many romanizations the Python rule for capitals has changed
    pub capitalized: usize,
    /// how many walks behind O ang have ended at a space before what they would have found
    pub ended_walks: usize,
    /// how many "rom-alt2" were asked for, and how many of these are listed
    pub readings: (usize, usize),
}

/// Tables that were read once.
pub struct Tables {
    data: Data,
}

impl Tables {
    /// rules, classes, vowels and decompositions; none where one of them is faulty
    pub fn read(lent: [&[u8]; 4]) -> Option<Self> {
        tables::read(lent).map(|data| Tables { data })
    }

    /// The output of a mode as published, and nothing besides. A text that `allowed_text` refuses is no text to ask.
    pub fn romanize(&self, mode: u8, code: &str, text: &str) -> Vec<u8> {
        self.installed(Choices::NONE, |dicts| output(&mut filled(dicts, code, text), mode, text))
    }

    /// The lattice of a text in all modes; none where the Rust panics.
    pub fn show(&self, choices: Choices, code: &str, text: &str) -> Option<Shown> {
        let shown = || {
            self.installed(choices, |dicts| {
                let (mut lattice, added) = filled_and_counted(dicts, code, text);
                let (capitalized, ended_walks) = (shim::choice::changes(), shim::choice::ended_walks());
                let outputs = [0, 1, 2, 3].map(|mode| output(&mut lattice, mode, text));
                Shown { outputs, added, capitalized, ended_walks, readings: shim::choice::readings() }
            })
        };
        catch_unwind(AssertUnwindSafe(shown)).ok()
    }

    fn installed<T>(&self, choices: Choices, run: impl FnOnce(Dicts) -> T) -> T {
        let _taken_out_again = Installed;
        shim::choice::set(choices);
        // SAFETY: `run` returns outputs and numbers; none of them points into the tables.
        run(unsafe { Dicts::install(&self.data) })
    }
}

/// Takes the tables out again, after a panic too.
struct Installed;
impl Drop for Installed {
    fn drop(&mut self) {
        Dicts::uninstall();
    }
}

/// As `romanize_string`, without the left-out passes.
fn filled(dicts: Dicts, code: &str, text: &str) -> Lattice {
    shim::forget_added();
    let mut lattice = Lattice::new(text, dicts, if code.is_empty() { None } else { Some(code) });
    lattice.add_romanization();
    lattice.add_rom_fall_back_singles();
    lattice
}

fn filled_and_counted(dicts: Dicts, code: &str, text: &str) -> (Lattice, Vec<Added>) {
    let lattice = filled(dicts, code, text);
    let added = shim::added();
    assert_eq!(lattice.all_edges(0, text.chars().count()).len(), added.len());
    (lattice, added)
}

fn output(lattice: &mut Lattice, mode: u8, text: &str) -> Vec<u8> {
    let n = text.chars().count();
    match mode {
        0 => {
            let path = lattice.best_rom_edge_path(0, n, false);
            path.iter().map(|edge| edge.txt()).collect::<String>().into_bytes()
        }
        1 => listing(&lattice.best_rom_edge_path(0, n, false)),
        2 => {
            let mut edges = lattice.best_rom_edge_path(0, n, false);
            lattice.add_alternatives(&mut edges);
            listing(&edges)
        }
        _ => listing(&lattice.all_edges(0, n)),
    }
}

fn left_out(c: char) -> bool {
    matches!(c, '\u{F00}'..='\u{FFF}' | '\u{2800}'..='\u{28FF}' | '\u{AC00}'..='\u{D7A3}')
}

/// The most characters of a text.
pub const MOST_CHARACTERS: usize = 4096;

/// A text that no call refuses.
pub fn allowed_text(text: &[u8]) -> Option<&str> {
    let text = std::str::from_utf8(text).ok()?;
    (text.chars().count() <= MOST_CHARACTERS && !text.chars().any(left_out)).then_some(text)
}

/// A language code that no call refuses.
pub fn allowed_code(code: &[u8]) -> Option<&str> {
    let right = code.is_empty() || (code.len() == 3 && code.iter().all(u8::is_ascii_lowercase));
    std::str::from_utf8(code).ok().filter(|_| right)
}

/// Choices that no call refuses, of capitals, O ang and readings.
pub fn allowed_choices(asked: [u8; 3]) -> Option<Choices> {
    let [capitals, o_ang, readings] = asked.map(|choice| choice == 1);
    asked.iter().all(|choice| *choice <= 1).then_some(Choices { capitals, o_ang, readings })
}

pub fn answer(mode: u8, choices: [u8; 3], [rules, classes, vowels, decompositions, code, text]: [&[u8]; 6]) -> Answer {
    let empty = |status| Answer { status, output: Vec::new(), added: Vec::new() };
    let read = Tables::read([rules, classes, vowels, decompositions]);
    let asked = (allowed_choices(choices), allowed_code(code), allowed_text(text));
    let (Some(tables), (Some(choices), Some(code), Some(text)), 0..=3) = (read, asked, mode) else {
        return empty(REFUSED);
    };
    let run = || {
        tables.installed(choices, |dicts| {
            let (mut lattice, added) = filled_and_counted(dicts, code, text);
            Answer { status: DONE, output: output(&mut lattice, mode, text), added }
        })
    };
    catch_unwind(AssertUnwindSafe(run)).unwrap_or_else(|_| empty(PANICKED))
}
