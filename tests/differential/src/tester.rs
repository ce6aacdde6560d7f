//! Calls the library, compares, and counts.

use crate::call::{Answer, Call};
use crate::callfile::keep;
use crate::compare::{difference, told};
use crate::library::Library;
use crate::spoil::Spoil;
use std::path::PathBuf;

const MOST_DIFFERENCES: u64 = 20;
const HIGHEST_NUMBER: usize = 25;

pub struct Tester {
    folder: PathBuf,
    library: Library,
    pub spoil: Spoil,
    /// whether a case that differs is written to a file of its own
    pub keeps: bool,
    pub cases: u64,
    /// cases in which the choice of capitals has changed letters
    pub capitalized: u64,
    /// cases in which a walk behind O ang ended at a space before what it would have found
    pub walk_ended: u64,
    /// cases that choose readings, and those of them that list some; readings that were kept out
    pub chose_readings: u64,
    pub listed_readings: u64,
    pub kept_out: u64,
    /// cases in which a decomposition has an edge
    pub decomposed: u64,
    /// cases whose text is read and has over 512 characters, and those of them that have 4,096
    pub long_texts: [u64; 2],
    /// texts of rules of over 64 bytes, and those of them that have 200
    pub long_targets: [u64; 2],
    /// cases by the number that was wanted
    numbers: [u64; HIGHEST_NUMBER + 1],
    differ: u64,
    spoilt_found: u64,
}

impl Tester {
    pub fn new(folder: PathBuf, spoil: Spoil) -> Self {
        let library = Library::new(&folder);
        let numbers = [0; HIGHEST_NUMBER + 1];
        Tester {
            folder,
            library,
            spoil,
            keeps: true,
            cases: 0,
            capitalized: 0,
            walk_ended: 0,
            chose_readings: 0,
            listed_readings: 0,
            kept_out: 0,
            decomposed: 0,
            long_texts: [0; 2],
            long_targets: [0; 2],
            numbers,
            differ: 0,
            spoilt_found: 0,
        }
    }

    /// One case, unless there were differences enough. `strange` says what is wrong with it before the library is asked.
    pub fn test(&mut self, name: &str, call: &Call, wanted: &Answer, strange: Option<String>, rubbish: u64) {
        if self.enough() {
            return;
        }
        self.library.call(call, rubbish);
        let spoilt = self.spoil.spoil(self.cases, &mut self.library);
        let found = match strange {
            Some(what) => Some(format!("{what}; the library: {}", told(&self.library.numbers))),
            None => difference(call, wanted, &self.library),
        };
        match found {
            Some(_) if spoilt => self.spoilt_found += 1,
            Some(what) => self.report(name, call, wanted, &what),
            None => {}
        }
        self.cases += 1;
        self.numbers[(wanted.numbers.number as usize).min(HIGHEST_NUMBER)] += 1;
    }

    fn report(&mut self, name: &str, call: &Call, wanted: &Answer, what: &str) {
        self.differ += 1;
        let (mode, [capitals, o_ang, readings]) = (call.mode, call.choices.all());
        let asked = format!("mode {mode}, capitals {capitals}, O ang {o_ang}, readings {readings}");
        println!("difference {}: {name} case {}, {asked}: {what}", self.differ, self.cases);
        if self.keeps {
            println!("{}", keep(&self.folder, call, wanted).unwrap_or_else(|e| format!("not kept: {e}")));
        }
    }

    pub fn enough(&self) -> bool {
        self.differ >= MOST_DIFFERENCES
    }

    /// "0: 900, 1: 12, .."
    pub fn by_number(&self) -> String {
        let some = self.numbers.iter().enumerate().filter(|(_, n)| **n > 0);
        some.map(|(number, n)| format!("{number}: {n}")).collect::<Vec<_>>().join(", ")
    }

    pub fn differ(&self) -> u64 {
        self.differ
    }

    /// whether the run ends well: no difference, or, where answers were spoilt, exactly these
    pub fn well(&self) -> bool {
        let exactly = self.spoil.done == self.spoil.wanted && self.spoilt_found == self.spoil.done;
        if self.spoil.wanted > 0 {
            let said = if exactly && self.differ == 0 { "and no others" } else { "NOT exactly the spoilt ones" };
            println!("{} answers spoilt, {} of them found, {said}", self.spoil.done, self.spoilt_found);
        }
        exactly && self.differ == 0
    }
}
