//! The same texts through the published Rust and the proved library, in one run. FOLDER holds rules.bin, classes.bin,
//! vowels.bin, decompositions.bin and labels.txt.
//!
//!   bench FOLDER                                 times: labels, and texts of 64 to 4,096 characters, which are labels joined
//!                                                by spaces, in all four modes
//!   bench FOLDER count WHO LENGTH MODE TIMES     so many calls, to count their instructions: WHO is `rust`, `library`,
//!                                                `readings` for the library with this choice, or `empty` for the library
//!                                                with empty texts; LENGTH 0 takes labels
//!   bench FOLDER once MODE                       one call with the text of text.txt, and the Rust's answer beside it
//!
//! A call of the library checks its tables each time, and the Rust reads its tables once. So the engine is told apart from the
//! whole call: its time is that of the call less that of one with the same tables and rooms and an empty text.

#[path = "../../include/jettyfig.rs"]
mod jettyfig;

use jettyfig::{Choices, Rooms, Tables, room_for, slots_for};
use std::time::{Duration, Instant};

const ROUNDS: usize = 7;
const MODES: [(u8, &str); 4] = [(0, "string"), (1, "path"), (2, "alternatives"), (3, "all edges")];
const LENGTHS: [usize; 6] = [0, 64, 512, 1024, 2048, 4096];

/// enough for a text of 512 characters of these labels; longer ones get as many times as much
const ENOUGH_FOR: usize = 512;
const SLOTS: usize = 64 * 1024;
const ROOM: usize = 64 * 1024;
const OUT: usize = 256 * 1024;

/// What the library is lent for all calls.
struct Lent<'a> {
    choices: Choices,
    tables: Tables<'a>,
    slots: Vec<u8>,
    room: Vec<u8>,
    out: Vec<u8>,
}

impl Lent<'_> {
    /// rooms for texts of so many characters
    fn make_room(&mut self, length: usize) {
        let times = length.div_ceil(ENOUGH_FOR).max(1);
        (self.slots, self.room, self.out) = (vec![0; times * SLOTS], vec![0; times * ROOM], vec![0; times * OUT]);
    }

    fn romanize(&mut self, mode: u8, text: &str) -> &[u8] {
        let rooms = Rooms { slots: &mut self.slots, room: &mut self.room, out: &mut self.out };
        let answer = jettyfig::romanize(mode, self.choices, self.tables, b"", text.as_bytes(), rooms);
        assert_eq!(answer.number, 0, "{text}: refused at {}", answer.place);
        &self.out[..answer.length as usize]
    }
}

fn timed(run: impl FnOnce()) -> Duration {
    let began = Instant::now();
    run();
    began.elapsed()
}

/// Shortest times of some rounds, those that are compared one after the other in each.
#[derive(Clone, Copy)]
struct Times {
    rust: Duration,
    whole: Duration,
    checks: Duration,
}

impl Times {
    fn least(self, other: Times) -> Times {
        Times {
            rust: self.rust.min(other.rust),
            whole: self.whole.min(other.whole),
            checks: self.checks.min(other.checks),
        }
    }
}

fn round(published: &oracle::Tables, library: &mut Lent, mode: u8, texts: &[String]) -> Times {
    Times {
        rust: timed(|| texts.iter().for_each(|text| drop(published.romanize(mode, "", text)))),
        whole: timed(|| texts.iter().for_each(|text| drop(library.romanize(mode, text).len()))),
        checks: timed(|| texts.iter().for_each(|_| drop(library.romanize(mode, "").len()))),
    }
}

/// The labels themselves, or joined by spaces and cut to so many characters each.
fn texts(labels: &str, length: usize) -> Vec<String> {
    if length == 0 {
        return labels.lines().map(str::to_string).collect();
    }
    let all: Vec<char> = labels.lines().collect::<Vec<_>>().join(" ").chars().collect();
    all.chunks_exact(length).map(|part| part.iter().collect()).collect()
}

fn compare(published: &oracle::Tables, library: &mut Lent, labels: &str) {
    for length in LENGTHS {
        let texts = texts(labels, length);
        library.make_room(length);
        let n = texts.len();
        let characters = texts.iter().map(|text| text.chars().count()).sum::<usize>();
        println!("{n} texts of {:.1} characters on average; microseconds a text", characters as f64 / n as f64);
        for (mode, name) in MODES {
            for text in &texts {
                assert_eq!(published.romanize(mode, "", text), library.romanize(mode, text), "{text}");
            }
            let rounds = (0..ROUNDS).map(|_| round(published, library, mode, &texts));
            let Times { rust, whole, checks } = rounds.reduce(Times::least).unwrap();
            let each = |d: Duration| d.as_secs_f64() * 1e6 / n as f64;
            let engine = each(whole) - each(checks);
            println!(
                "{name}: the Rust's engine {:.1}, the library's engine {engine:.1} ({:.1} times as fast); its whole call {:.1}, with tables checked in {:.1}",
                each(rust),
                each(rust) / engine,
                each(whole),
                each(checks)
            );
        }
    }
}

fn main() {
    let words: Vec<String> = std::env::args().skip(1).collect();
    let folder = words.first().expect("usage: bench FOLDER");
    let read = |name: &str| std::fs::read(format!("{folder}/{name}")).expect(name);
    let text = |name: &str| String::from_utf8(read(name)).expect("UTF-8");
    let number = |at: usize| words[at].parse::<usize>().expect("a number");
    let (rules, classes, vowels) = (read("rules.bin"), read("classes.bin"), read("vowels.bin"));
    let decompositions = read("decompositions.bin");
    let tables = Tables { rules: &rules, classes: &classes, vowels: &vowels, decompositions: &decompositions };
    let choices = Choices::default();
    let mut library = Lent { choices, tables, slots: Vec::new(), room: Vec::new(), out: Vec::new() };
    let published = || oracle::Tables::read([&rules, &classes, &vowels, &decompositions]).expect("the tables are right");
    match words.get(1).map(String::as_str) {
        None => {
            compare(&published(), &mut library, &text("labels.txt"));
            println!("the Rust reads its tables once, in {:.0}", timed(|| drop(published())).as_secs_f64() * 1e6);
        }
        Some("count") => {
            let (who, texts, mode, times) = (&words[2], texts(&text("labels.txt"), number(3)), number(4) as u8, number(5));
            library.make_room(number(3));
            let taken = texts.iter().take(times);
            library.choices.readings = (who == "readings") as u8;
            match who.as_str() {
                "rust" => {
                    let published = published();
                    taken.for_each(|text| drop(published.romanize(mode, "", text)));
                }
                "empty" => taken.for_each(|_| drop(library.romanize(mode, "").len())),
                _ => taken.for_each(|text| drop(library.romanize(mode, text).len())),
            }
        }
        _ => {
            let (text, mode) = (text("text.txt"), number(2) as u8);
            // what alternatives keep in mind stands in the room that is free: a short text gets as much of it as a longer one
            let n = text.chars().count().max(ENOUGH_FOR);
            (library.slots, library.room) = (vec![0; slots_for(n)], vec![0; room_for(n)]);
            library.out = vec![0; 1 << 26];
            // the first call touches memory that was never used
            let answered = library.romanize(mode, &text).to_vec();
            let whole = timed(|| drop(library.romanize(mode, &text).len()));
            let checks = timed(|| drop(library.romanize(mode, "").len()));
            println!("the library {:.0} microseconds, with tables checked in {:.0}", whole.as_secs_f64() * 1e6, checks.as_secs_f64() * 1e6);
            let published = published();
            let mut answer = Vec::new();
            let rust = timed(|| answer = published.romanize(mode, "", &text));
            println!("the Rust {:.0}", rust.as_secs_f64() * 1e6);
            assert_eq!(answer, answered);
        }
    }
}
