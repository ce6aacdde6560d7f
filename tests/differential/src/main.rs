//! Holds the proved library against the published Rust.
//!
//!     differential FOLDER SECONDS SEED [--spoil N]     cases from a seed
//!     differential FOLDER --calls FILE.. [--spoil N]   calls of files
//!
//! FOLDER gets a call file for each difference; where the library can't be linked, it has the program `answers`. Status 0:
//! none differs, or exactly the spoilt ones; 1: otherwise; 2: bad usage, or a file cannot be read.

mod alphabets;
mod call;
mod callfile;
mod compare;
mod damage;
mod damaged_form;
mod damaged_rule;
mod damaged_table;
#[cfg(not(target_arch = "x86_64"))]
mod emulated;
mod forms;
mod generated;
#[cfg(target_arch = "x86_64")]
#[path = "../../../include/jettyfig.rs"]
mod jettyfig;
mod judge;
mod library;
#[cfg(target_arch = "x86_64")]
mod linked;
mod random;
mod readings;
mod recorded;
mod refusals;
mod rooms;
mod rows;
mod rule_refusals;
mod rules;
mod spoil;
mod tester;
mod texts;
mod world;

use spoil::Spoil;
use std::process::ExitCode;
use tester::Tester;

/// of so many cases one is spoilt
const SPOILT_EVERY: u64 = 97;

const USAGE: &str = "usage: run SECONDS SEED [--spoil N] | run --calls FILE.. [--spoil N]";

/// `--spoil N` taken out of the arguments
fn spoil(arguments: &mut Vec<String>) -> Option<u64> {
    let Some(at) = arguments.iter().position(|a| a == "--spoil") else {
        return Some(0);
    };
    let n = arguments.get(at + 1)?.parse().ok()?;
    arguments.drain(at..at + 2);
    Some(n)
}

/// runs what the arguments ask for; none where they make no sense
fn run(mut arguments: Vec<String>) -> Option<Result<bool, String>> {
    let wanted = spoil(&mut arguments)?;
    let (folder, asked) = arguments.split_first()?;
    let tester = |seed| Tester::new(folder.into(), Spoil::new(wanted, SPOILT_EVERY, seed));
    match asked {
        [first, files @ ..] if first == "--calls" && !files.is_empty() => {
            let mut tester = tester(0);
            Some(recorded::run(&mut tester, files).map(|()| tester.well()))
        }
        [seconds, seed] => {
            let (seconds, seed) = (seconds.parse().ok()?, seed.parse().ok()?);
            let mut tester = tester(seed);
            generated::run(&mut tester, seconds, seed);
            Some(Ok(tester.well()))
        }
        _ => None,
    }
}

fn main() -> ExitCode {
    match run(std::env::args().skip(1).collect()) {
        Some(Ok(true)) => ExitCode::SUCCESS,
        Some(Ok(false)) => ExitCode::from(1),
        Some(Err(what)) => {
            eprintln!("{what}");
            ExitCode::from(2)
        }
        None => {
            eprintln!("{USAGE}");
            ExitCode::from(2)
        }
    }
}
