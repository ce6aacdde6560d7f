//! Call files, as tests/calls/callfile.py reads and writes them.

use crate::call::{Answer, Call, Choices, Numbers, Parts};
use oracle::Reader;
use std::path::Path;
use std::process::Command;

/// the bytes of a call file; one whose name ends in .xz is unpacked
pub fn bytes(path: &str) -> Result<Vec<u8>, String> {
    let failed = |e: &dyn std::fmt::Display| format!("{path}: {e}");
    if !path.ends_with(".xz") {
        return std::fs::read(path).map_err(|e| failed(&e));
    }
    let run = Command::new("xz").args(["-dc", "--", path]).output().map_err(|e| failed(&e))?;
    if run.status.success() { Ok(run.stdout) } else { Err(failed(&String::from_utf8_lossy(&run.stderr).trim())) }
}

/// the calls of a file and their recorded answers; none where it is cut short
pub fn calls(bytes: &[u8]) -> Option<Vec<(Call<'_>, Answer<'_>)>> {
    let mut r = Reader::new(bytes);
    let mut calls = Vec::new();
    while !r.done() {
        calls.push(next(&mut r)?);
    }
    Some(calls)
}

fn next<'a>(r: &mut Reader<'a>) -> Option<(Call<'a>, Answer<'a>)> {
    let mode = r.number(1)? as u8;
    let mut one = || Some(r.number(1)? as u8);
    let choices = Choices { capitals: one()?, o_ang: one()?, readings: one()? };
    let mut lent = [0; 3];
    for n in &mut lent {
        *n = r.number(4)? as usize;
    }
    let mut parts: Parts = Default::default();
    for part in &mut parts {
        let n = r.number(4)? as usize;
        *part = r.take(n)?;
    }
    let mut four = |n| Some(r.number(n)? as u64);
    let numbers = Numbers { number: four(1)?, place: four(4)?, length: four(4)?, edges: four(4)? };
    let output = r.take(numbers.length as usize)?;
    Some((Call { mode, choices, parts, lent }, Answer { numbers, output }))
}

fn encoded(call: &Call, answer: &Answer) -> Vec<u8> {
    let mut bytes = vec![call.mode];
    bytes.extend(call.choices.all());
    let four = |n: usize| (n as u32).to_be_bytes();
    bytes.extend(call.lent.iter().flat_map(|n| four(*n)));
    for part in call.parts {
        bytes.extend(four(part.len()));
        bytes.extend(part);
    }
    let a = answer.numbers;
    bytes.push(a.number as u8);
    bytes.extend([a.place, a.length, a.edges].iter().flat_map(|n| four(*n as usize)));
    bytes.extend(answer.output);
    bytes
}

/// Writes a call to the first of difference-1.calls, difference-2.calls, .. that is not there yet: runs beside each other
/// take different ones.
pub fn keep(folder: &Path, call: &Call, answer: &Answer) -> std::io::Result<String> {
    use std::io::{ErrorKind, Write};
    let mut k = 1;
    loop {
        let path = folder.join(format!("difference-{k}.calls"));
        match std::fs::File::create_new(&path) {
            Ok(mut file) => {
                file.write_all(&encoded(call, answer))?;
                return Ok(path.display().to_string());
            }
            Err(e) if e.kind() == ErrorKind::AlreadyExists => k += 1,
            Err(e) => return Err(e),
        }
    }
}
