//! The oracle: calls answered by the published Rust, whose left-out passes are switched off.
//!
//! Standard input holds cases one after another: a mode byte, a byte for each choice (capitals, O ang, readings), then
//! rules, classes, vowels, decompositions, language code and text, each a 4-byte big-endian length and its bytes.
//! Standard output holds for each a status (0 done, 1 panicked, 2 refused for mode, choices, tables, code or text),
//! the count of lattice edges (4), the output's length (4) and bytes, and then the lattice edges
//! in adding order, each its start (2), the length of its text (2), and how many edges the lattice has that a decomposition's
//! edge comes of (2; 0 for any other edge), with the length of each one's text (2) in adding order.

use oracle::{Answer, Reader};
use std::io::{Read, Write};

fn write(out: &mut impl Write, a: &Answer) -> std::io::Result<()> {
    out.write_all(&[a.status])?;
    out.write_all(&(a.added.len() as u32).to_be_bytes())?;
    out.write_all(&(a.output.len() as u32).to_be_bytes())?;
    out.write_all(&a.output)?;
    for edge in &a.added {
        for n in [&edge.start, &edge.length, &edge.inner.len()].into_iter().chain(&edge.inner) {
            out.write_all(&(*n as u16).to_be_bytes())?;
        }
    }
    Ok(())
}

fn main() {
    let mut input = Vec::new();
    std::io::stdin().lock().read_to_end(&mut input).unwrap();
    let mut out = std::io::BufWriter::new(std::io::stdout().lock());
    let mut r = Reader::new(&input);
    while !r.done() {
        let [mode, choices @ ..] = [(); 4].map(|_| r.number(1).unwrap() as u8);
        let parts = [(); 6].map(|_| {
            let n = r.number(4).unwrap() as usize;
            r.take(n).unwrap()
        });
        write(&mut out, &oracle::answer(mode, choices, parts)).unwrap();
    }
    out.flush().unwrap();
    oracle::report();
}
