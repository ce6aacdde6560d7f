//! Output bytes of modes 1 to 3: a block of edges.

use crate::edge::Edge;

/// Annotation and core length of an edge.
fn annotation(e: &Edge) -> (u8, u8) {
    match e.r#type() {
        "rom" => (1, 0),
        "rom tail" => (3, 0),
        "rom exp" => (4, 0),
        "rom del" => (5, 0),
        "rom single" => (6, 0),
        "Mn" => (7, 0),
        "Cf" => (8, 0),
        "Co" => (9, 0),
        "Zs" => (10, 0),
        "orig" => (11, 0),
        "rom-alt" => (12, 0),
        "rom-alt2" => (13, 0),
        "rom-alt3" => (14, 0),
        "rom decomp" => (15, 0),
        other => {
            // exactly "rom c:CORE s:VOWEL", the text being CORE and VOWEL; anything else is a finding
            let rest = other.strip_prefix("rom c:").unwrap_or_else(|| panic!("annotation {other:?}"));
            let (core, vowel) = rest.split_once(" s:").unwrap();
            assert_eq!(e.txt(), format!("{core}{vowel}"), "core and vowel");
            (2, core.len() as u8)
        }
    }
}

pub fn listing(edges: &[Edge]) -> Vec<u8> {
    let mut out = vec![1, 0, 0, 0, 0];
    for e in edges {
        let text = e.txt().as_bytes();
        let (note, core) = annotation(e);
        out.extend(((6 + text.len()) as u16).to_be_bytes());
        out.extend((e.start() as u16).to_be_bytes());
        out.extend((e.end() as u16).to_be_bytes());
        out.extend([note, core]);
        out.extend(text);
    }
    let n = (out.len() - 5) as u32;
    out[1..5].copy_from_slice(&n.to_be_bytes());
    out
}
