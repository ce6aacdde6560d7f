"""design_places.py finds a place of each point that it counts, and none in a source that has none."""
import pathlib
import subprocess
import sys
import tempfile
import unittest

TOOL = pathlib.Path(__file__).resolve().parent / "design_places.py"
OLD = """#![tactic(auto)]

pub enum Found {
    At(usize),
    Nothing,
}

pub struct Told {
    pub there: bool,
    pub count: usize,
}

pub struct Held {
    pub bytes: [u8; 4],
    pub len: usize,
}

const WRONG: u8 = 1;

fn count_zeros(s: &[u8], kind: u32) -> usize
    requires { length s.now < 8 }
{
    let mut n = 0;
    let mut i = 0;
    while i < s.len() {
        if s[i] == 0 { n += 1; }
        i += 1;
    }
    n
}

fn count_ones(s: &[u8], kind: u32) -> usize
    requires { length s.now < 8 }
{
    let mut n = 0;
    let mut i = 0;
    while i < s.len() {
        if s[i] == 1 { n += 1; }
        i += 1;
    }
    n
}

fn last(s: &[u8], a: u8, b: u8, c: u8, d: u8, e: u8, f: u8) -> u8
    requires { length s.now < 8 }
{
    // while i < 3 { i += 1; } of a comment is no loop
    s[0]
}
"""
NEW = """#![tactic(auto)]

fn count_zeros(s: &[u8]) -> usize
    ensures { result <= length s.now }
{
    s.iter().filter(|x| **x == 0).count()
}
"""
COUNTED = """\
   1 1 constants of u8, u32, u64
   1 1 own enums with a value in some case
   1 1 structs with a flag beside a value
   1 2 functions with one body but for constants
   2 3 while loops that count by one
   1 5 facts required by three functions or more
   1 5 functions of more than six parameters
   1 6 arrays with a length beside
   2 7 parameters that tell a kind by a number
"""


class Counts(unittest.TestCase):
    def counted(self, code):
        with tempfile.TemporaryDirectory() as there:
            source = pathlib.Path(there) / "crates" / "some" / "src" / "lib.rt"
            source.parent.mkdir(parents=True)
            source.write_text(code, encoding="utf-8")
            for command in (["init", "-q"], ["add", "-A"]):
                subprocess.run(["git", *command], cwd=there, check=True)
            done = subprocess.run([sys.executable, TOOL], cwd=there, capture_output=True, text=True, check=True)
            return done.stdout

    def test_old(self):
        self.assertEqual(self.counted(OLD), COUNTED)

    def test_new(self):
        self.assertEqual(self.counted(NEW), "   1 3 iterator chains\n")


if __name__ == "__main__":
    unittest.main()
