"""contracts.py finds a contract that moved, and one that reads as before while a name in it means something else."""
import pathlib
import subprocess
import sys
import tempfile
import unittest

TOOL = pathlib.Path(__file__).resolve().parent / "contracts.py"
CODE = """#![tactic(auto)]

ghost use Rattle.sum.specs.Sums.{twice, value};

// A number.
#[derive(Drop)]
pub struct Number {
    pub digits: u32,
}

// Two of it.
pub fn twice(n: u32) -> u32
    requires { n < 8 }
    ensures { result ≡ twice n }
{
    %s
}

// One more.
pub fn next(n: Number) -> u32
    ensures { result ≡ value n + 1 }
{
    n.digits + 1
}

fn half(n: u32) -> u32
    ensures { result ≡ n / 2 }
{
    n / 2
}
"""
SPECS = """-- Sums.
use Rattle.std.specs.Prelude.{ℕ, ◌+◌}
use Rattle.sum.specs.declared.Number.{Number}

abbrev pub value : Number → ℕ
value n = n.digits

one : ℕ
one = 1

unfoldable pub twice : ℕ → ℕ
twice n = n + n + %s
"""
# a crate above it, whose contracts speak of two of its types
ABOVE = """use sum::{
    Number, Other,
};

pub fn same(n: Number) -> Number
    ensures { result ≡ n }
{
    n
}
"""
# a type in a file of its own, which lib.rt hands on; a method of it, and a conversion to it
KEPT = """// A number that was checked.
#[derive(Clone, Copy)]
pub struct Kept {
    pub digits: u32,
    pub ghost small: { digits < 8 },
}
"""
HANDED = """mod kept;

pub use kept::Kept;

impl Kept {
    // One more.
    pub fn more(self) -> u32
        ensures { result ≡ self.digits + 1 }
    {
        self.digits + 1
    }
}

impl From<bool> for Kept {
    ghost from_gives = { λ b kept. kept.digits ≡ 1 };

    fn from(b: bool) -> Kept {
        Kept { digits: 1 }
    }
}
"""
TAKING = """use sum::Kept;

pub fn digits(kept: &Kept) -> u32
    ensures { result ≡ kept.now.digits }
{
    kept.digits
}
"""
LAST = "%d contracts of public functions stand, %d of them moved; %d functions gone, %d new; %d files of the specs of definition, stretches, jettyfig, %d differ"


class Contracts(unittest.TestCase):
    def setUp(self):
        self.folder = tempfile.TemporaryDirectory()
        self.addCleanup(self.folder.cleanup)
        self.root = pathlib.Path(self.folder.name)
        (self.root / "tools").mkdir()
        (self.root / "tools" / "contracts.py").write_bytes(TOOL.read_bytes())
        self.write("src/lib.rt", CODE % "n + n")
        self.write("specs/Sums.antt", SPECS % "0")
        subprocess.run(["git", "init", "-q"], cwd=self.root, check=True)
        self.commit()

    def write(self, name, text, crate="sum"):
        path = self.root / "crates" / crate / name
        path.parent.mkdir(parents=True, exist_ok=True)
        path.write_text(text, encoding="utf-8")

    def commit(self):
        for words in (["add", "."], ["-c", "user.name=t", "-c", "user.email=t@t", "commit", "-q", "-m", "t"]):
            subprocess.run(["git", *words], cwd=self.root, check=True)

    def told(self, status, *numbers, specs=(0, 0)):
        done = subprocess.run([sys.executable, self.root / "tools" / "contracts.py", "HEAD", "--private"], capture_output=True, text=True)
        self.assertEqual((done.returncode, done.stdout.splitlines()[-1:]), (status, [LAST % (*numbers, *specs)]), done.stdout + done.stderr)
        return done.stdout

    def hand_on(self):
        self.write("src/kept.rt", KEPT)
        self.write("src/lib.rt", HANDED)
        self.write("src/lib.rt", TAKING, "above")
        self.commit()

    def test_another_body(self):
        self.write("src/lib.rt", CODE % "2 * n")
        self.told(0, 2, 0, 0, 0)

    def test_another_contract(self):
        self.write("src/lib.rt", (CODE % "n + n").replace("n < 8", "n < 9"))
        self.assertIn("public functions, moved: sum::twice", self.told(1, 2, 1, 0, 0))

    def test_another_name(self):
        self.write("src/lib.rt", (CODE % "n + n").replace("pub fn twice", "pub fn doubled"))
        self.told(0, 1, 0, 1, 1)

    def test_another_meaning(self):
        self.write("specs/Sums.antt", SPECS % "1")
        self.assertIn("sum::twice speaks of sum.Sums.twice", self.told(1, 2, 1, 0, 0))

    def test_another_meaning_below(self):
        self.write("specs/Sums.antt", (SPECS % "one"))
        self.commit()
        self.write("specs/Sums.antt", (SPECS % "one").replace("one = 1", "one = 2"))
        self.assertIn("sum::twice speaks of sum.Sums.twice", self.told(1, 2, 1, 0, 0))

    def test_another_struct(self):
        self.write("src/lib.rt", (CODE % "n + n").replace("digits: u32", "digits: u64"))
        self.assertIn("sum::next speaks of sum.Sums.value, sum.declared.Number", self.told(1, 2, 1, 0, 0))

    def test_another_struct_below(self):
        self.write("src/lib.rt", ABOVE, "above")
        self.commit()
        self.write("src/lib.rt", (CODE % "n + n").replace("digits: u32", "digits: u64"))
        self.assertIn("above::same speaks of sum.declared.Number", self.told(1, 3, 2, 0, 0))

    def test_a_derive_more(self):
        self.write("src/lib.rt", (CODE % "n + n").replace("(Drop)", "(Clone, Copy)"))
        self.told(0, 2, 0, 0, 0)

    def test_a_derive_less(self):
        self.write("src/lib.rt", (CODE % "n + n").replace("(Drop)", "(Clone, Copy)"))
        self.commit()
        self.write("src/lib.rt", CODE % "n + n")
        self.assertIn("sum::next speaks of sum.Sums.value, sum.declared.Number", self.told(1, 2, 1, 0, 0))

    def test_no_derive(self):
        self.write("src/lib.rt", (CODE % "n + n").replace("#[derive(Drop)]\n", ""))
        self.assertIn("sum::next speaks of sum.Sums.value, sum.declared.Number", self.told(1, 2, 1, 0, 0))

    def test_another_ghost_field_in_another_file(self):
        self.hand_on()
        self.write("src/kept.rt", KEPT.replace("digits < 8", "digits < 9"))
        self.assertIn("above::digits speaks of sum.declared.Kept", self.told(1, 3, 3, 0, 0))

    def test_another_file(self):
        self.hand_on()
        self.write("src/kept.rt", "")
        self.write("src/lib.rt", HANDED.replace("mod kept;\n\npub use kept::Kept;\n", KEPT))
        self.told(0, 3, 0, 0, 0)

    def test_another_struct_by_its_file(self):
        self.write("src/kept.rt", KEPT)
        self.write("specs/Sums.antt", (SPECS % "0").replace("declared.Number", "declared.kept.Kept").replace("Number", "Kept"))
        self.commit()
        self.write("src/kept.rt", KEPT.replace("digits < 8", "digits < 9"))
        self.assertIn("sum::next speaks of sum.Sums.value", self.told(1, 2, 1, 0, 0))

    def test_another_contract_of_a_method(self):
        self.hand_on()
        self.write("src/lib.rt", HANDED.replace("≡ self.digits + 1", "≡ self.digits + 2"))
        self.assertIn("public functions, moved: sum::Kept::more", self.told(1, 3, 1, 0, 0))

    def test_another_conversion(self):
        self.hand_on()
        self.write("src/lib.rt", HANDED.replace("kept.digits ≡ 1", "kept.digits ≡ 2"))
        self.assertIn("public functions, moved: sum::Kept::From<bool>", self.told(1, 3, 1, 0, 0))

    def test_another_body_of_a_method_and_a_conversion(self):
        self.hand_on()
        self.write("src/lib.rt", HANDED.replace("  self.digits + 1", "  1 + self.digits").replace("digits: 1 }", "digits: 1u32 }"))
        self.told(0, 3, 0, 0, 0)

    def test_another_theorem(self):
        self.write("proofs/Laws.antt", "pub law : 1 ≡ 1\nlaw = refl\n", "definition")
        self.commit()
        self.told(0, 2, 0, 0, 0, specs=(1, 0))
        self.write("proofs/Laws.antt", "pub law : 2 ≡ 2\nlaw = refl\n", "definition")
        self.assertIn("specs, moved: crates/definition/proofs/Laws.antt", self.told(1, 2, 0, 0, 0, specs=(1, 1)))

    def test_another_meaning_in_proofs(self):
        self.write("src/lib.rt", (CODE % "n + n").replace("Rattle.sum.specs.Sums.{twice, value}", "Rattle.definition.proofs.Sums.{twice, value}"))
        self.write("proofs/Sums.antt", SPECS % "0", "definition")
        self.commit()
        self.write("proofs/Sums.antt", SPECS % "1", "definition")
        self.assertIn("sum::twice speaks of definition.Sums.twice", self.told(1, 2, 1, 0, 0, specs=(1, 1)))

    def test_private(self):
        self.write("src/lib.rt", (CODE % "n + n").replace("≡ n / 2", "≡ n / 3"))
        self.assertIn("private functions, moved: sum::half", self.told(0, 2, 0, 0, 0))


if __name__ == "__main__":
    unittest.main()
