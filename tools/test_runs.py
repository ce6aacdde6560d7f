"""Runs that README.md and docs/FORMAT.md show, with target/bin/romanize (`tools/build romanize` builds it); skipped without it."""
import pathlib
import re
import subprocess
import sys
import tempfile
import unittest

ROOT = pathlib.Path(__file__).resolve().parents[1]
sys.path.insert(0, str(ROOT / "tools"))
import tables

PROGRAM = ROOT / "target" / "bin" / "romanize"
RUN = ROOT / "tests" / "x86_64", "run"
PACKAGES = "unicode-data", "python3-unidecode"
TABLES = "rules", "classes", "vowels", "decompositions"
# words, and what the tables of tools/make_tables make of them
READ = {
    "เชียงใหม่": "chiangmai", "ภูเก็ต": "phuket", "ขอนแก่น": "khonkaen", "หมู่บ้าน": "muban", "เกาะ": "ko", "โครงการ": "khrongkan",
    "ไทย": "thai", "อำเภอเมือง": "amphoemueang", "แก้ว": "kaeo", "จันทร์": "chan", "บัตร": "bat", "ซอย": "soi", "๑๒": "12",
    "សៀមរាប": "siemreap", "កម្ពុជា": "kampuchea", "កំពង់ចាម": "kampongcham", "ព្រះ": "preah", "ក្រុងតាខ្មៅ": "krongtakhmau", "១២": "12",
    "चंडीगढ़": "chandigarh", "मुंबई": "mumbai", "कृष्ण": "krishna", "ज्ञान": "gyan", "राष्ट्रपति": "rashtrapati", "मार्ग": "marg", "१२": "12",
    "ばっちり": "batchiri", "ラッシャー": "rasshaa", "ティーカップ": "tiikappu", "しゃちょう": "shachou", "きょうと": "kyouto",
    "横浜市": "yokohamashi", "大阪府": "osakafu", "Жукова": "Zhukova", "Łódź": "Lodz", "Việt": "Viet", "Αθήνα": "Athena", "12b": "12b",
    "第①倉庫": "dai1souko", "ＡＢＣビル": "ABCbiru", "①2": "1 2", "2½": "2 1/2", "２０１": "201", "５０㎏": "50kg", "㎕": "ml", "㈱": "㈱"}


def installed(package):
    try:
        return subprocess.run(["dpkg", "-s", package], capture_output=True).returncode == 0
    except FileNotFoundError:
        return False


HAVE_PACKAGES = unittest.skipUnless(all(map(installed, PACKAGES)), "%s and %s are missing: tools/make_tables installs them" % PACKAGES)


@unittest.skipUnless(PROGRAM.exists(), "target/bin/romanize is missing: tools/build romanize")
class Runs(unittest.TestCase):
    @HAVE_PACKAGES
    def test_the_readme(self):
        """its two commands, and the lines below them"""
        page = (ROOT / "README.md").read_text(encoding="utf-8")
        found = re.search(r"\n\n(    tools/make_tables.*\n(?:    .*\n)+)\n.*\n\n((?:    .*\n)+)\n", page)
        commands, shown = (re.sub("(?m)^    ", "", part) for part in found.groups())
        commands = commands.replace("target/bin/romanize", "tests/x86_64 run target/bin/romanize")
        done = subprocess.run(["bash", "-ec", commands], cwd=ROOT, capture_output=True, text=True, check=True)
        # make_tables says how many rows there are, which depends on Debian's release
        self.assertRegex(done.stdout, r"^\d+ rules, \d+ classes, 2 vowels, \d+ decompositions: target/tables\n")
        self.assertEqual(done.stdout.split("\n", 1)[1], shown)

    @HAVE_PACKAGES
    def test_the_readings_of_the_readme(self):
        """what mode 2 lists of a Thai word, and without the choice all but the first consonant's other reading"""
        page = (ROOT / "README.md").read_text(encoding="utf-8")
        command, shown = (re.sub("(?m)^    ", "", part) for part in re.search(r"\n    (printf .* readings)\n\n((?:    .*\n)+)", page).groups())
        command = "tools/make_tables target/tables > /dev/null; " + command.replace("target/bin/romanize", "tests/x86_64 run target/bin/romanize")
        for command, shown in ((command, shown), (command.removesuffix(" readings"), re.sub("(?m)^.* alt2 .*\n", "", shown))):
            done = subprocess.run(["bash", "-ec", command], cwd=ROOT, capture_output=True, text=True, check=True)
            self.assertEqual(done.stdout, shown)

    def test_the_choice_of_the_readme(self):
        """a line whose second word takes an "o" from the first one, unless the command chooses otherwise"""
        page = (ROOT / "README.md").read_text(encoding="utf-8")
        command = re.search(r"\n    (printf .* o_ang)\n", page)[1].replace("target/bin/romanize", "tests/x86_64 run target/bin/romanize")
        for command, shown in ((command, "k k\n"), (command.removesuffix(" o_ang"), "k ok\n")):
            done = subprocess.run(["bash", "-ec", command], cwd=ROOT, capture_output=True, text=True, check=True)
            self.assertEqual(done.stdout, shown)

    @HAVE_PACKAGES
    def test_the_tables_that_are_made(self):
        with tempfile.TemporaryDirectory() as folder:
            subprocess.run([ROOT / "tools" / "make_tables", folder], capture_output=True, check=True)
            names = [pathlib.Path(folder, name + ".bin") for name in TABLES]
            rules, kinds = tables.read_rules(names[0].read_bytes()), tables.read_classes(names[1].read_bytes())
            # a word reads the same in its line as alone where no rule has a space
            self.assertFalse([rule for rule in rules if " " in rule.source + (rule.target or "") + (rule.end or "")])
            for char, flag in (("เ", tables.PRE), ("\u0e48", tables.TONE), ("ि", tables.SIGN), ("\u094d", tables.VIRAMA),
                               ("\u17d2", tables.VIRAMA), ("ж", tables.LOWER), ("ª", tables.LOWER), ("Ж", 0)):
                self.assertEqual(kinds[char].flags, flag, char)
            # numbers of any kind and script, 0 to 9 too
            for char in "0９①½ⅷ๒\U0001f100":
                self.assertEqual(kinds[char].category, tables.NUMBER, char)
            text = "\n".join(READ).encode()
            done = subprocess.run([*RUN, PROGRAM, *names, "-", "0"], input=text, capture_output=True, check=True)
            self.assertEqual(dict(zip(READ, done.stdout.decode().split("\n"))), READ)

    def test_the_tables_of_the_format(self):
        page = (ROOT / "docs" / "FORMAT.md").read_text(encoding="utf-8")
        made = [eval(code, vars(tables)) for code in re.findall(r"```python\n(.*?)\n```", page, re.S)]
        self.assertIn("Its string is `kat`, and with the code san `kata`.", page)
        with tempfile.TemporaryDirectory() as folder:
            names = [pathlib.Path(folder, name) for name in TABLES]
            for name, table in zip(names, made):
                name.write_bytes(table)
            for code, mode, shown in (("-", "0", "kat\n"), ("san", "0", "kata\n"), ("-", "1", "0 1 core     1 ka\n1 2 rom      0 t\n")):
                done = subprocess.run([*RUN, PROGRAM, *names, code, mode], input="कत".encode(), capture_output=True, check=True)
                self.assertEqual(done.stdout.decode(), shown)
            self.assertIn("The text कत ①² is read `kat 1²`", page)
            done = subprocess.run([*RUN, PROGRAM, *names, "-", "0"], input="कत ①²".encode(), capture_output=True, check=True)
            self.assertEqual(done.stdout.decode(), "kat 1²\n")
            # the page's faults: the rows of क and त exchanged; in the row of ж another code, target's length and length
            rules = made[0]
            exchanged = tables.block([rules[5:27], rules[40:], rules[27:40]])
            faults = [(exchanged, 24, 40)] + [(rules[:at] + new + rules[at + len(new):], number, place) for at, new, number, place in (
                (15, b"RUS", 22, 15), (18, bytes([tables.MOST_TARGET + 1]), 21, 18), (6, b"\x13", 20, 26), (6, b"\x15", 20, 27))]
            for table, number, place in faults:
                self.assertIn("%d at %d" % (number, place), page)
                names[0].write_bytes(table)
                done = subprocess.run([*RUN, PROGRAM, *names, "-", "0"], input=b"", capture_output=True)
                self.assertRegex(done.stderr.decode(), "refusal %d: .* at byte %d, in row " % (number, place))


if __name__ == "__main__":
    unittest.main()
