"""What the pages say of the project's files is so."""
import pathlib
import re
import subprocess
import sys
import unittest

ROOT = pathlib.Path(__file__).resolve().parents[1]
PAGES = [ROOT / "README.md", *ROOT.glob("docs/**/*.md"), *ROOT.glob("tests/**/*.md")]
DATA = {".md", ".txt", ".xz", ".diff"}


def language(path):
    """by the name's end, or the first line of what has none"""
    first = path.read_bytes().split(b"\n")[0] if not path.suffix else b""
    known = {".py": "Python", ".rs": "Rust", ".sh": "shell", ".c": "C"}
    found = [name for word, name in ((b"python3", "Python"), (b"sh", "shell")) if first.startswith(b"#!") and word in first]
    return "antt" if path.name.endswith(".antt.txt") else known.get(path.suffix) or (found or [path.suffix])[0]


class Pages(unittest.TestCase):
    def test_counts(self):
        done = subprocess.run([sys.executable, ROOT / "tools" / "counts.py"], capture_output=True, text=True)
        self.assertEqual(done.returncode, 0, done.stdout + done.stderr)

    def test_links(self):
        for page in PAGES:
            for link in re.findall(r"\]\((?!https?:)([^)#]+)(?:#[^)]*)?\)", page.read_text(encoding="utf-8")):
                self.assertTrue((page.parent / link).exists(), "%s: %s" % (page, link))

    def test_languages_of_the_tests(self):
        rows = re.findall(r"^\| (Python|shell|Rust|C|antt)\b[^|]*\| (.*?) \|", (ROOT / "tests" / "README.md").read_text(encoding="utf-8"), re.M)
        places = {name: re.findall(r"`([^`]+)`", where) for name, where in rows}
        for path in (ROOT / "tests").rglob("*"):
            if path.is_dir() or "__pycache__" in path.parts or language(path) in DATA:
                continue
            self.assertIn(language(path), places, path)
            allowed = places[language(path)]
            inside = path.relative_to(ROOT / "tests").as_posix()
            self.assertTrue(not allowed or any(inside.startswith(place) for place in allowed), path)


if __name__ == "__main__":
    unittest.main()
