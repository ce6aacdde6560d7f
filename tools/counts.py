#!/usr/bin/env python3
"""Counts that the pages state, beside what is counted now: a line for each that differs, and how many there are.

Of each crate its functions, the lines of its specs and laws and its wrong edits (docs/MEASURES.md); the definition's lines, by
the command that stands there; vectors and frozen calls, by what their programs print."""
import collections
import pathlib
import re
import subprocess
import sys

ROOT = pathlib.Path(__file__).resolve().parents[1]
sys.path.insert(0, str(ROOT / "tests" / "calls"))
import callfile

PAGES = ["README.md", "docs/CONTRACTS.md", "docs/MEASURES.md", "tests/calls/README.md"]


def page(name):
    return (ROOT / name).read_text(encoding="utf-8")


def number(written):
    return int(written.replace(",", "") or 0)


def crate(name):
    """functions, lines that are not blank in specs and in proofs besides the functions' own, wrong edits"""
    folder = ROOT / "crates" / name
    code = "\n".join(path.read_text() for path in folder.glob("src/*.rt"))
    laws = [line for part in ("specs", "proofs") for path in folder.glob(part + "/*.antt") for line in path.read_text().splitlines()]
    functions = re.findall(r'^\s*(?:pub )?(?:extern "C" )?fn ', code, re.M)
    return len(functions), sum(1 for line in laws if line.strip()), len(list(folder.glob("must-fail/*.edit")))


def crates():
    """each row of the table of crates"""
    row = re.compile(r"^\| (\w+)(?: \((?:a program, )?(\d+) functions?\))? \| ([\d,]*) \| (?:\d+ s)? \| (\d*) \|$", re.M)
    found = row.findall(page("docs/MEASURES.md"))
    for name, *stated in found:
        for what, one, other in zip(("functions", "lines of specs and laws", "wrong edits"), map(number, stated), crate(name)):
            yield "%s: %s" % (name, what), one, other
    yield "docs/MEASURES.md: crates", len(found), len(list(ROOT.glob("crates/*/src")))


def definition():
    """the sentence on the definition's size, and the command below it"""
    modules, lines, command = re.search(r"is the (\d+) modules .*: ([\d,]+) lines besides.*\n\n    (.*)\n", page("docs/MEASURES.md")).groups()
    counted = subprocess.run(["bash", "-c", command], cwd=ROOT, capture_output=True, text=True, check=True).stdout
    yield "the definition's lines", number(lines), number(counted.strip())
    listed = (ROOT / "crates" / "definition" / "specs" / "Lib.antt").read_text().split("Compute")[0]
    yield "the definition's modules", number(modules), len(re.findall(r"^pub mod \w", listed, re.M))


def phrases():
    """numbers within sentences, on any page"""
    calls = {path.name.split(".")[0]: callfile.read(path) for path in (ROOT / "tests" / "calls").glob("*.calls.xz")}
    by_hand = len(calls["refusals"]) + len(calls["most_rules"])
    patterns = [(r"(N) vectors", printed("utf8_vectors")), (r"RFC 3629, (N) with", printed("utf8_vectors")),
                (r"(N) tables", printed("tables_vectors")), (r"(N) (?:frozen calls|calls that)", printed("replay")),
                (r"(N) refusals and borders", by_hand)]
    patterns += [(re.escape(name) + r"\.calls\.xz \| (N) ", len(made)) for name, made in calls.items()]
    for pattern, counted in patterns:
        found = [(name, stated) for name in PAGES for stated in re.findall(pattern.replace("N", r"\b\d[\d,]*"), page(name))]
        for name, stated in found:
            yield "%s: %s" % (name, pattern), number(stated), counted
        if not found:
            yield "no page has " + pattern, 0, counted
    heads = by_number("File")
    for name, made in calls.items():
        numbers, row = collections.Counter(call.answer.number for call in made), by_number(name)
        for n, stated in zip(heads, row):
            yield "tests/calls/README.md: %s, answers of %d" % (name, n), stated, numbers[n]
        yield "tests/calls/README.md: %s, answers of any number" % name, sum(row), len(made)


def by_number(name):
    """a row of the table of answers by number"""
    row = re.search(r"^\| %s ((?:\| \d* )+)\|$" % name, page("tests/calls/README.md"), re.M).group(1)
    return [number(stated.strip()) for stated in row.split("|")[1:]]


def printed(name):
    """the number at the front of what a program must print"""
    return int((ROOT / "crates" / name / "stdout").read_text().split()[0])


def main():
    found = [count for source in (crates, definition, phrases) for count in source()]
    differ = [count for count in found if count[1] != count[2]]
    for what, stated, counted in differ:
        print("%s: stated %d, counted %d" % (what, stated, counted))
    print("%d counts, %d differ" % (len(found), len(differ)))
    sys.exit(len(differ) > 0)


if __name__ == "__main__":
    main()
