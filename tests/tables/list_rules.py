#!/usr/bin/env python3
"""Writes stdin and stdout of crates/list_rules: the sample's rule table, and the listing that the program must give.
With --check it only says whether they are so already."""
import pathlib
import sys

ROOT = pathlib.Path(__file__).resolve().parents[2]
sys.path.insert(0, str(ROOT / "tests" / "generate"))
import sample
from tables import HEADER, read_rules, rule_row


def listing(table):
    """a line for each row: offset, source, target, flags; then how many there are"""
    at, rows = HEADER, read_rules(table)
    for rule in rows:
        source = " ".join("U+%04x" % ord(c) for c in rule.source)
        target = "none" if rule.target is None else '"%s"' % rule.target
        row = rule_row(*rule)
        yield "%d %s %s %02x\n" % (at, source, target, row[2])
        at += len(row)
    yield "%d rows\n" % len(rows)


for name, data in (("stdin", sample.RULES), ("stdout", "".join(listing(sample.RULES)).encode())):
    path = ROOT / "crates" / "list_rules" / name
    if sys.argv[1:] != ["--check"]:
        path.write_bytes(data)
    elif path.read_bytes() != data:
        sys.exit("%s is not what %s writes" % (path, sys.argv[0]))
