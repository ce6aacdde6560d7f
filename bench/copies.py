#!/usr/bin/env python3
"""How many bytes of romanizations does a function hold, with what it calls, before a compiler has done anything? Of each function
its parameters, its answer and its variables that have an array for a romanization's text, along the chain of calls that has the
most; what is compiled into one frame may share some of them.

It reads the code of the crate and of those below it, which `rt lib` proves and builds first, where anything has changed.

usage: copies.py CRATE FUNCTION    as in copies.py vowel_step add_default_abugida_vowel"""
import json
import pathlib
import subprocess
import sys

ROOT = pathlib.Path(__file__).resolve().parents[1]
sys.path.insert(0, str(ROOT / "tools"))
from tables import MOST_EDGE_TEXT as MOST_BYTES


def size(kind, types):
    """bytes of a type, and whether a romanization's text is in it"""
    head, of = next(iter(kind.items())) if isinstance(kind, dict) else (kind, None)
    if head == "Int":
        return of // 8, False
    if head == "Array":
        inner, holds = size(of[0], types)
        count = of[1]["Lit"]
        return inner * count, holds or inner == 1 and count == MOST_BYTES
    if head == "Named":
        shape = types.get(of[0]["name"], {})
        parts = [size(part, types) for part in shape["Fields"]] if "Fields" in shape else [(8, False)]
        return sum(part for part, _ in parts), any(holds for _, holds in parts)
    return {"Bool": 1, "Struct": 16}.get(head, 8), False


def calls(tree):
    """names of the functions that are called anywhere in a tree"""
    if isinstance(tree, dict):
        if "Fn" in tree:
            yield tree["Fn"][0]
        tree = list(tree.values())
    if isinstance(tree, list):
        for part in tree:
            yield from calls(part)


def needed(crate):
    """a crate and those below it"""
    lines = [line.split("#")[0].split(":") for line in (ROOT / "crates.txt").read_text(encoding="utf-8").split("\n")]
    below = {parts[0].split()[0]: parts[1].split() for parts in lines if len(parts) == 2}
    left, found = [crate], set()
    while left:
        name = left.pop()
        if name in below and name not in found:
            found.add(name)
            left += below[name]
    return sorted(found)


def main(crate, function):
    if crate not in needed(crate):
        sys.exit("no crate " + crate)
    # the code as it is now: what other builds have left may be of another state
    built = subprocess.run(["rt", "lib"], cwd=ROOT / "crates" / crate, stdout=subprocess.PIPE, stderr=subprocess.STDOUT, text=True)
    if built.returncode != 0:
        sys.exit(built.stdout + "rt lib: %s is not proved" % crate)
    found = {}
    for path in [ROOT / "crates" / name / "out" / "rlib" / (name + ".rlib") / "toolchain" / "mir.json" for name in needed(crate)]:
        for name, code in json.loads(path.read_text(encoding="utf-8")):
            types = {made["name"]: made["shape"] for made in code["types"]}
            held = [size(local["ty"], types) for local in code["locals"]]
            found[name] = sum(part for part, holds in held if holds), sorted(set(calls(code["body"])))
    if "%s::%s" % (crate, function) not in found:
        sys.exit("no code of %s::%s" % (crate, function))

    def most(name):
        own, others = found.get(name, (0, []))
        below = max((most(other) for other in others), default=(0, []))
        return own + below[0], [(name, own)] * bool(own) + below[1]

    whole, chain = most("%s::%s" % (crate, function))
    print("%d bytes of romanizations: %s" % (whole, ", ".join("%s %d" % part for part in chain)))


if __name__ == "__main__":
    if len(sys.argv) != 3:
        sys.exit(__doc__)
    main(*sys.argv[1:])
