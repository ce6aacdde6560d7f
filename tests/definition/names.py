"""The definitions that can be unfolded, found in the specs of base and definition by `unfoldable pub`.

Run on its own it writes the module that unfolds them all, from the repository's root:
  python3 tests/definition/names.py > crates/definition/specs/Compute.antt && (cd crates/definition && rt fmt)
"""
import os
import re
import sys


def contents(*path):
    with open(os.path.join(*path), encoding="utf-8") as f:
        return f.read()


def modules(crate):
    """names of a crate's spec modules, in order; from Compute on come those that use the definition, and are no part of it"""
    found = re.findall(r"(?m)^pub mod (\w+)", contents(crate, "specs/Lib.antt"))
    return found[:found.index("Compute")] if "Compute" in found else found


def unfoldable(crate, module):
    return re.findall(r"(?m)^ *unfoldable pub (\S+)", contents(crate, "specs", module + ".antt"))


def imports(root):
    """`use` lines for everything unfoldable, and all the names"""
    lines, names = [], []
    for crate in ("base", "definition"):
        folder = os.path.join(root, "crates", crate)
        for module in modules(folder):
            found = unfoldable(folder, module)
            if found:
                lines.append("use Rattle.%s.specs.%s.{%s}" % (crate, module, ", ".join(found)))
                names += found
    twice = sorted({n for n in names if names.count(n) > 1})
    if twice:
        raise SystemExit("unfoldable names that stand for two things: " + " ".join(twice))
    return lines, names


def wrapped(head, words, width=116):
    """words on lines, the first after `head`"""
    lines, line = [], head
    for word in words:
        if len(line) + 1 + len(word) > width:
            lines.append(line)
            line = "   "
        line += " " + word
    return "\n".join(lines + [line])


def compute_module(root):
    lines, names = imports(root)
    return "\n".join([
        "-- `called`, to compute with: whatever unfolds `compute` unfolds the whole definition. Written by tests/definition/names.py.",
        "use Rattle.std.specs.Prelude.{◌≡◌, refl}",
        *lines,
        "use Rattle.definition.specs.Call.{Inputs, Called}",
        "",
        "unfoldable pub compute : Inputs → Called",
        wrapped("unfolding", names),
        "compute i = called i",
        "",
        "pub compute-is : (i : Inputs) → compute i ≡ called i",
        "unfolding compute",
        "compute-is i = refl",
    ])


if __name__ == "__main__":
    here = os.path.dirname(os.path.abspath(__file__))
    print(compute_module(sys.argv[1] if len(sys.argv) > 1 else os.path.join(here, "..", "..")))
