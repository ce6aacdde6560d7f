#!/usr/bin/env python3
"""design_places [COMMIT] [--list]: the places of docs/DESIGN-PASS.md in the source, counted point by point.

Without a commit the files of the checkout are read. With --list each place is printed by crate and name.
"""
import re
import subprocess
import sys
from collections import defaultdict

NUMBER = r"(?:u8|u16|u32|u64|usize)"


def sources(commit):
    """The source files of a commit, or of the checkout: a list of (crate, text)."""
    if commit:
        names = subprocess.run(
            ["git", "ls-tree", "-r", "--name-only", commit, "crates"], capture_output=True, text=True, check=True
        ).stdout.split()
        read = lambda name: subprocess.run(
            ["git", "show", f"{commit}:{name}"], capture_output=True, text=True, check=True
        ).stdout
    else:
        names = subprocess.run(["git", "ls-files", "crates"], capture_output=True, text=True, check=True).stdout.split()
        read = lambda name: open(name, encoding="utf-8").read()
    return [(n.split("/")[1], read(n)) for n in names if re.fullmatch(r"crates/[^/]+/src/.*\.rt", n)]


def closing(text, start):
    """The place behind the bracket that closes the one at `start`."""
    pairs = {"(": ")", "{": "}", "[": "]"}
    stack = []
    for i in range(start, len(text)):
        c = text[i]
        if c in pairs:
            stack.append(pairs[c])
        elif stack and c == stack[-1]:
            stack.pop()
            if not stack:
                return i + 1
    return len(text)


def split(list_text):
    """The parts of a list between its outer commas."""
    parts, depth, part = [], 0, ""
    for c in list_text:
        depth += c in "([{<"
        depth -= c in ")]}>"
        if c == "," and depth == 0:
            parts.append(part.strip())
            part = ""
        else:
            part += c
    return [p for p in parts + [part.strip()] if p]


def bare(text):
    """A source without its comments."""
    return re.sub(r"^\s*//.*\n", "", text, flags=re.M)


def functions(text):
    """Each function: name, parameters, requires clauses, body."""
    for m in re.finditer(r"^ *(?:pub(?:\([a-z]+\))? )?(?:const )?(?:extern \"C\" )?fn (\w+)", text, re.M):
        at = text.index("(", m.end())
        behind = closing(text, at)
        requires = []
        clause = re.compile(r"\s*(?:->[^{]*?)?(?:(requires|ensures|decreases)\s*[\w'-]*\s*)?(?=\{)", re.S)
        while True:
            here = clause.match(text, behind)
            if not here or not here.group(1):
                break
            behind_clause = closing(text, here.end())
            if here.group(1) == "requires":
                requires.append(text[here.end() + 1 : behind_clause - 1])
            behind = behind_clause
        start = text.index("{", behind)
        yield m.group(1), split(text[at + 1 : closing(text, at) - 1]), requires, text[start : closing(text, start)]


def items(text, word):
    """Each enum or struct: name and body."""
    for m in re.finditer(rf"^ *(?:pub )?{word} (\w+)(?:<[^>{{]*>)? *\{{", text, re.M):
        yield m.group(1), text[m.end() : closing(text, m.end() - 1) - 1]


def places(files):
    found = defaultdict(list)
    bodies = defaultdict(list)
    facts = defaultdict(list)
    constants = defaultdict(set)
    for crate, source in files:
        text = bare(source)
        for name, body in items(text, "enum"):
            variants = split(body)
            if len(variants) > 1 and any(re.search(r"[({]", v) for v in variants):
                found["1 own enums with a value in some case"].append(f"{crate}::{name}")
        for name, body in items(text, "struct"):
            fields = [f for f in split(body) if "ghost" not in f]
            flags = [f for f in fields if f.endswith(": bool")]
            if flags and len(flags) < len(fields):
                found["1 structs with a flag beside a value"].append(f"{crate}::{name}")
            array = [f for f in fields if re.search(r": \[", f)]
            if array and any(re.search(r"\b(len|count): ", f) for f in fields):
                found["6 arrays with a length beside"].append(f"{crate}::{name}")
        for m in re.finditer(rf"^(?:pub )?const (\w+): {NUMBER} = ([^;]+);", text, re.M):
            constants[m.group(1), m.group(2)].add(crate)
            if re.search(r": (u8|u32|u64) = ", m.group()):
                found["1 constants of u8, u32, u64"].append(f"{crate}::{m.group(1)}")
        for name, parameters, requires, body in functions(text):
            where = f"{crate}::{name}"
            if len(parameters) > 6:
                found["5 functions of more than six parameters"].append(where)
            if len(parameters) > 9:
                found["5 functions of ten parameters or more"].append(where)
            if any(re.match(r"(kind|which|mode|note|category|script): (u8|u32|u64)\b", p) for p in parameters):
                found["7 parameters that tell a kind by a number"].append(where)
            for r in requires:
                for fact in {re.sub(r"\s+", " ", f).strip(" ()") for f in re.split("×", r)}:
                    facts[re.sub(r"\.(now|old|new)\b", "", fact)].append(where)
            for loop in re.finditer(r"\bwhile ([^{]*)\{", body):
                inside = body[loop.end() - 1 : closing(body, loop.end() - 1)]
                counts = re.search(r"\b\w+ [+-]= 1;", inside)
                found["3 while loops that count by one" if counts else "3 other while loops"].append(
                    f"{where} (while {loop.group(1).strip()})"
                )
                if re.match(r"low < high", loop.group(1)):
                    found["6 sorted rows halved by hand"].append(where)
            for _ in re.finditer(r"^ *for ", body, re.M):
                found["3 for loops"].append(where)
            for _ in re.finditer(r"\.(?:iter|iter_mut|chunks\w*|windows|into_iter)\(\)?", body):
                found["3 iterator chains"].append(where)
            shape = re.sub(r"\b(?:[A-Z][A-Z_0-9]*|0x[0-9A-Fa-f]+|[0-9]+)\b", "N", re.sub(r"\s+", " ", body))
            if len(shape) > 60:
                bodies[shape].append(where)
            if name in ("same", "clear", "fill", "put_text", "put_first", "put_at", "digit", "print_number", "as_grew", "are_zero", "fault_number", "byte"):
                found["4 equality, copying, filling, conversion and printing by hand"].append(where)
    for shape, names in bodies.items():
        if len(names) > 1:
            found["2 functions with one body but for constants"].append(" = ".join(names))
    for (name, value), crates in constants.items():
        if len(crates) > 1:
            found["2 constants that stand in several crates"].append(f"{name} in {', '.join(sorted(crates))}")
    for fact, names in facts.items():
        if len(set(names)) > 2:
            found["5 facts required by three functions or more"].append(f"{fact} ({len(set(names))})")
    return found


def main(arguments):
    listed = "--list" in arguments
    commits = [a for a in arguments if not a.startswith("--")]
    found = places(sources(commits[0] if commits else None))
    for point in sorted(found):
        print(f"{len(found[point]):4} {point}")
        if listed:
            for place in found[point]:
                print(f"       {place}")


if __name__ == "__main__":
    main(sys.argv[1:])
