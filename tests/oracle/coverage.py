#!/usr/bin/env python3
"""Which blocks of the published Rust do call files enter? Counts every block of lattice/*.rs, and of the three rules that are added to
it (capitals.rs, o_ang.rs, readings.rs): bodies of functions, closures, loops and matches, both sides of every `if` (the missing `else`
too), and the other side of every `let .. else`.

usage: coverage.py RUST_SRC_DIR BUILD_DIR FILE.calls[.xz] ..

Prints the blocks never entered. Exit status 1 where one of them is not listed in unreached.txt, or a listed one was entered."""
import os
import re
import subprocess
import sys

here = os.path.dirname(os.path.abspath(__file__))
sys.path.insert(0, os.path.join(here, "..", "calls"))
import callfile

FILES = ["lattice/mod", "lattice/paths", "lattice/romanize", "lattice/rules", "lattice/word_boundaries", "capitals", "o_ang", "readings"]
# lines that end in a brace but open no block of code
NO_BLOCK = re.compile(r"\b(struct|enum|impl|match|use)\b[^|]*\{$|\bSelf \{$|=> match")
ARM = re.compile(r"^( +)(\S.*) => ([^{}].*),$")


class Blocks:
    """numbers the blocks of the sources and puts a counter into each; rustfmt's layout says where a block begins and ends"""
    def __init__(self):
        self.names = []

    def enter(self, name):
        self.names.append(name)
        return "crate::shim::blocks::enter(%d);" % (len(self.names) - 1)

    def counted(self, file, source):
        lines = source.split("\n")
        out = list(lines)
        for k, line in enumerate(lines):
            name = "%s.rs:%d: %s" % (file, k + 1, heading(lines, k))
            indent = line[:len(line) - len(line.lstrip())]
            if line.endswith("=> {}"):
                out[k] = line[:-1] + self.enter(name) + "}"
            elif ARM.match(line):
                out[k] = ARM.sub(lambda m: "%s%s => { %s %s }," % (m[1], m[2], self.enter(name), m[3]), line)
            elif line.endswith("{") and not NO_BLOCK.search(line):
                out[k] += " " + self.enter(name)
                if heading(lines, k).startswith(("if ", "} else if ")):
                    end = next(j for j in range(k + 1, len(lines)) if lines[j].startswith(indent + "}"))
                    if lines[end] == indent + "}":
                        out[end] += " else { %s }" % self.enter(name + " (not)")
        return "\n".join(out)


def heading(lines, k):
    """the line that a block opens with, joined with those before it where its condition takes several"""
    first = k
    while lines[k].strip() == "{" and (first == k or len(indent_of(lines[first])) > len(indent_of(lines[k]))):
        first -= 1
    return " ".join(line.strip() for line in lines[first:k + 1])


def indent_of(line):
    return line[:len(line) - len(line.lstrip())]


def build(source, folder):
    """an oracle with counters; the names of its blocks"""
    subprocess.run([os.path.join(here, "build.sh"), source, folder], check=True, stdout=subprocess.DEVNULL)
    blocks = Blocks()
    for file in FILES:
        path = os.path.join(folder, "src", file + ".rs")
        with open(path, encoding="utf-8") as f:
            text = f.read()
        with open(path, "w", encoding="utf-8") as f:
            f.write(blocks.counted(os.path.basename(file), text))
    subprocess.run(["cargo", "build", "--release", "--offline", "-q"], cwd=folder, check=True, env=dict(os.environ, RUSTFLAGS="-Awarnings"))
    return os.path.join(folder, "target/release/oracle"), blocks.names


def entered(program, calls):
    """how often each block was entered; the counts come on standard error"""
    asked = b"".join(b"".join(callfile.parts(call.given)) for call in calls)
    said = subprocess.run([program], input=asked, stdout=subprocess.DEVNULL, stderr=subprocess.PIPE, check=True).stderr.decode()
    return {int(block): int(n) for block, n in re.findall(r"(?m)^(\d+) (\d+)$", said)}


def main(source, folder, *files):
    program, names = build(source, os.path.abspath(folder))
    counts = entered(program, [call for file in files for call in callfile.read(file)])
    missed = [name for k, name in enumerate(names) if k not in counts]
    with open(os.path.join(here, "unreached.txt"), encoding="utf-8") as f:
        listed = [line.rstrip("\n") for line in f if line.strip() and not line.startswith("#")]
    for name in missed:
        print(("" if name in listed else "NOT LISTED ") + name)
    for name in sorted(set(listed) - set(missed)):
        print("LISTED, BUT ENTERED " + name)
    least = sorted((counts[k], name) for k, name in enumerate(names) if k in counts)[:8]
    print("%d of %d blocks entered; the least often: %s" % (len(counts), len(names), ", ".join("%d (%s)" % pair for pair in least)))
    return sorted(missed) != sorted(listed)


if __name__ == "__main__":
    sys.exit(main(*sys.argv[1:]))
