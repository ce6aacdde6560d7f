#!/usr/bin/env python3
"""Which promises moved between two states of the project: the contract of every public function, method and conversion with the
meaning of each name in it, structs and enums too, and every file of the specs of definition, stretches and jettyfig, with those
theorems of the first two that stand in proofs/. Prints what differs, and a last line that counts; fails where a promise that stands
in both states has moved. A type that gains a derive promises what it promised, and one that loses a derive does not.

usage: contracts.py BEFORE [AFTER] [--private]    states as git names them; without AFTER, the files as they are now;
                                                  with --private also the functions that are not public"""
import pathlib
import re
import subprocess
import sys
import textwrap

ROOT = pathlib.Path(__file__).resolve().parents[1]
FIXED = ["definition", "stretches", "jettyfig"]
# crates with theorems that stand in the modules of the same name in proofs/, since a wrong edit of a definition makes them false
BESIDE = ["definition", "stretches"]
# a body begins at a line's start, since a clause may have a brace at a line's end, too; without clauses at the first brace there is
FUNCTION = re.compile(r'^(?:#[^\n]*\n)*((?:pub )?(?:extern "C" )?fn )(\w+)([^{]*|.*?^)\{\n.*?^\}', re.M | re.S)
IMPL = re.compile(r"^(impl(?:<[^{]*?>)?)\s([^{]*)\{\n(.*?)^\}", re.M | re.S)
TYPE = re.compile(r"^(?:#[^\n]*\n)*(?:pub )?(?:struct|enum) (\w+).*?^\}", re.M | re.S)
DERIVE = re.compile(r"^#\[derive\((.*?)\)\]\n", re.M)
USE = re.compile(r"^(?:ghost )?use Rattle\.(\w+)\.(?:specs|proofs)\.(?:declared\.(?:\w+\.)*?(\w+)(?:\.TheVariants)?|(\w+))"
                 r"(?:\.\{(.*?)\}| as (\w+))", re.M)
# the module under which specs find a crate's structs and enums: each by its name alone, whatever file it stands in, since lib.rt may
# hand it on as its own
TYPES = "declared"
DECLARED = re.compile(r"\s*(?:abbrev |unfoldable )?(?:pub )?(?:record )?([^\s:(]+)")
# a use of a crate's items: one of them, or several in brackets, which may take some lines
ITEMS = re.compile(r"^(?:pub )?use (\w+)::(?:\w+::)*(?:(\w+)|\{(.*?)\});", re.M | re.S)
MODULE = re.compile(r"^(?:pub )?mod (\w+);", re.M)
WORD = re.compile(r"[^\s(){}<>\[\],;.:=&]+(?:\.[^\s(){}<>\[\],;.:=&]+)?")


def git(*words):
    return subprocess.run(["git", *words], cwd=ROOT, capture_output=True, text=True, check=True).stdout


def files(state, pattern):
    """name and text of the files of a state whose names have a form"""
    if state is None:
        names = [str(path.relative_to(ROOT)) for path in ROOT.glob("crates/**/*") if path.is_file()]
    else:
        names = git("ls-tree", "-r", "--name-only", state, "crates").split("\n")
    found = sorted(name for name in names if re.fullmatch(pattern, name))
    return {name: (ROOT / name).read_text(encoding="utf-8") if state is None else git("show", "%s:%s" % (state, name)) for name in found}


def imported(text, own):
    """what the names that a file of a crate takes from specs stand for: crate, module and name"""
    found, inside = {}, {"crate", "self", "super", *MODULE.findall(text)}
    for crate, kind, module, names, alias in USE.findall(text):
        if alias:
            found[alias] = (crate, TYPES, kind) if kind else (crate, module, None)
        for name in names.split(", ") if names else []:
            found[name] = crate, TYPES if kind else module, kind or name
    for crate, one, several in ITEMS.findall(text):
        found.update({name: (own if crate in inside else crate, TYPES, name) for name in re.findall(r"\w+", one or several)})
    return found


def functions(text):
    """of each function of a file whether it is public, its name and its contract; a method's are with its type, and all that a type
    has of a trait is one contract, as a conversion's ghost member and types"""
    for head, function, rest in FUNCTION.findall(text):
        yield head.startswith("pub"), function, rest
    for impl, of, inner in IMPL.findall(text):
        trait, _, of = " ".join(of.split()).rpartition(" for ")
        name, inner = re.search(r"\w+", of).group(), textwrap.dedent(inner)
        if trait:
            yield True, "%s::%s" % (name, trait), " ".join((impl, trait, "for", of, FUNCTION.sub(r"\1\2\3", inner)))
            continue
        for head, function, rest in FUNCTION.findall(inner):
            yield head.startswith("pub"), "%s::%s" % (name, function), " ".join((impl, of, rest))


def meant(text, names):
    """the names of specs that a text speaks of"""
    for word in WORD.findall(text):
        first, _, last = word.partition(".")
        crate, module, name = names.get(first, (None, None, None))
        if crate:
            yield crate, module, name or last


class State:
    def __init__(self, state):
        self.public, self.private, self.speaks, self.defined, self.uses, self.derives = {}, {}, {}, {}, {}, {}
        for path, text in files(state, r"crates/\w+/src/.*\.rt").items():
            crate = path.split("/")[1]
            names, text = imported(text, crate), re.sub(r"^ *//.*\n", "", text, flags=re.M)
            names.update({made.group(1): (crate, TYPES, made.group(1)) for made in TYPE.finditer(text)})
            for made in TYPE.finditer(text):
                key = crate, TYPES, made.group(1)
                self.defined.setdefault(key, []).append(" ".join(DERIVE.sub("", made.group()).split()))
                self.derives.setdefault(key, set()).update(name for of in DERIVE.findall(made.group()) for name in re.findall(r"\w+", of))
                self.uses.setdefault(key, set()).update(set(meant(made.group(), names)) - {key})
            for public, function, words in functions(text):
                name = "%s::%s" % (crate, function)
                contract = re.sub(r"\( | (?=\))|, (?=\))", lambda m: m.group().strip(" ,"), " ".join(words.split()))
                (self.public if public else self.private).setdefault(name, []).append(contract)
                self.speaks.setdefault(name, set()).update(meant(contract, names))
        for path, text in files(state, r"crates/(?:\w+/specs|(?:%s)/proofs)/\w+\.antt" % "|".join(BESIDE)).items():
            crate, module = path.split("/")[1], pathlib.Path(path).stem
            names, blocks = imported(text, crate), []
            for block in re.split(r"\n\s*\n", text):
                lines = [line for line in block.split("\n") if not re.match(r"\s*(--|use |pub mod |module |unfolding )", line)]
                if lines and DECLARED.match(lines[0]):
                    blocks.append((DECLARED.match(lines[0]).group(1), " ".join(" ".join(lines).split())))
            names.update({name: (crate, module, name) for name, _ in blocks})
            for name, block in blocks:
                self.defined.setdefault((crate, module, name), []).append(block)
                self.uses.setdefault((crate, module, name), set()).update(meant(block, names))
        self.specs = files(state, r"crates/(?:(?:%s)/specs/.*|(?:%s)/proofs/\w+\.antt)" % ("|".join(FIXED), "|".join(BESIDE)))


def lost(before, after):
    """derives of a type that went: who copies it may drop it, too"""
    return before - after - ({"Drop"} if "Copy" in after else set())


def changed(before, after):
    """names of specs that mean something else: their own words differ, or those of a name that they speak of"""
    found = {key for key in before.defined if before.defined[key] != after.defined.get(key)}
    found |= {key for key, derives in before.derives.items() if lost(derives, after.derives.get(key, set()))}
    own = set(found)
    while True:
        more = {key for key, uses in after.uses.items() if key in before.defined and key not in found and uses & found}
        if not more:
            return own, found
        found |= more


def compared(kind, before, after):
    """names that went, that came and that differ"""
    gone, new = sorted(set(before) - set(after)), sorted(set(after) - set(before))
    other = sorted(name for name in set(before) & set(after) if before[name] != after[name])
    for what, names in (("gone", gone), ("new", new), ("moved", other)):
        if names:
            print("%s, %s: %s" % (kind, what, ", ".join(names)))
    return gone, new, other


def main(words):
    private = "--private" in words
    states = [word for word in words if word != "--private"]
    if not 1 <= len(states) <= 2:
        sys.exit(__doc__)
    before, after = State(states[0]), State(states[1] if len(states) > 1 else None)
    gone, new, moved = compared("public functions", before.public, after.public)
    if private:
        compared("private functions", before.private, after.private)
    own, shifted = changed(before, after)
    print("names of specs that went or mean something else by their own words: %s" % (", ".join(sorted("%s %s" % (key[0], key[2]) for key in own)) or "none"))
    kept = [name for name in after.public if name in before.public and name not in moved]
    touched = sorted(name for name in kept if after.speaks[name] & shifted)
    for name in touched:
        print("%s speaks of %s" % (name, ", ".join(sorted(".".join(key) for key in after.speaks[name] & shifted))))
    other = [name for part in compared("specs", before.specs, after.specs) for name in part]
    print("%d contracts of public functions stand, %d of them moved; %d functions gone, %d new; %d files of the specs of %s, %d differ"
          % (len(kept) + len(moved), len(moved) + len(touched), len(gone), len(new), len(after.specs), ", ".join(FIXED), len(other)))
    return bool(moved or touched or other)


if __name__ == "__main__":
    sys.exit(main(sys.argv[1:]))
