#!/usr/bin/env python3
"""Rule and decomposition tables of 8,192 rows, all of one kind, a folder for each: rules.bin, classes.bin, vowels.bin,
decompositions.bin. Prints for each what its rows are, and the folder's name.

Usage: rows.py FOLDER"""
import pathlib
import sys

ROOT = pathlib.Path(__file__).resolve().parents[1]
sys.path[:0] = [str(ROOT / "tools"), str(ROOT / "tests" / "generate")]
from forms import MOST_FORM, NO_FORMS, forms
from tables import *

CHARACTERS = [chr(0x3400 + k) for k in range(MOST_RULES)]
KINDS = {
    "one_character": lambda c: Rule(c, "ka"),
    "two_characters": lambda c: Rule(c + "あ", "ka"),
    "six_characters": lambda c: Rule(c + "あいうえお", "ka"),
    "alike_but_the_last_of_six": lambda c: Rule("あいうえお" + c, "ka"),
    "two_codes": lambda c: Rule(c, "ka", codes=["jpn", "tha"]),
    "end_target": lambda c: Rule(c, "ka", end="k"),
    "two_alternatives": lambda c: Rule(c, "ka", others=["kaa", "kha"]),
}


# what each decomposition holds
FORMS = {"one": "1", "eighteen": "1" * MOST_FORM}


def write(folder, rule_table, decompositions):
    folder.mkdir(parents=True, exist_ok=True)
    (folder / "rules.bin").write_bytes(rule_table)
    (folder / "classes.bin").write_bytes(classes({"か": (LETTER, HIRAGANA)}))
    (folder / "vowels.bin").write_bytes(vowels())
    (folder / "decompositions.bin").write_bytes(decompositions)


def main():
    folder = pathlib.Path(sys.argv[1])
    for kind, rule in KINDS.items():
        write(folder / kind, rules(*map(rule, CHARACTERS)), NO_FORMS)
        print("rules", kind)
    for kind, held in FORMS.items():
        write(folder / kind, rules(), forms({c: held for c in CHARACTERS}))
        print("decompositions", kind)


if __name__ == "__main__":
    main()
