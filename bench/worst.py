#!/usr/bin/env python3
"""Tables and texts that ask the most of the engine, a folder for each: rules.bin, classes.bin, vowels.bin, decompositions.bin,
text.txt.

Usage: worst.py FOLDER"""
import pathlib
import sys

ROOT = pathlib.Path(__file__).resolve().parents[1]
sys.path[:0] = [str(ROOT / "tools"), str(ROOT / "tests" / "generate")]
from forms import NO_FORMS, forms
from tables import *

LETTERS = "abcdefghijklmnopqrstuvwxyz"


def write(folder, rule_table, class_table, text, decompositions=NO_FORMS):
    folder.mkdir(parents=True, exist_ok=True)
    (folder / "rules.bin").write_bytes(rule_table)
    (folder / "classes.bin").write_bytes(class_table)
    (folder / "vowels.bin").write_bytes(vowels())
    (folder / "decompositions.bin").write_bytes(decompositions)
    (folder / "text.txt").write_text(text, encoding="utf-8")


def word(k):
    """a word of its own for each number"""
    letters = []
    for _ in range(5):
        letters.append(LETTERS[k % 26])
        k //= 26
    return "".join(letters)


def with_alternatives(n):
    """so many rules of one character and one target, with eight alternatives each that no other has"""
    return rules(*(Rule("か", "ka", others=[word(8 * k + i) for i in range(8)]) for k in range(n)))


def main():
    folder = pathlib.Path(sys.argv[1])
    kana = classes({"か": (LETTER, HIRAGANA)})
    repeated = rules(*(Rule("か" * (1 + k % 16), "k") for k in range(MOST_RULES)))
    thai = classes({"ก": (LETTER, THAI), "อ": (LETTER, THAI), "่": (NONSPACING, THAI)})
    silent = rules(("ก", "k"), ("อ", "o"), ("่", ""))
    every = rules(*(Rule("か" * k, "k") for k in range(1, 17)))
    for n in (512, MOST_CHARACTERS):
        write(folder / ("one_character_%d" % n), repeated, kana, "か" * n)
        write(folder / ("o_ang_%d" % n), silent, thai, "ก" + "่" * (n - 11) + "อก" * 5)
        write(folder / ("o_angs_%d" % n), silent, thai, "่อ" * (n // 2))
        write(folder / ("decompositions_%d" % n), every, kana, "①" * n, forms({"①": "か" * 18}))
        write(folder / ("alternatives_%d" % n), with_alternatives(64), kana, "か" * n)
    write(folder / "alternatives", with_alternatives(MOST_RULES), kana, "か" * 4)


if __name__ == "__main__":
    main()
