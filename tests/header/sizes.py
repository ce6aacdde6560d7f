#!/usr/bin/env python3
"""Writes cases for sizes.c on standard output: the accepted texts of the frozen calls, random ones, and those that have the most
edges and the longest texts.

usage: sizes.py COUNT SEED        so many random ones"""
import pathlib
import random
import sys

TESTS = pathlib.Path(__file__).resolve().parents[1]
sys.path[:0] = [str(TESTS / "calls"), str(TESTS / "generate")]
import callfile
from forms import NO_FORMS, forms
from random_calls import LongWorld, ReadWorld, World
from tables import *

NEEDS_ROOM = (9, 10, 11)
MOST = "k" * MOST_TARGET


def worst():
    """16 sources from each character, each of the longest target; and Thai texts that grow at every step of the expansion"""
    kana = classes({"か": (LETTER, HIRAGANA)})
    many = rules(*(Rule("か" * k, MOST) for k in range(1, 17)))
    for n in (1, 2, 16, 17, 100, 512, MOST_CHARACTERS):
        yield many, kana, vowels((HIRAGANA, A, "aaaa")), NO_FORMS, b"", ("か" * n).encode()
        # the most edges inside, and before it the most outside
        held = forms({"①": "か" * 18})
        for text in ("①" * n, "か" * (n - 1) + "①"):
            yield many, kana, vowels(), held, b"", text.encode()
    thai = classes({"ก": (LETTER, THAI), "เ": (LETTER, THAI, PRE), "っ": (LETTER, THAI), "า": (LETTER, THAI),
                    "ゃ": (LETTER, THAI), "\u0e4d": (NONSPACING, THAI, VIRAMA)})
    long = rules(("ก", MOST[1:] + "i"), ("เ", "y" * (MOST_TARGET - 1) + "i"), ("า", MOST), ("ゃ", MOST), *(("ก" * k, MOST) for k in range(2, 17)))
    for pattern in ("っเกゃ", "เกา", "っกゃ", "ก", "กゃ", "เก\u0e4d"):
        for n in (512, MOST_CHARACTERS):
            yield long, thai, vowels((THAI, AO, "oooo")), NO_FORMS, b"", (pattern * n)[:n].encode()


def cases(count, seed):
    for path in sorted((TESTS / "calls").glob("*.calls.xz")):
        for call in callfile.read(path):
            if call.answer.number == 0 or call.answer.number in NEEDS_ROOM:
                yield call.given[callfile.NUMBERS:]
    rng = random.Random(seed)
    for k in range(count):
        yield (ReadWorld if k % 4 == 0 else LongWorld if k % 8 == 1 else World)(rng).given()[callfile.NUMBERS:]
    yield from worst()


for case in cases(*map(int, sys.argv[1:])):
    sys.stdout.buffer.write(b"".join(callfile.four(len(part)) + part for part in case))
