#!/usr/bin/env python3
"""Texts of up to 4,096 characters, made by hand as in reading.py and refusals.py, and in a list of their own: they are for the library
alone, since from some 800 edges on the prover's steps for a theorem are too few to compute the definition. Strings and refusals stated
here are checked against the oracle.

usage: long_texts.py ORACLE FILE.calls.xz"""
import sys

import sample
from forms import NO_FORMS, forms
from oracle import Given, Lent, ask, call, callfile, string_of
from reading import COPT, HIRA, LINE_OF_WORDS, TONE_MARK, L, T
from tables import *

MOST = MOST_CHARACTERS
NONE = block([])
SAMPLE = sample.RULES, sample.CLASSES, sample.VOWELS, NO_FORMS


class Case:
    """a text under tables in some modes; `want` is the path's string where stated. What is lent is exactly what is needed, or what `lent`
    makes of that, and then `refusal` comes"""
    def __init__(self, text, tables=(NONE, NONE, NONE, NO_FORMS), modes=(0,), want=None, choices=(0, 0, 0), lent=None, refusal=None):
        self.text, self.tables, self.modes, self.want, self.choices, self.lent, self.refusal = text, tables, modes, want, choices, lent, refusal

    def given(self, mode):
        return Given(mode, *self.choices, *self.tables, b"", self.text.encode())


def less(slots=0, room=0, output=0):
    """so much less than is needed"""
    return lambda lent: Lent(lent.slots - slots, lent.room - room, lent.output - output)


def no_output(lent):
    return lent._replace(output=0)


def plain():
    """characters of one to four bytes, without rules"""
    yield Case("a" * (MOST - 1), want="a" * (MOST - 1))
    for c in "aé€𐍈":
        yield Case(c * MOST, want=c * MOST)
    for n in (513, 1024, MOST):
        text, listed = "a" * n, 5 + 9 * n
        # the last edge finds no slot, or no room; the output is a byte short, or there is none
        yield Case(text, lent=less(slots=1), refusal=(9, n - 1))
        yield Case(text, lent=less(room=1), refusal=(10, n - 1))
        yield Case(text, lent=less(output=1), refusal=(11, n))
        yield Case(text, modes=(1,), lent=less(output=1), refusal=(11, listed))
        yield Case(text, modes=(2, 3), lent=no_output, refusal=(11, listed))
    yield Case(text, lent=lambda _: Lent(12 * 512, MOST, MOST), refusal=(9, 512))
    yield Case(text, lent=lambda _: Lent(12 * MOST, 512, MOST), refusal=(10, 512))


def lines():
    """words of several scripts"""
    yield Case((LINE_OF_WORDS * MOST)[:1024], SAMPLE, range(4))
    yield Case((LINE_OF_WORDS * MOST)[:MOST - 1], SAMPLE, (0,))
    yield Case((LINE_OF_WORDS * MOST)[:MOST], SAMPLE, range(4))
    yield Case((LINE_OF_WORDS * MOST)[:MOST], SAMPLE, (0,), choices=(1, 1, 1))
    # one word of 4,096 characters, whose last vowel falls
    yield Case("क" * MOST, SAMPLE, (0,), want="ka" * (MOST - 1) + "k")


def edges():
    """two edges from each character; a source of 16 at the very end; alternatives and readings of each"""
    kana = classes({"か": HIRA})
    two = rules(("か", "ka"), ("かか", "ga")), kana, NONE, NO_FORMS
    yield Case("か" * MOST, two, (0, 3), want="ga" * (MOST // 2))
    yield Case("か" * 1025, two, (0,), want="ga" * 512 + "ka")
    yield Case("a" * (MOST - 16) + "か" * 16, (rules(("か" * 16, "ka")), kana, NONE, NO_FORMS), (1,), want="a" * (MOST - 16) + "ka")
    others = rules(Rule("か", "ka", end="kk", others=["ga"])), kana, NONE, NO_FORMS
    yield Case("か" * 513, others, (2,), choices=(0, 0, 1))
    for readings in (0, 1):
        # every other character ends a syllable: of the rest a reading is listed
        rows = 2 * MOST + readings * MOST // 2
        yield Case("か" * MOST, others, (2,), choices=(0, 0, readings), lent=no_output, refusal=(11, 5 + 10 * rows))


def walks():
    """what is looked for stands a whole text back"""
    thai = rules(("ก", "k"), ("อ", "o"), ("\u0e48", "")), classes({"ก": T, "อ": T, "\u0e48": TONE_MARK, " ": (ZS,)}), NONE, NO_FORMS
    text = "ก" + "\u0e48" * (MOST - 3) + "อก"
    yield Case(text, thai, (0,), want="kok")
    text = "ก " + "\u0e48" * (MOST - 4) + "อก"
    for o_ang, want in ((0, "k ok"), (1, "k k")):
        yield Case(text, thai, (0,), want=want, choices=(0, o_ang, 0))


def decompositions():
    made = NONE, NONE, NONE, forms({"①": "12"})
    yield Case("①" * MOST, made, (0,), want="12" * MOST)
    yield Case("①" * 1024, made, (0,), lent=less(room=1), refusal=(10, 1023))
    # the last one's string finds one slot and no second
    yield Case("①" * 1024, made, (0,), lent=less(slots=1), refusal=(9, 1023))
    too_long = rules(("x", "k" * MOST_TARGET)), NONE, NONE, forms({"①": "xxxx"})
    yield Case("a" * (MOST - 1) + "①", too_long, (0, 3), lent=lambda _: Lent(48, 4 * MOST_TARGET, 0), refusal=(14, MOST - 1))


def long_targets():
    """many targets of 200 bytes, and edges of 606"""
    full = "k" * MOST_TARGET
    tables = rules(("x", full)), NONE, NONE, NO_FORMS
    n = 1990
    for mode, needs in ((0, n * MOST_TARGET), *((mode, 5 + n * (8 + MOST_TARGET)) for mode in (1, 2, 3))):
        yield Case("x" * n, tables, (mode,), lent=no_output, refusal=(11, needs))
    yield Case("x" * n, tables, (0,), lent=lambda lent: lent._replace(room=lent.room - 1, output=0), refusal=(10, n - 1))
    every = classes({"เ": (OTHER, THAI, PRE), "っ": (OTHER, THAI), "ก": T, "ⲁ": COPT, "\u0300": (NONSPACING, HIRAGANA), "ゃ": HIRA, "ー": L})
    long = rules(("กⲁ", full), ("เ", "e" * (MOST_TARGET - 2) + "ki"), ("ゃ", "y" + "a" * (MOST_TARGET - 1))), every, vowels((THAI, A, "aeio")), NO_FORMS
    yield Case("เっกⲁ\u0300ゃー" * 30, long, (0, 3))
    yield Case("เっกⲁ\u0300ゃー" * 100, long, (0,), lent=no_output, refusal=(11, 100 * MOST_EDGE_TEXT))


GROUPS = plain, lines, edges, walks, decompositions, long_targets


def main(program, path):
    asked = [(case, mode) for group in GROUPS for case in group() for mode in case.modes]
    calls = []
    for (case, mode), built in zip(asked, ask(program, [case.given(mode) for case, mode in asked])):
        given, lent = case.given(mode), built.lent()
        if case.want is not None and mode < 2 and string_of(given, built) != case.want:
            sys.exit("%r..: the oracle says %r.." % (case.text[:20], string_of(given, built)[:40]))
        made = call(given, built, case.lent(lent) if case.lent else lent)
        if made.answer[:2] != (case.refusal or (0, 0)):
            sys.exit("%r.., mode %d: %s is stated, the oracle's edges give %s" % (case.text[:20], mode, case.refusal, made.answer[:2]))
        calls.append(made)
    callfile.write(path, calls)
    numbers = [c.answer.number for c in calls]
    print("%d calls: %s" % (len(calls), ", ".join("%d of %d" % (numbers.count(n), n) for n in sorted(set(numbers)))))


if __name__ == "__main__":
    main(*sys.argv[1:])
