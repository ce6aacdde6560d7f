#!/usr/bin/env python3
"""Writes cases for listing.c on standard output: listings that have just as many bytes of rows as four bytes can say, one more, and many
more. A character's rows are that of its edge, 8 bytes and its rule's target, and those of the alternatives of all rules that have this
target, 8 bytes and a text each."""
import itertools
import pathlib
import sys

TESTS = pathlib.Path(__file__).resolve().parents[1]
sys.path[:0] = [str(TESTS / "calls"), str(TESTS / "generate")]
from callfile import four
from forms import NO_FORMS
from tables import *

STRING, PATH, ALTERNATIVES, ALL_EDGES = range(4)
TOO_LARGE, TOO_SHORT = 19, 11
MOST_ROWS = 2 ** 32 - 1          # bytes of rows that a listing may have
LETTERS = "abcdefghijklmnopqrstuvwxyz"
ROW = 8                          # bytes of a row before its text
SLOT = 12
FREE = 1 << 20                   # text room besides the edges' texts, where what was listed is kept in mind


def different(count, size=MOST_TARGET):
    """so many texts of this size, which differ in their first letters"""
    words = map("".join, itertools.product(LETTERS, repeat=3))
    return [word.ljust(size, "z") for word in itertools.islice(words, count)]


def rules_of(source, target, count, end=None):
    """rules of one source and one target that have so many different alternatives of 200 bytes, eight in each, and the rest in the last;
    the first has an end-of-syllable target where one is given"""
    texts = different(count)
    made = [Rule(source, target, others=texts[k:k + MOST_OTHERS]) for k in range(0, count, MOST_OTHERS)]
    return [made[0]._replace(end=end), *made[1:]]


def rows_of(target, count):
    """bytes of the rows of a character under such rules"""
    return ROW + len(target) + count * (ROW + MOST_TARGET)


def case(name, mode, rule_rows, text, size, wanted, readings=0):
    """`size` is that of the edges' texts; one edge for each character"""
    number, place = wanted
    parts = [name.encode(), rules(*rule_rows), block([]), block([]), NO_FORMS, b"", text.encode()]
    return b"".join([bytes([mode, readings]), four(SLOT * len(text)), four(size + FREE), bytes([number]), place.to_bytes(8, "big"),
                     *(four(len(part)) + part for part in parts)])


def all_modes(name, rule_rows, text, targets, listed, readings=(0, 1)):
    """alternatives are `listed` bytes of rows; the path and all edges are the same, and the string is their texts"""
    size = sum(len(targets[c]) for c in text)
    path = HEADER + ROW * len(text) + size
    for mode, needs in ((STRING, size), (PATH, path), (ALL_EDGES, path)):
        yield case(name, mode, rule_rows, text, size, (TOO_SHORT, needs))
    wanted = (TOO_SHORT, HEADER + listed) if listed <= MOST_ROWS else (TOO_LARGE, 0)
    for choice in readings:
        yield case(name, ALTERNATIVES, rule_rows, text, size, wanted, choice)


def cases():
    n = MOST_CHARACTERS
    # 640 rules of eight alternatives each: 4,362,076,160 bytes of these alone
    many = 640 * MOST_OTHERS
    yield from all_modes("640 rules", rules_of("x", "k", many), "x" * n, {"x": "k"}, n * rows_of("k", many), (0,))
    # each character has 1,048,576 bytes: a row of 48, and 5,041 of 208. 4,096 of them are 4,294,967,296
    most, count = "k" * 40, 5041
    assert n * rows_of(most, count) == MOST_ROWS + 1
    exact = rules_of("x", most, count)
    yield from all_modes("a byte too many", exact, "x" * n, {"x": most}, n * rows_of(most, count), (0,))
    yield from all_modes("a character fewer", exact, "x" * (n - 1), {"x": most}, (n - 1) * rows_of(most, count), (0,))
    # and a byte less where the first character is another one, with a target of 39 bytes
    less = most[1:]
    two = {"x": most, "y": less}
    for text in ("yxx", "y" + "x" * (n - 1)):
        listed = sum(rows_of(two[c], count) for c in text)
        name = "the most" if len(text) == n else "the most, of 3 characters"
        yield from all_modes(name, [*exact, *rules_of("y", less, count)], text, two, listed)
        # the same without readings; with them the first character has a row more, of an end-of-syllable target of one byte
        read = [*exact, *rules_of("y", less, count, "e")]
        yield from all_modes(name + ", with a reading", read, text, two, listed, (0,))
        yield case(name + ", with a reading", ALTERNATIVES, read, text, sum(len(two[c]) for c in text),
                   (TOO_SHORT, HEADER + listed + ROW + 1) if len(text) < n else (TOO_LARGE, 0), 1)


for made in cases():
    sys.stdout.buffer.write(made)
