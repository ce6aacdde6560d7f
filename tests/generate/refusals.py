#!/usr/bin/env python3
"""Refusals made by hand from document 01's table 'Numbers a call returns' and from docs/FORMAT.md's 12 to 15, 17 and 20 to 25: each
number with its place, and both sides of each border. Number and place are written here; the oracle only confirms that it refuses too (1,
3 to 8, 12, 13, 15, 17 and 20 to 25), or that its edges in their adding order give the same (9 to 11 and 14). The accepted side of a border is
answered by it.

usage: refusals.py ORACLE FILE.calls.xz MOST_RULES.calls.xz MOST_DECOMPOSITIONS.calls.xz"""
import sys

import smallest
from forms import *
from lower import lowered
from oracle import Call, Given, Lent, answered, ask, call, callfile, refused
from tables import *

PLAIN = Given(0, 0, 0, 0, rules(("b", "B"), ("d", "D")), classes({"b": (LETTER, 6), "d": (LETTER,)}), vowels((5, A, "a"), (9, AO, "o")),
              forms({"①": "1", "½": "1\u20442"}), b"", b"bad")
PLENTY = Lent(1200, 400, 8)
NONE = block([])
# refused for mode, choices, tables, code or text, so that there is no lattice
WITHOUT_LATTICE = {1, 12, 13, 15, 17, *FAULTS, *range(3, 9)}


class Border:
    """a call, and the number and place it is refused by, or none where it is accepted"""
    def __init__(self, refusal, lent=PLENTY, **changes):
        self.given, self.lent, self.refusal = PLAIN._replace(**changes), lent, refusal


def accepted(**changes):
    return Border(None, None, **changes)


def in_table(number, table, before, bad, after, within=0):
    """a faulty row as a table's only row, its last, and with one after it; the place is so far within the row. A row that is right has the
    number 0, and the text is read in the same rooms"""
    bad = bytes(bad)
    for front, back in ((b"", b""), (before, b""), (before, after)):
        yield Border((number, 5 + len(front) + within) if number else None, **{table: block([front, bad, back])})


def cut_rows(number, table, before, row):
    """a row that the block ends in the midst of"""
    for n in range(1, len(row)):
        yield Border((number, 5 + len(before)), **{table: block([before, row[:n]])})


def modes():
    for mode in (4, 5, 128, 255):
        yield Border((1, 0), mode=mode)
    for mode in range(4):
        yield accepted(mode=mode)


def choices():
    for capitals in (2, 3, 127, 128, 254, 255):
        for mode in (0, 3):
            yield Border((12, 0), mode=mode, capitals=capitals)
    # capitals before a character of lower case: "BaD" needs the same room as "BAD"
    cased = dict(rules=rules(("b", "BA"), ("d", "D")), classes=lowered(PLAIN.classes, "d"), text=b"bd", mode=3)
    for capitals in (0, 1):
        for mode in range(4):
            yield accepted(**{**cased, "mode": mode}, capitals=capitals)
        yield Border((9, 1), Lent(12, 3, 40), **cased, capitals=capitals)
        yield Border((10, 1), Lent(24, 2, 40), **cased, capitals=capitals)
        yield Border((11, 24), Lent(24, 3, 23), **cased, capitals=capitals)
    for o_ang in (2, 3, 127, 128, 254, 255):
        for mode in (0, 1, 3):
            yield Border((15, 0), mode=mode, o_ang=o_ang)
        yield Border((15, 0), capitals=1, o_ang=o_ang)
    # O ang behind a space: where it is silent its edge needs no room, but a slot
    thai = dict(rules=rules(("ก", "k"), ("อ", "o")), classes=classes({**{c: (LETTER, THAI) for c in "กอ"}, "\u0e48": (NONSPACING, THAI, TONE), " ": (ZS,)}),
                text="ก \u0e48อก".encode())
    for o_ang, size in ((0, 4), (1, 3)):
        for mode in range(4):
            for capitals in (0, 1):
                yield accepted(**thai, mode=mode, capitals=capitals, o_ang=o_ang)
        yield Border((9, 2), Lent(59, size, 9), **thai, o_ang=o_ang)
        yield Border((9, 3), Lent(12, size, 9), **thai, o_ang=o_ang)
        yield Border((10, 1), Lent(60, size - 1, 9), **thai, o_ang=o_ang)
        yield Border((11, size), Lent(60, size, size - 1), **thai, o_ang=o_ang)
    yield Border((10, 3), Lent(60, 1, 9), **thai)
    yield Border((10, 4), Lent(60, 1, 9), **thai, o_ang=1)
    for value in (2, 3, 127, 128, 254, 255):
        for mode in range(4):
            yield Border((17, 0), mode=mode, readings=value)
        yield Border((17, 0), capitals=1, o_ang=1, readings=value)
    # a reading is a row more of the alternatives' output; it takes no slot and no room
    read = dict(rules=rules(Rule("b", "k", end="ta")), text=b"b")
    for value, size in ((0, 14), (1, 24)):
        for mode, needs in ((0, 1), (1, 14), (2, size), (3, 14)):
            yield Border(None, Lent(12, 1, needs), **read, mode=mode, readings=value)
            yield Border((11, needs), Lent(12, 1, needs - 1), **read, mode=mode, readings=value)
            yield Border((9, 0), Lent(11, 1, needs), **read, mode=mode, readings=value)
            yield Border((10, 0), Lent(12, 0, needs), **read, mode=mode, readings=value)


def headers():
    for number, table in ((20, "rules"), (3, "classes"), (4, "vowels"), (13, "decompositions")):
        good = getattr(PLAIN, table)
        body = good[5:]

        def headed(version, length, rest=body):
            return bytes([version]) + length.to_bytes(4, "big") + rest
        n = len(body)
        bad = [b"", b"\x01", b"\x01\0\0\0", good[:-1], good + b"\0", headed(0, n), headed(2, n), headed(255, n), headed(1, n - 1),
               headed(1, n + 1), headed(1, n + 2 ** 24), headed(1, 2 ** 32 - 1), headed(1, 0), headed(1, 1, b""), headed(0, 0, b"")]
        for table_bytes in bad:
            yield Border((number, 0), **{table: table_bytes})
        yield accepted(**{table: NONE})


def resized(rest):
    """a rule row's rest with its length"""
    return len(rest).to_bytes(2, "big") + rest


def bad_text(text):
    """the number of a faulty text, and how far from its length byte the fault is; none where nothing is wrong with it"""
    if len(text) > MOST_TARGET:
        return 21, 0
    at = next((at for at, c in enumerate(text) if not "\x20" <= c <= "\x7e"), None)
    return None if at is None else (23, 1 + at)


# where a field stands in a row with one character and no code: a text behind a target of one byte stands at 12
FLAGS, CHARACTERS, SOURCE, CODES, FIRST_CODE, TEXT = 2, 5, 6, 9, 10, 10


def rows_with(text):
    """the text as each of a row's: the number that it is refused by, 0 where it is right, how far within the row, and the row"""
    number, within = bad_text(text) or (0, 0)
    return [(number, at + within, row) for at, row in (
        (TEXT, rule_row("c", text)), (TEXT + 2, rule_row("c", "t", end=text)), (TEXT, rule_row("c", None, end=text)),
        (TEXT + 3, rule_row("c", "t", others=[text])), (TEXT + 5, rule_row("c", "t", others=["x", text])))]


def rule_rows():
    before, after = rule_row("b", "B"), rule_row("d", "D")
    full = rule_row("cc", "t", WHOLE, 258, ["abc", "xyz"], "e", ["v", "w"])
    c = ord("c").to_bytes(3, "big")
    bad = [
        (21, FLAGS, rule_row("c", "t", 128)), (21, FLAGS, rule_row("c", None, 128)), (21, FLAGS, rule_row("c", "t", 128 | 31, end="e")),
        (21, CHARACTERS, resized(b"\0\0\0\0\0\0")), (21, CHARACTERS, resized(b"\x20\0\0\0\0\x01t\0")),
        (21, CHARACTERS, rule_row("c" * 17, "t")), (21, CHARACTERS, resized(b"\0\0\0\x20" + c * 32 + b"\0\0")),
        (21, CHARACTERS, resized(b"\0\0\0\xff" + c * 255 + b"\0\0")),
        (20, SOURCE + 3, resized(b"\0\0\0\x02" + c + b"\0\0")),                                               # a source cut short
        (21, CODES, rule_row("c", "t", codes=["abc"] * 9)),
        (21, CODES, resized(b"\0\0\0\x01" + c + b"\xff" + b"abc" * 255 + b"\0")),
        (21, TEXT + 2, rule_row("c", "t", others=["x"] * 9)), (21, TEXT + 2, rule_row("c", "t", others=[""] * 255)),
        (20, FLAGS, b"\0\0"), (20, FLAGS + 1, b"\0\x01\0"), (20, CHARACTERS, b"\0\x03\0\0\0"),
        (20, 28, full[:1] + bytes([full[1] + 1]) + full[2:] + b"\0"), (20, 28, full[:1] + bytes([full[1] + 2]) + full[2:] + b"\0\0"),  # bytes left over
    ]
    for value in (0xD800, 0xDBFF, 0xDFFF, 0x110000, 0xFFFFFF):
        bad.append((22, SOURCE, resized(b"\0\0\0\x01" + value.to_bytes(3, "big") + b"\0\0")))
        bad.append((22, SOURCE + 3, resized(b"\0\0\0\x02" + c + value.to_bytes(3, "big") + b"\0\0")))
    for code in ("ABC", "ab1", "`bc", "ab{", "a\0c", "a c"):
        bad.append((22, FIRST_CODE, rule_row("c", "t", codes=[code])))
        bad.append((22, FIRST_CODE + 3, rule_row("c", "t", codes=["abc", code])))
    for text in ("\x1f", "\x7f", "\0", "\x80", "\xff", "ab\x1f", "\x7fab", "x" * 65, "x" * 255):
        bad += rows_with(text)
    for number, within, row in bad:
        yield from in_table(number, "rules", before, row, after, within)
    # a row's rest that ends before its parts do: each of its bytes, and the part that is missed without it
    parts_of_full = [2, 3, 3, 5, 6, 6, 6, 9, 9, 9, 12, 13, 13, 13, 16, 16, 16, 19, 20, 21, 22, 23, 24, 25, 26, 27]
    assert len(parts_of_full) == len(full) - 2
    for n, missed in enumerate(parts_of_full):
        yield from in_table(20, "rules", before, resized(full[2:2 + n]), after, missed)
    yield from cut_rows(20, "rules", before, full)
    # one byte less than its parts take, the row after it as it was
    yield Border((20, 5 + 27), rules=block([full[:1] + bytes([full[1] - 1]) + full[2:], after]))
    # order: character by character, a prefix first
    for first, second in (("d", "b"), ("ab", "a"), ("b", "ab"), ("\U00010000", "\uffff"), ("ba", "aab"), ("aab", "aaa"), ("a\u0100", "a\xff")):
        one, two, three = rule_row(first, "x"), rule_row(second, "y"), rule_row("\U0010ffff", "z")
        yield Border((24, 5 + len(one)), rules=block([one, two]))
        yield Border((24, 5 + len(one)), rules=block([one, two, three]))
        yield Border((24, 5 + 2 * len(one)), rules=block([one, one, two]))
        yield accepted(rules=block([two, one, three]), mode=3)
    yield accepted(rules=block([rule_row("b", "x"), rule_row("b", "y"), rule_row("ba", "z")]), mode=3)
    # what is still allowed
    for row in (rule_row("c" * 16, "t"), rule_row("c", "x" * 64, end="y" * 64, others=["z" * 64]), rule_row("c", " ~", end=""),
                rule_row("c", "t", codes=["abc"] * 8), rule_row("c", "", others=["w"] * 8), rule_row("c", "t", 31, 65535),
                rule_row("\ud7ff", "t"), rule_row("\ue000", "t"), rule_row("\U0010ffff", "t"), rule_row("\0", "t"), rule_row("c", "az")):
        yield accepted(rules=block([row]), text=b"c" * 17, mode=2)
    # the first faulty row decides
    bad = rule_row("c", "\x7f")
    yield Border((23, 5 + TEXT + 1), rules=block([bad, bad]))
    yield Border((23, 5 + len(before) + TEXT + 1), rules=block([before, bad, before]))


def smallest_rules():
    for _, table, number, place in smallest.small_tables():
        yield Border((number, place), rules=table)


def class_rows():
    before, after = class_row("B", LETTER, 6), class_row("z", LETTER)
    bad = [(c, category, 0, 0) for c in "ZacyC" for category in (0, 2, 3, 4, 5, 6, 7)]
    bad += [("c", OTHER, 0, 128), ("c", LETTER, 128, 128), ("c", LETTER, 128, 0), ("c", LETTER, 255, 0), ("c", 8, 0, 0), ("c", 255, 0, 0),
            ("^", 8, 0, 0), ("^", 0, 128, 0), ("^", 8, 0, 128), ("^", 9, 130, 200)]
    for row in bad:
        yield from in_table(3, "classes", before, class_row(*row), after)
    for value in (0xD800, 0xDFFF, 0x110000, 0xFFFFFF):
        yield from in_table(3, "classes", before, value.to_bytes(3, "big") + bytes([1, 0, 0]), class_row("\U0010ffff", OTHER))
    # U+0020 is category 7, script 0, no flags
    start = class_row("\n", OTHER)
    for row in [(" ", category) for category in range(7)] + [(" ", ZS, 1), (" ", ZS, 127), (" ", ZS, 0, 1), (" ", ZS, 0, 64), (" ", 8), (" ", ZS, 5, 3),
                                                                (" ", ZS, 0, 128), (" ", ZS, 0, 255)]:
        yield from in_table(3, "classes", start, class_row(*row), after)
    yield Border((3, 5), classes=block([class_row(" ", ZS, 0, 128)]), capitals=1)
    # strictly rising
    for first, second in (("b", "b"), ("c", "b"), ("\U00010000", "\uffff"), ("\u0100", "\xff")):
        one, two = class_row(first, LETTER), class_row(second, LETTER)
        yield Border((3, 11), classes=block([one, two]))
        yield Border((3, 11), classes=block([one, two, class_row("\U0010ffff", OTHER)]))
        yield Border((3, 17), classes=block([class_row("A", LETTER), one, two]))
    yield from cut_rows(3, "classes", before, after)
    yield from cut_rows(3, "classes", b"", after)
    # what is still allowed: neighbours of the letters, the borders of each field
    for row in (("@", 0), ("[", 2), ("`", 5), ("{", 7), ("A", 1, 127, 127), ("z", 1, 6, 0), (" ", ZS), ("!", 6, 127, 127), ("\ud7ff", 3),
                ("\ue000", 4), ("\U0010ffff", 7), ("\0", 0), ("d", 1, 0, 128), ("z", 1, 127, 255), ("\u00a0", ZS, 0, 128)):
        yield accepted(classes=block([class_row(*row)]), text="bA@[`{z! d".encode(), mode=1)
    for capitals in (0, 1):
        yield accepted(classes=block([class_row("b", LETTER, 0, 128), class_row("d", LETTER, 0, 255)]), text=b"bbd", mode=1, capitals=capitals)
    yield Border((3, 5), classes=block([class_row("c", 0), class_row("d", 0)]))


def vowel_rows():
    before, after = vowel_row(5, A, "a"), vowel_row(9, AO, "o")
    bad = [(7, A, ""), (7, A, "aaaaa"), (7, A, "a" * 255), (7, 2, "a"), (7, 255, "a"), (7, A, "A"), (7, A, "aB"), (7, A, "`"), (7, A, "{"),
           (7, A, "a1"), (7, A, "\0"), (7, AO, "a b"), (0, A, "a"), (128, A, "a"), (255, A, "a"), (0, 2, "")]
    for row in bad:
        yield from in_table(4, "vowels", before, vowel_row(*row), after)
    for first, second in ((5, 5), (6, 5), (127, 1), (9, 8)):
        one, two = vowel_row(first, A, "ae"), vowel_row(second, AO, "o")
        yield Border((4, 10), vowels=block([one, two]))
        yield Border((4, 10), vowels=block([one, two, vowel_row(127, A, "a")]))
        yield Border((4, 10), vowels=block([one, two, one]))
    yield from cut_rows(4, "vowels", before, vowel_row(6, A, "abcd"))
    yield from cut_rows(4, "vowels", b"", vowel_row(6, A, "ab"))
    yield Border((4, 5), vowels=block([bytes([6, 0, 2]) + b"a", after]))      # its letters reach into the next row
    for row in ((1, A, "a"), (127, AO, "zzzz"), (6, A, "abcd"), (6, AO, "z")):
        yield accepted(vowels=block([vowel_row(*row)]), mode=1)
    yield accepted(vowels=block(vowel_row(s, s % 2, "a") for s in range(1, 128)), mode=1)


# characters that rows may be about, rising
C1, C2, C3 = "①②③"
# both sides of each border of what number 8 leaves out
LEFT_OUT = (0x0F00, 0x0F01, 0x0FFE, 0x0FFF, 0x2800, 0x28FF, 0xAC00, 0xD7A3)
BESIDE_LEFT_OUT = (0x0EFF, 0x1000, 0x27FF, 0x2900, 0xABFF, 0xD7A4)
NO_SCALARS = (0xD800, 0xDBFF, 0xDFFF, 0x110000, 0xFFFFFF)


def in_decompositions(row, before=form_row(C1, "1"), after=form_row("\U0010ffff", "3")):
    return in_table(13, "decompositions", before, row, after)


def decomposition_rows():
    one, two = form_row(C1, "1"), form_row(C2, "2")
    for tag in (6, 7, 127, 128, 255):
        yield from in_decompositions(form_row(C2, "2", tag))
    for count in (0, 19, 20, 32, 128, 255):
        yield from in_decompositions(form_row(C2, "2" * count))
    yield from in_decompositions(form_row(C2, "2" * 18, 6, 19))
    for value in NO_SCALARS:
        yield from in_table(13, "decompositions", one, form_row(value, "2"), form_row(0xFFFFFF, "3"))
        yield from in_decompositions(form_row(C2, [value]))
        yield from in_decompositions(form_row(C2, ["2", value]))
        yield from in_decompositions(form_row(C2, [value, *"2" * 17]))
        yield from in_decompositions(form_row(C2, [*"2" * 17, value]))
    # what number 8 leaves out stands in no row, but a row may be about it
    for value in LEFT_OUT:
        yield from in_decompositions(form_row(C2, [value]))
        yield from in_decompositions(form_row(C2, ["1", "2", value], UNTAGGED))
        yield accepted(decompositions=block([form_row(value, "1")]), text="bad".encode(), mode=1)
        yield Border((8, 1), decompositions=block([form_row(value, "1")]), text="b".encode() + chr(value).encode())
    for value in BESIDE_LEFT_OUT:
        yield accepted(decompositions=block([form_row(C2, [value, "2", value])]), text="②".encode(), mode=1)
    # U+0020 has no row, and may stand in one
    for tag in range(6):
        yield from in_decompositions(form_row(" ", "_", tag), form_row("\n", "1"))
        yield accepted(decompositions=block([form_row(C2, " 2 ", tag)]), text="②".encode(), mode=1)
    for char in "\x1f!\u00a0":
        yield accepted(decompositions=block([form_row(char, "_ ")]), text=("b d" + char).encode(), mode=1)
    # strictly rising
    for first, second in ((C1, C1), (C2, C1), ("\U00010000", "\uffff"), ("\u0100", "\xff"), ("\U00010000", "\0")):
        low, high = form_row(first, "x"), form_row(second, "y")
        yield Border((13, 13), decompositions=block([low, high]))
        yield Border((13, 13), decompositions=block([low, high, form_row("\U0010ffff", "z")]))
        yield Border((13, 24), decompositions=block([form_row("\0", "ab"), low, high]))
    # the block ends within a row, or goes on behind the last
    for before in (b"", one):
        yield from cut_rows(13, "decompositions", before, form_row(C2, "abc"))
        yield from cut_rows(13, "decompositions", before, form_row(C2, "a" * 18))
    yield Border((13, 21), decompositions=block([one, two, b"\0"]))
    yield Border((13, 5), decompositions=block([form_row(C1, "1", count=2)]))
    yield Border((13, 16), decompositions=block([form_row(C1, "11"), form_row(C2, "2", count=2)]))
    # a count that takes in bytes of the row behind it: its number is no scalar value
    yield Border((13, 5), decompositions=block([form_row(C1, "1", count=3), form_row(0xFFFFFF, "2")]))
    # what is still allowed
    for row in (form_row(C2, "2" * 18), form_row("\0", "\x01"), form_row("\U0010ffff", "\U0010fffe"), form_row("\ud7ff", "\ue000"),
                form_row("\ue000", "\ud7ff"), form_row("A", "b"), form_row("b", "d"), form_row("\u2044", "/"), form_row(C2, "22", NO_BREAK)):
        yield accepted(decompositions=block([row]), text="bA②\u2044".encode(), mode=3)
    yield accepted(decompositions=block([form_row(chr(0x2460 + k), "1", k % 6) for k in range(60)]), text="①⑥".encode(), mode=3)
    yield Border((13, 0), decompositions=b"")
    yield accepted(decompositions=bytes.fromhex("0100000000"), text="①".encode())


def nested_decompositions():
    """a row that holds a character with a row: the first such row is the place, unless a row before or behind it that is wrong by itself
    comes first, or ends what is there"""
    def at(place, *rows):
        """rows by themselves, and behind one that is right"""
        yield Border((13, 5 + place), decompositions=block(rows))
        front = form_row("!", "?*")
        yield Border((13, 5 + len(front) + place), decompositions=block([front, *rows]))

    # the three examples
    yield from at(0, form_row(C1, C2), form_row(C2, "1"), form_row(C3, "3", 6))
    yield from at(8, form_row(C1, C2), form_row(C2, "1", 6))
    yield from at(8, form_row(C1, C2), form_row(C2, [0x0F00]))
    for tag in range(6):
        for other in range(6):
            yield Border((13, 5), decompositions=block([form_row(C1, C2, tag), form_row(C2, "1", other)]))
            yield Border((13, 13), decompositions=block([form_row(C1, "1", tag), form_row(C2, C1, other)]))
    yield from at(0, form_row(C1, C1))
    yield from at(0, form_row(C1, C2), form_row(C2, C1))
    yield from at(0, form_row(C1, C3), form_row(C2, C3), form_row(C3, "3"))
    yield from at(8, form_row(C1, "1"), form_row(C2, C3), form_row(C3, "3"))
    yield from at(16, form_row(C1, "1"), form_row(C2, "2"), form_row(C3, C1))
    yield from at(16, form_row(C1, "1"), form_row(C2, "2"), form_row(C3, C3))
    for place in range(18):
        yield Border((13, 5), decompositions=block([form_row(C1, "1" * place + C2 + "1" * (17 - place)), form_row(C2, "2")]))
    # what ends the rows, whatever it is, before the one that is asked for
    for bad in (form_row(C2, "2", 6), form_row(C2, ""), form_row(C2, "2" * 19), form_row(C2, [0xD800]), form_row(C2, [0xAC00]), form_row(C1, "2"),
                form_row(C2, "2", count=4), form_row(0xD800, "2"), form_row(C2, [C3, 0x28FF])):
        yield from at(8, form_row(C1, C3), bad, form_row(C3, "3"))
        yield from at(0, form_row(C1, C1), bad, form_row(C3, "3"))
        yield from at(8, form_row("@", C2), bad) if bad[:3] == three(C2) else ()
    yield from at(8, form_row(C1, C2), form_row(C2, "1")[:-1])
    yield from at(8, form_row(C1, C2), b"\0")
    yield Border((13, 13), decompositions=block([form_row("\n", " "), form_row(" ", "1")]))
    # no row is asked of what only stands in rows
    yield accepted(decompositions=block([form_row(C1, "③1"), form_row(C2, "③2")]), text="①②③".encode(), mode=3)


def codes():
    for code in (b"a", b"ab", b"abcd", b"abcabc", b"ABC", b"Abc", b"abC", b"ab1", b"`bc", b"ab{", b"a c", b"\0\0\0", b"ab\0", b"\xc3\xa9a", b"a-b"):
        yield Border((5, 0), code=code)
    for code in (b"", b"aaa", b"zzz", b"san"):
        yield accepted(code=code)


BAD_UTF8 = """80 | BF | C0 80 | C0 AF | C1 BF | C2 | C2 41 | C2 C2 80 | C3 28 | DF | DF FF | E0 80 80 | E0 9F BF | E0 A0 | E0 | E0 A0 41 | E1 80
    | E1 41 80 | E1 C2 80 | ED A0 80 | ED AF BF | ED B0 80 | ED BF BF | ED A0 80 ED B0 80 | EF BF | EF BF C0 | F0 80 80 80 | F0 8F BF BF
    | F0 90 80 | F0 90 | F0 | F0 90 80 41 | F0 90 41 80 | F0 41 80 80 | F1 80 80 | F4 90 80 80 | F4 BF BF BF | F4 8F BF | F5 80 80 80
    | F7 BF BF BF | F8 88 80 80 80 | FC 84 80 80 80 80 | FE | FF | FF FE | EF BB | 80 80 80"""
GOOD_UTF8 = "00 | 7F | C2 80 | DF BF | E0 A0 80 | ED 9F BF | EE 80 80 | EF BF BF | EF BB BF | F0 90 80 80 | F4 8F BF BF"


def sequences(listed):
    return [bytes.fromhex(s) for s in listed.split("|")]


def utf8():
    for s in sequences(BAD_UTF8):
        yield Border((6, 0), text=s)
        yield Border((6, 1), text=b"a" + s + b"b")
        yield Border((6, 9), text="é€𐍈".encode() + s)
    yield Border((6, 3), text=b"\xe2\x82\xac\x80\xff")                   # a good one, then two bad ones
    yield Border((6, 512), text=b"a" * 512 + b"\xff")
    yield Border((6, 600), text=b"a" * 600 + b"\xc2")
    yield Border((6, 3), text="\u0f00".encode() + b"\xed\xa0\x80")       # before 8
    for s in sequences(GOOD_UTF8):
        yield accepted(text=s, mode=0)
        yield accepted(text=b"b" + s + b"d", mode=3)


def lengths():
    """texts about a length that was the most once: there are slots for 100 of their edges"""
    for n in (513, 514, 700):
        yield Border((9, 100), text=b"a" * n)
    yield Border((9, 100), text="€".encode() * 513)
    yield Border((9, 100), text=b"a" * 512 + "𐍈".encode())
    yield Border((8, 0), text="\u0f00".encode() + b"a" * 512)
    yield accepted(text=b"b" * 512, mode=0)
    yield accepted(text="€".encode() * 512, mode=1, rules=NONE, classes=NONE, vowels=NONE)


def left_out():
    for low, high in ((0x0F00, 0x0FFF), (0x2800, 0x28FF), (0xAC00, 0xD7A3)):
        for c in (low, low + 1, high - 1, high):
            for text, place in (("%s", 0), ("b%sd", 1), ("é€𐍈%s", 3), ("bb%s%s", 2)):
                yield Border((8, place), text=text.replace("%s", chr(c)).encode())
        for c in (low - 1, high + 1):
            yield accepted(text=("b" + chr(c)).encode(), mode=3)
        yield Border((8, 511), text=b"a" * 511 + chr(low).encode())
    yield Border((8, 1), text="a\ud7a3\u0f00".encode())


def lent(slots, room, output=200):
    return Lent(slots, room, output)


def case(slots_places, room_places, needs, **changes):
    """places by count of slots and by bytes of room, and what is exactly enough"""
    full = 12 * len(slots_places)
    for k, place in enumerate(slots_places):
        yield Border((9, place), lent(12 * k, needs), **changes)
        yield Border((9, place), lent(12 * k + 11, 1000), **changes)
    for room, place in enumerate(room_places):
        yield Border((10, place), lent(full, room), **changes)
    assert len(room_places) == needs
    yield Border(None, lent(full, needs), **changes)
    yield Border(None, lent(full + 11, needs + 1), **changes)
    yield Border(None, lent(120000, 100000), **changes)


def rooms():
    """9 and 10 at the first edge that does not fit, 11 with the bytes needed"""
    plain = dict(rules=NONE, classes=NONE, vowels=NONE)
    # characters without rules fall back in their order: 1, 2, 3, 4 bytes
    yield from case([0, 1, 2, 3], [0, 1, 1, 2, 2, 2, 3, 3, 3, 3], 10, **plain, text="aé€𐍈".encode(), mode=1)
    # an empty text needs a slot and no room
    mark = dict(plain, classes=classes({"\u0301": (NONSPACING,), "\u0302": (CF,), "\u0303": (CO,)}))
    yield from case([0, 1, 2], [0, 2], 2, **mark, text="a\u0301b".encode(), mode=3)
    yield from case([0, 1, 2], [], 0, **mark, text="\u0301\u0302\u0303".encode(), mode=3)
    yield Border((9, 1), lent(12, 0), **mark, text="\u0301a".encode())
    yield Border((10, 1), lent(24, 0), **mark, text="\u0301a".encode())
    # the slot is asked before the room
    yield Border((9, 0), lent(0, 0), text=b"a")
    yield Border((9, 1), lent(12, 1), **plain, text=b"aa")
    yield Border((10, 0), lent(12, 0), **plain, text=b"aa")
    # the edge's own, moved start: found at 1, it starts at 0; then the fallbacks (0,1) of 3 bytes and (1,2) of 2
    doubled = dict(rules=rules(("か", "ka")), classes=classes({"っ": (LETTER, 3), "か": (LETTER, 3)}), vowels=NONE, text="っか".encode())
    yield from case([0, 0, 1], [0, 0, 0, 0, 0, 0, 1, 1], 8, **doubled, mode=3)
    # an equal edge needs neither: (0,2) "kka" comes twice, then (0,1) "kka" and (1,2) "ka"
    equal = dict(doubled, rules=rules(("っ", "kka"), ("か", "ka")), classes=classes({"っ": (LETTER, 3), "か": (LETTER, 3, VIRAMA)}))
    yield from case([0, 0, 1], [0, 0, 0, 0, 0, 0, 1, 1], 8, **equal, mode=3)
    # (0,1) "e", (0,3) "kao" found at 1, (2,3) "a", then the fallback (1,2) "k"
    thai = dict(rules=rules(("เ", "e"), ("ก", "k"), ("า", "a"), ("เ\u2013า", "ao")), vowels=NONE, text="เกา".encode(),
                classes=classes({"เ": (LETTER, THAI, PRE), "ก": (LETTER, THAI), "า": (LETTER, THAI)}))
    yield from case([0, 0, 2, 1], [0, 0, 0, 0, 2, 1], 6, **thai, mode=2)
    # alternatives take neither slots nor room
    other = dict(plain, rules=rules(Rule("a", "x", others=["yyyy", "zzzz"])), text=b"a")
    yield from case([0], [0], 1, **other, mode=2)
    # an empty text takes nothing
    for mode in range(4):
        yield Border(None, Lent(0, 0, 5 if mode else 0), **plain, text=b"", mode=mode)
        yield Border(None, Lent(11, 3, 6), **plain, text=b"", mode=mode)
        if mode:
            for output in range(5):
                yield Border((11, 5), Lent(0, 0, output), **plain, text=b"", mode=mode)
    # 11: the string's 10 bytes; the listing's 5, 8 for each edge and the texts
    for output in (0, 1, 9):
        yield Border((11, 10), Lent(48, 10, output), **plain, text="aé€𐍈".encode())
    yield Border(None, Lent(48, 10, 10), **plain, text="aé€𐍈".encode())
    for mode in (1, 2, 3):
        for output in (0, 4, 5, 46):
            yield Border((11, 47), Lent(48, 10, output), **plain, text="aé€𐍈".encode(), mode=mode)
        yield Border(None, Lent(48, 10, 47), **plain, text="aé€𐍈".encode(), mode=mode)
        yield Border(None, Lent(48, 10, 60), **plain, text="aé€𐍈".encode(), mode=mode)
    # mode 2 needs more than mode 1 by its alternatives
    for output in (13, 14, 25, 37):
        yield Border((11, 38), Lent(12, 1, output), **other, mode=2)
    yield Border((11, 14), Lent(12, 1, 13), **other, mode=1)


def inner_rooms():
    """9 and 10 of the edges that a decomposition's string takes, at the character; then they are gone"""
    def plain(made, text, kinds=(), table=(), mode=3):
        return dict(rules=rules(*table), classes=classes(dict(kinds)), vowels=NONE, decompositions=forms(made), text=text.encode(), mode=mode)

    number = {"①": (NUMBER,), "2": (NUMBER,)}
    # one slot and one byte, used twice
    yield from case([0], [0], 1, **plain({"①": "1"}, "①"))
    yield from case([0, 1, 2], [0, 1, 2], 3, **plain({"①": "1"}, "①①①"))
    # two and three edges inside, one outside
    yield from case([0, 0], [0, 0], 2, **plain({"①": "12"}, "①"))
    yield from case([0, 0, 0], [0, 0, 0], 3, **plain({"①": "123"}, "①"))
    yield from case([0, 0, 1], [0, 0, 1, 1], 4, **plain({"①": "12"}, "①①"))
    # fallbacks come behind: with what is left of the inner edges they find room
    yield from case([1, 1, 1], [1, 1, 1, 0], 4, **plain({"①": "123"}, "a①"))
    yield from case([0, 0, 0], [0, 0, 0, 1], 4, **plain({"①": "123"}, "①a"))
    # an empty text inside takes a slot
    mark = {"\u0301": (NONSPACING,)}
    yield from case([0, 0, 0], [0], 1, **plain({"①": "\u0301a\u0301"}, "①", mark))
    yield from case([0, 0], [], 0, **plain({"①": "\u0301\u0301"}, "①", mark))
    # rule edges of more than one character inside: "kya" (0,2), then "ki" and "ya" of one character each
    kana = {"き": (LETTER, 3), "ゃ": (LETTER, 3)}
    yield from case([0, 0, 0], [0] * 7, 7, **plain({"①": "きゃ"}, "①", kana, [("き", "ki"), ("ゃ", "ya")]))
    # of seven bytes three stay taken
    yield from case([0, 0, 0, 1], [0] * 7 + [1] * 3, 10, **plain({"①": "きゃ"}, "①①", kana, [("き", "ki"), ("ゃ", "ya")]))
    # the spaces are the edge's own: its 10 comes where its string has fitted
    yield from case([1, 0], [1, 1, 0], 3, **plain({"①": "1"}, "2①", number))
    yield from case([1, 0, 2], [1, 1, 1, 0, 2], 5, **plain({"①": "1"}, "2①2", number))
    yield from case([1, 1, 2], [1, 1, 0, 2], 4, **plain({"①": "\u0301\u0301"}, "2①2", {**number, **mark}))
    # the slash makes a string shorter: 5 bytes inside, 3 outside
    half = {"½": "1\u20442"}
    yield from case([0, 0, 0], [0] * 5, 5, **plain(half, "½", {"½": (NUMBER,)}))
    yield from case([0, 0, 0], [0] * 5, 5, **plain(half, "½"))
    yield from case([0, 0, 0, 1], [0] * 5 + [1] * 4, 9, **plain(half, "½½", {"½": (NUMBER,)}))
    # a rule beside it: its edge is before, and the string is asked for nevertheless
    yield from case([0, 0, 0], [0, 0, 0, 0], 4, **plain({"①": "12"}, "①", table=[("①", "ab")]))
    yield from case([0, 0, 0, 0], [0, 0, 0, 0, 0], 5, **plain({"①": "123"}, "①", table=[("①", "ab")]))
    # no edge, no string
    for tag in (UNTAGGED, SUPER, SUB, NO_BREAK, COMPAT):
        yield from case([0], [0, 0, 0], 3, **plain({"①": ("123456", tag)}, "①"))
    # the first edge that does not fit: an inner one behind outer ones, and an outer one behind it
    yield Border((9, 2), lent(24, 9), **plain({"①": "12"}, "xx①", table=[("x", "k")]))
    yield Border((10, 2), lent(60, 3), **plain({"①": "12"}, "xx①", table=[("x", "k")]))
    yield Border((10, 0), lent(60, 4), **plain({"①": "12"}, "a①①", table=[("x", "k")]))
    yield Border((9, 0), lent(0, 0), **plain({"①": "1"}, "①"))
    yield Border((10, 0), lent(12, 0), **plain({"①": "1"}, "①"))
    yield Border((9, 0), lent(12, 0), **plain({"①": "\u0301a"}, "①", mark))
    yield Border((10, 0), lent(24, 0), **plain({"①": "\u0301a"}, "①", mark))
    # 11 behind them; the output has the edge alone
    for mode, needs in ((0, 2), (1, 15), (2, 15), (3, 15)):
        yield Border((11, needs), Lent(24, 2, needs - 1), **plain({"①": "12"}, "①", mode=mode))
        yield Border(None, Lent(24, 2, needs), **plain({"①": "12"}, "①", mode=mode))


def long(made, text, kinds=(), table=()):
    """a text with decompositions, whose path is shown"""
    return dict(rules=rules(*table), classes=classes(dict(kinds)), vowels=NONE, decompositions=forms(made), text=text.encode(), mode=1)


NUMBERS = {"①": (NUMBER,), "2": (NUMBER,)}


def former_too_long():
    """texts about 198 bytes, which was the longest once: what 14 came for is read now, or finds too little room"""
    def short(made, text, kinds=(), table=(("x", "k" * 11), ("y", "k" * 12), ("z", "k" * 10))):
        return long(made, text, kinds, table)

    most, more, less = "x" * 18, "x" * 17 + "y", "x" * 17 + "z"            # 198, 199 and 197 bytes
    yield Border(None, Lent(18 * 12, 198, 300), **short({"①": most}, "①"))
    yield Border(None, Lent(18 * 12, 199, 300), **short({"①": more}, "①"))
    yield Border(None, Lent(9999, 9999, 300), **short({"①": more}, "①"))
    yield Border((11, 5 + 8 + 199), Lent(9999, 9999, 0), **short({"①": more}, "①"))
    for slots in (0, 1, 17):
        yield Border((9, 0), Lent(12 * slots, 199, 300), **short({"①": more}, "①"))
    for room in (0, 11, 198):
        yield Border((10, 0), Lent(18 * 12, room, 300), **short({"①": more}, "①"))
    # 197 bytes and two spaces, 198 and one: with room for the string alone its own 10 comes
    for made, text, table in ((less, "2①2", 197), (most, "2①", 198), (most, "①2", 198)):
        at = text.index("①")
        yield Border((10, at), Lent(9999, table - 1, 300), **short({"①": made}, text, NUMBERS))
        yield Border((10, at), Lent(9999, table, 300), **short({"①": made}, text, NUMBERS))
        yield Border(None, Lent(18 * 12, 9999, 300), **short({"①": made}, text, NUMBERS))
        yield Border(None, Lent(9999, 9999, 300), **short({"①": made}, text))
    yield Border((10, 1), Lent(9999, 197, 300), **short({"①": less}, "2①", NUMBERS))
    yield Border(None, Lent(9999, 199, 300), **short({"①": less}, "2①", NUMBERS))
    # 15 times 13 bytes, and three slashes of three bytes, or of one
    slashes = dict(made={"①": "w" * 15 + SLASH * 3}, table=(("w", "k" * 13),))
    yield Border(None, Lent(9999, 9999, 300), **short(text="①", **slashes))
    yield Border(None, Lent(9999, 204, 300), **short(text="①", kinds=NUMBERS, **slashes))
    yield Border((10, 0), Lent(9999, 203, 300), **short(text="①", kinds=NUMBERS, **slashes))
    yield Border(None, Lent(9999, 9999, 300), **short(text="2①", kinds=NUMBERS, **slashes))
    yield Border(None, Lent(9999, 9999, 300), **short({"①": "v" * 15 + "€"}, "①", table=(("v", "k" * 13),)))
    yield Border(None, Lent(9999, 9999, 300), **short({"①": "v" * 15 + "éé"}, "①", table=(("v", "k" * 13),)))
    # the output is too short for both; the fallback of a is added last, and finds no room
    yield Border((11, 5 + 9 + 2 * (8 + 199)), Lent(9999, 9999, 300), **short({"①": more, "②": more}, "a①②"))
    yield Border((10, 0), Lent(18 * 12, 199, 300), **short({"①": more}, "a①"))
    yield Border((9, 0), Lent(0, 9999, 300), **short({"①": more}, "x①"))
    yield Border((10, 0), Lent(9999, 10, 300), **short({"①": more}, "x①"))
    yield Border((9, 1), Lent(18 * 12, 9999, 300), **short({"①": more}, "x①"))
    yield Border((10, 1), Lent(9999, 11 + 198, 300), **short({"①": more}, "x①"))
    yield Border(None, Lent(19 * 12, 11 + 199, 300), **short({"①": more}, "x①"))
    yield Border(None, Lent(9999, 9999, 300), **short({"①": more}, "①", table=(("①", "1"), ("x", "k" * 11), ("y", "k" * 12))))
    yield Border(None, Lent(9999, 9999, 300), **short({"①": more}, "①②", table=(("①②", "1"), ("x", "k" * 11), ("y", "k" * 12))))
    for tag in (UNTAGGED, SUPER, SUB, NO_BREAK, COMPAT):
        yield Border(None, Lent(9999, 9999, 300), **short({"①": (more, tag)}, "①"))
    # 18 times 64 bytes is still too long
    yield Border((14, 0), Lent(9999, 9999, 300), **short({"①": "x" * 18}, "①", table=(("x", "k" * 64),)))
    yield Border(None, Lent(99999, 99999, 9999), **short({"①": more}, "a" * 511 + "①"))
    # a choice is refused before anything
    for choice, refusal in (("capitals", 12), ("o_ang", 15), ("readings", 17)):
        yield Border((refusal, 0), Lent(9999, 9999, 300), **short({"①": more}, "①"), **{choice: 2})


def long_targets():
    """targets, end-of-syllable targets and alternatives about 64 bytes, which were the most once, and about 200"""
    before, after = rule_row("b", "B"), rule_row("d", "D")
    for n in (64, 66, MOST_TARGET - 1, MOST_TARGET, MOST_TARGET + 1, MOST_TARGET + 2, 254):
        for number, within, row in rows_with("x" * n):
            yield from in_table(number, "rules", before, row, after, within)
    for text in ("x" * 64 + "\x7f", "x" * (MOST_TARGET - 1) + "\x1f", "\x80" + "x" * (MOST_TARGET - 1), "x" * MOST_TARGET + "\x7f"):
        for number, within, row in rows_with(text):
            yield from in_table(number, "rules", before, row, after, within)
    for _, table, number, place in smallest.long_tables():
        yield Border((number, place), rules=table)
    # what is still allowed
    full = "x" * MOST_TARGET
    for row in (rule_row("c", "x" * 65, end="y" * 65, others=["z" * 65]), rule_row("c", full, end="y" * MOST_TARGET, others=["z" * MOST_TARGET]),
                rule_row("c" * 16, full, 31, 65535, ["abc"] * 8, full, [full] * 8), rule_row("c", " " * MOST_TARGET, end="~" * MOST_TARGET)):
        yield accepted(rules=block([row]), text=b"c" * 17, mode=2)


def long_texts():
    """6, 7 and 8 at 4,096 characters of each size"""
    most = MOST_CHARACTERS
    for n in (most + 1, most + 2, most + 900):
        yield Border((7, most), text=b"a" * n)
    for c in "é€𐍈":
        yield Border((7, most), text=c.encode() * (most + 1))
        yield Border((7, most), text=b"a" * most + c.encode())
        yield Border((6, most), text=b"a" * most + c.encode()[:-1])          # before 7, though there would be a character
        yield Border((6, len(c.encode()) * most), text=c.encode() * most + b"\xff")
    yield Border((6, most + 1), text=b"a" * (most + 1) + b"\xc2")
    yield Border((7, most), text="\u0f00".encode() + b"a" * most)             # before 8
    yield Border((7, most), text=b"a" * most + "\u0f00".encode())
    for c in "\u0f00\u2800\uac00":
        yield Border((8, most - 1), text=b"a" * (most - 1) + c.encode())
        yield Border((8, 512), text=b"a" * 512 + c.encode() * 2)
    for mode, lent in ((0, Lent(99999, 9999, 0)), (1, Lent(0, 0, 0)), (2, Lent(99999, 9999, 99999)), (3, Lent(0, 0, 99999))):
        yield Border((7, most), lent, text=b"b" * (most + 1), mode=mode)


def too_long():
    """14 at the character whose finished text passes 606 bytes: behind its string's 9 and 10, before its own"""
    # three times 200 bytes, and 5, 6 or 7
    full, rest = "k" * MOST_TARGET, MOST_EDGE_TEXT - 3 * MOST_TARGET
    table = ("x", full), ("w", "k" * (rest - 1)), ("y", "k" * rest), ("z", "k" * (rest + 1))
    less, most, more = "xxxw", "xxxy", "xxxz"
    bytes_of = {less: MOST_EDGE_TEXT - 1, most: MOST_EDGE_TEXT, more: MOST_EDGE_TEXT + 1}

    def border(refusal, lent, made, text, kinds=(), table=table, **changes):
        return Border(refusal, lent, **long(made, text, kinds, table), **changes)

    yield border(None, Lent(4 * 12, 606, 619), {"①": most}, "①")
    yield border((11, 619), Lent(4 * 12, 606, 618), {"①": most}, "①")
    yield border((10, 0), Lent(4 * 12, 605, 700), {"①": most}, "①")
    yield border((14, 0), Lent(4 * 12, 607, 700), {"①": more}, "①")
    yield border((14, 0), Lent(9999, 9999, 700), {"①": more}, "①")
    yield border((14, 0), Lent(9999, 9999, 0), {"①": more}, "①")
    for mode in (0, 2, 3):
        yield Border((14, 0), Lent(9999, 9999, 700), **{**long({"①": more}, "①", table=table), "mode": mode})
        yield Border(None, Lent(9999, 9999, 700), **{**long({"①": most}, "①", table=table), "mode": mode})
    # behind the string's 9 and 10
    for slots in (0, 1, 3):
        yield border((9, 0), Lent(12 * slots, 607, 700), {"①": more}, "①")
    for room in (0, 199, 200, 606):
        yield border((10, 0), Lent(4 * 12, room, 700), {"①": more}, "①")
    # before its own 10: 605 bytes and two spaces, 606 and one
    for made, text in ((less, "2①2"), (most, "2①"), (most, "①2")):
        at, size = text.index("①"), bytes_of[made]
        yield border((10, at), Lent(9999, size - 1, 700), {"①": made}, text, NUMBERS)
        yield border((14, at), Lent(9999, size, 700), {"①": made}, text, NUMBERS)
        yield border((14, at), Lent(4 * 12, 9999, 700), {"①": made}, text, NUMBERS)
        yield border(None, Lent(9999, 9999, 700), {"①": made}, text)
    yield border((10, 1), Lent(9999, 605, 700), {"①": less}, "2①", NUMBERS)
    yield border(None, Lent(9999, 607, 700), {"①": less}, "2①", NUMBERS)
    # the slash is in: three times 200 bytes, three, and three slashes of three bytes, or of one
    slashes = dict(made={"①": "xxxv" + SLASH * 3}, table=(("x", full), ("v", "kkk")))
    yield border((14, 0), Lent(9999, 9999, 700), text="①", **slashes)
    yield border(None, Lent(9999, 612, 700), text="①", kinds=NUMBERS, **slashes)
    yield border((10, 0), Lent(9999, 611, 700), text="①", kinds=NUMBERS, **slashes)
    yield border((14, 1), Lent(9999, 9999, 700), text="2①", kinds=NUMBERS, **slashes)
    # bytes, not characters: three times 200, and two of three bytes, or one of three and two of two
    yield border(None, Lent(9999, 9999, 700), {"①": "xxx€€"}, "①")
    yield border((14, 0), Lent(9999, 9999, 700), {"①": "xxx€éé"}, "①")
    # 18 characters: 17 times 34 bytes, and 28 or 29
    eighteen = ("x", "k" * 34), ("y", "k" * 28), ("z", "k" * 29)
    yield border(None, Lent(18 * 12, 606, 619), {"①": "x" * 17 + "y"}, "①", table=eighteen)
    yield border((14, 0), Lent(18 * 12, 607, 700), {"①": "x" * 17 + "z"}, "①", table=eighteen)
    # the first such character, and behind 9 and 10 of what is added before it
    yield border((14, 1), Lent(9999, 9999, 700), {"①": more, "②": more}, "a①②")
    yield border((14, 2), Lent(9999, 9999, 2000), {"①": most, "②": more}, "a①②")
    yield border((14, 1), Lent(4 * 12, 607, 700), {"①": more}, "a①")
    yield border((9, 0), Lent(0, 9999, 900), {"①": more}, "x①")
    yield border((10, 0), Lent(9999, 199, 900), {"①": more}, "x①")
    yield border((9, 1), Lent(4 * 12, 9999, 900), {"①": more}, "x①")
    yield border((10, 1), Lent(9999, 200 + 606, 900), {"①": more}, "x①")
    yield border((14, 1), Lent(5 * 12, 200 + 607, 900), {"①": more}, "x①")
    # a rule beside it helps nothing; a tag without an edge does
    yield border((14, 0), Lent(9999, 9999, 700), {"①": more}, "①", table=(("①", "1"), *table))
    yield border((14, 0), Lent(9999, 9999, 700), {"①": more}, "①②", table=(("①②", "1"), *table))
    for tag in (UNTAGGED, SUPER, SUB, NO_BREAK, COMPAT):
        yield border(None, Lent(9999, 9999, 700), {"①": (more, tag)}, "①")
    # as long as it can get
    yield border((14, 0), Lent(9999, 9999, 700), {"①": "x" * 18}, "①")
    # a choice is refused before it
    for choice, refusal in (("capitals", 12), ("o_ang", 15), ("readings", 17)):
        yield border((refusal, 0), Lent(9999, 9999, 700), {"①": more}, "①", **{choice: 2})


def long_rooms():
    """9, 10 and 11 of texts of 200 bytes and more"""
    full = "k" * MOST_TARGET
    plain = dict(rules=rules(("x", full), ("y", "k" * 65)), classes=NONE, vowels=NONE, text=b"xyx")
    for slots, place in ((0, 0), (1, 1), (2, 2)):
        yield Border((9, place), Lent(12 * slots, 999, 999), **plain)
    for room, place in ((0, 0), (199, 0), (200, 1), (264, 1), (265, 2), (464, 2)):
        yield Border((10, place), Lent(36, room, 999), **plain)
    for mode, needs in ((0, 465), (1, 5 + 3 * 8 + 465), (2, 5 + 3 * 8 + 465), (3, 5 + 3 * 8 + 465)):
        yield Border((11, needs), Lent(36, 465, needs - 1), **plain, mode=mode)
        yield Border(None, Lent(36, 465, needs), **plain, mode=mode)
    # alternatives and readings of 200 bytes need output alone
    others = dict(plain, rules=rules(Rule("x", "k", end="e" * MOST_TARGET, others=["a" * MOST_TARGET, "b" * MOST_TARGET])), text=b"x")
    for readings, rows in ((0, 2), (1, 3)):
        needs = 5 + 9 + rows * (8 + MOST_TARGET)
        yield Border((11, needs), Lent(12, 1, needs - 1), **others, mode=2, readings=readings)
        yield Border(None, Lent(12, 1, needs), **others, mode=2, readings=readings)


def orders(most):
    """two faults at once: the one that is looked for earlier comes first; all of them together give the first. A text of over `most`
    characters is one of them"""
    b, c = rule_row("b", "B"), rule_row("c", "C")
    # in their order: number, place, what is changed
    faults = [
        (1, 0, dict(mode=9)), (12, 0, dict(capitals=2)), (15, 0, dict(o_ang=2)), (17, 0, dict(readings=2)), (20, 5 + len(b), dict(rules=block([b, b"\0"]))), (3, 5, dict(classes=block([class_row("b", 2)]))),
        (4, 0, dict(vowels=b"\x02\0\0\0\0")), (13, 13, dict(decompositions=block([form_row("①", "1"), form_row("②", "①")]))), (5, 0, dict(code=b"xx")), (6, 1, dict(text=b"a\xff")), (7, most, dict(text=b"a" * (most + 1))),
        (8, 2, dict(text="ab\u0f00".encode())),
    ]
    both = {(6, 7): (b"a\xff" + b"a" * (most + 88), 1), (6, 8): ("\u0f00a".encode() + b"\xff", 4),
            (7, 8): ("\u0f00".encode() * (most + 1), most)}
    small = {9: Lent(0, 0, 0), 10: Lent(1200, 0, 0), 11: Lent(1200, 100, 0)}

    def from_rank(rank):
        """all faults from one on"""
        return {name: value for _, _, changes in faults[rank:] for name, value in changes.items()}

    for rank, (number, place, changes) in enumerate(faults):
        for later, _, more in faults[rank + 1:]:
            if (number, later) in both:
                text, at = both[number, later]
                yield Border((number, at), text=text)
            else:
                yield Border((number, place), **{**changes, **more})
        for lent in small.values():
            yield Border((number, place), lent, **changes)
    for rank, (number, place, _) in enumerate(faults[:9]):
        yield Border((number, place), Lent(0, 0, 0), **from_rank(rank))
        yield Border((number, place), Lent(5, 5, 5), **from_rank(rank))
    # the same with readings that are right
    for rank, (number, place, _) in enumerate(faults[:3]):
        yield Border((number, place), Lent(0, 0, 0), **{**from_rank(rank), "readings": 0})
        yield Border((number, place), Lent(5, 5, 5), **{**from_rank(rank), "readings": 0})
    yield Border((9, 0), small[9])
    yield Border((10, 0), small[10])
    yield Border((11, 3), small[11], rules=NONE)
    # every other fault of the rule table has the same place among them
    for number, place, table in ((21, 5 + FLAGS, block([rule_row("c", "C", 128)])), (22, 5 + SOURCE, block([rule_row("\ud800", "C")])),
                                 (23, 5 + TEXT + 1, block([rule_row("c", "\x7f")])), (24, 5 + len(c), block([c, b]))):
        for rank, earlier in enumerate((1, 12, 15)):
            for readings in (0, 2):
                yield Border((earlier, 0), **{**from_rank(rank), "rules": table, "readings": readings})
        yield Border((15, 0), o_ang=255, rules=table)
        yield Border((17, 0), **{**from_rank(3), "rules": table})
        yield Border((17, 0), readings=255, rules=table)
        yield Border((number, place), **{**from_rank(5), "rules": table})
        for _, _, more in faults[5:]:
            yield Border((number, place), **more, rules=table)


def former_orders():
    """with a text of 513 characters, which was too long once: what it was refused by 7 for is now read, and refused for another reason"""
    now = iter([(8, 0), (9, 0), (10, 0), (9, 100)])
    for border in orders(512):
        if border.refusal == (7, 512):
            border.refusal = next(now)
        yield border
    assert not list(now)


def long_orders():
    """those in which the text is too long"""
    return (border for border in orders(MOST_CHARACTERS) if len(border.given.text) > MOST_CHARACTERS)


def most_classes():
    """8,192 rows are allowed, the next is faulty; these are large and slow, so there are few"""
    row = [class_row(chr(0x4E00 + k), OTHER) for k in range(8193)]
    yield Border((3, 5 + 8192 * 6), classes=block(row))
    yield accepted(classes=block(row[:8192]), text=b"")


def most_rules():
    """the same of rules, in a file of their own: one row again and again, which is how a computation can write 90,000 bytes"""
    rule = rule_row("b")
    yield Border((25, 5 + 8192 * len(rule)), rules=block([rule] * 8193))
    yield Border((25, 5 + 8192 * len(rule)), rules=block([rule] * 8192 + [b"\0"]))
    yield Border((15, 0), rules=block([rule] * 8193), o_ang=2)
    yield accepted(rules=block([rule] * 8192), text=b"")
    yield accepted(rules=block([rule] * 8191 + [rule_row("b", "x")]), text=b"b")


def most_decompositions():
    """the same of decompositions, in a file of their own too: every row is looked up among all"""
    row = [form_row(chr(0x3400 + k), "1") for k in range(8193)]
    yield Border((13, 5 + 8192 * 8), decompositions=block(row))
    yield Border((13, 5 + 8192 * 8), decompositions=block(row[:8192] + [b"\0"]))
    yield accepted(decompositions=block(row[:8192]), text=chr(0x3400 + 8191).encode())
    # a row that is one too many is not there, so that the first may hold its character
    yield Border((13, 5 + 8192 * 8), decompositions=block([form_row("!", chr(0x3400 + 8191)), *row[:8192]]))
    yield Border((13, 5), decompositions=block([form_row("!", chr(0x3400 + 8190)), *row[:8191]]))
    yield Border((13, 5 + 8191 * 8), decompositions=block([*row[:8191], form_row("\U0010ffff", "\u3400")]))


GROUPS = [modes, choices, headers, rule_rows, smallest_rules, class_rows, vowel_rows, decomposition_rows, nested_decompositions, codes, utf8, lengths,
          left_out, rooms, inner_rooms, former_too_long, former_orders, most_classes,
          # what came with texts of 4,096 characters and targets of 200 bytes
          long_targets, long_texts, too_long, long_orders, long_rooms]


def made(border, built):
    """the call, once the oracle has confirmed it"""
    number, _ = border.refusal or (0, 0)
    if (built is None) != (number in WITHOUT_LATTICE):
        raise SystemExit("%s is wanted, but the oracle %s: %r" % (border.refusal, "refuses" if built is None else "accepts", border.given))
    if built is None:
        return Call(border.given, border.lent, refused(*border.refusal))
    lent = border.lent or built.lent()
    if border.refusal and answered(built, lent) != refused(*border.refusal):
        raise SystemExit("%s is wanted, the oracle's edges give %s: %r" % (border.refusal, answered(built, lent)[:2], border.given))
    done = call(border.given, built, lent)
    if border.refusal is None and done.answer.number != 0:
        raise SystemExit("refused with %s: %r" % (done.answer[:2], border))
    return done


def save(program, path, groups):
    borders = [border for group in groups for border in group()]
    calls = [made(border, built) for border, built in zip(borders, ask(program, [b.given for b in borders]))]
    callfile.write(path, calls)
    numbers = [c.answer.number for c in calls]
    print("%d calls: %s" % (len(calls), ", ".join("%d of %d" % (numbers.count(n), n) for n in sorted(set(numbers)))))


def main(program, path, rules_path, decompositions_path):
    save(program, path, GROUPS)
    save(program, rules_path, [most_rules])
    save(program, decompositions_path, [most_decompositions])


if __name__ == "__main__":
    main(*sys.argv[1:])
