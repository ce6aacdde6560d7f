#!/usr/bin/env python3
"""Vectors for the checks of the four tables (crates table_classes, table_vowels, table_decompositions and rule_table_check).

vectors.py            writes crates/tables_vectors/stdin and stdout
vectors.py --check    only says whether they are what it would write

A vector: the kind of table (0 rules, 1 classes, 2 vowels, 3 decompositions), the table's length in three bytes and its bytes; the
number that a call refuses it by in one byte (20 to 25 for rules, 3 for classes, 4 for vowels, 13 for decompositions, 0 for a valid
table), and the place in three bytes (0 where there is none). Numbers are big-endian.

The answers come from three sides. The frozen calls have one for each table that a call was refused by or that passed. Some
are written here beside the damage, or follow from the layout of the row that is damaged. The rest is answered by the readers of
tools/tables.py, which must agree with all the others. These take the parts of a row in their order from what the row has, and stop at
the first that is wrong; the definition finds each part by its offset instead."""
import collections
import itertools
import pathlib
import string
import sys
from typing import NamedTuple, Optional

TESTS = pathlib.Path(__file__).resolve().parents[1]
sys.path[:0] = [str(TESTS / 'calls'), str(TESTS / 'generate'), str(TESTS.parent / 'tools')]
import callfile
import program
from tables import A, AO, CF, CO, COMPAT, DEVANAGARI, FAULTS, FORM, LETTER, MARK, MOST_RULES, MOST_TARGET, OTHER, PRE, START, SUPER
from tables import THAI, UNTAGGED, VIRAMA, WHOLE, ZS, Rule, block, class_row, decomposition_row, fault, read_classes, read_decompositions, read_rules
from tables import read_vowels, rule_row, vowel_row

RULES, CLASSES, VOWELS, DECOMPOSITIONS = range(4)
NAMES = ('rules', 'classes', 'vowels', 'decompositions')
READERS = (read_rules, read_classes, read_vowels, read_decompositions)
NUMBERS = (set(FAULTS), {3}, {4}, {13})     # by which each is refused
BEFORE = (1, 12, 15, 17)  # refused before any table is looked at: mode and choices
ROOM = 2200000      # the length of `room` in crates/tables_vectors
LARGE = 4000        # longer tables are taken sparingly


def read(kind, table):
    """the number and the place of the first fault, or None"""
    return fault(READERS[kind], table)


def agreed(vectors):
    """each table once; the reader agrees with every answer"""
    found = {}
    for kind, table, answer in vectors:
        if (kind, table) in found:
            assert found[kind, table] == answer, (kind, table.hex())
            continue
        second = read(kind, table)
        if answer != second:
            sys.exit(f'{NAMES[kind]}: the answer is {answer}, but the reader says {second}: {table.hex()}')
        found[kind, table] = answer
        yield kind, table, answer


# Answered by the frozen calls. A call that is refused by one table has passed those before it.

def answered(calls):
    for given, _, (number, place, *_) in calls:
        if number in BEFORE:
            continue
        for kind, name in enumerate(NAMES):
            refused = number in NUMBERS[kind]
            yield kind, getattr(given, name), (number, place) if refused else None
            if refused:
                break


def frozen():
    """every tenth of the random calls' tables, which are alike, and all others; of the large ones only the longest of each
    kind, valid and faulty: both sides of the border of 8,192 rows"""
    longest = {}
    for path in sorted((TESTS / 'calls').glob('*.calls.xz')):
        every = 10 if path.name.startswith('random') else 1
        for kind, table, answer in list(agreed(answered(callfile.read(path))))[::every]:
            if len(table) <= LARGE:
                yield kind, table, answer
            elif len(table) > len(longest.get((kind, answer is None), (kind, b''))[1]):
                longest[kind, answer is None] = kind, table, answer
    yield from longest.values()


# Answered here. A fault of a row is a number, and how far from the row's start it is.

def unless(right, number, place):
    """the answer where something is right or not"""
    return None if right else (number, place)


def moved_by(offset, wrong):
    """a fault of a row that begins at this offset"""
    return wrong and (wrong[0], offset + wrong[1])


def placed(kind, before, row, after, wrong):
    """a row alone, behind a good one, and between two"""
    for front, back in ((b'', b''), (before, b''), (before, after)):
        yield kind, block([front, row, back]), moved_by(5 + len(front), wrong)


CHARACTERS = (0, 0x1F, 0xD7FF, 0xD800, 0xDBFF, 0xDC00, 0xDFFF, 0xE000, 0xFFFF, 0x10000, 0x10FFFF, 0x110000, 0x1FFFFF, 0xFFFFFF)


def sized(rest, length=None):
    """a rule row of this rest, its length in step or another"""
    return (len(rest) if length is None else length).to_bytes(2, 'big') + rest


def rule_rows():
    first, last = rule_row('\0'), rule_row('\U0010ffff')

    def at(row, wrong):
        return placed(RULES, first, row, last, wrong)

    def after_first(row, wrong):
        return RULES, block([first, row]), moved_by(5 + len(first), wrong)

    def source_of(*characters):
        return sized(bytes([0, 0, 0, len(characters)]) + b''.join(c.to_bytes(3, 'big') for c in characters) + bytes(2))

    # how many of each part: flags at 2, characters counted at 5, codes at 9 behind one character, texts from 10 on behind no code
    for n in range(19):
        yield from at(rule_row('c' * n, 't'), unless(1 <= n <= 16, 21, 5))
    for n in range(11):
        yield from at(rule_row('c', 't', codes=['abc'] * n), unless(n <= 8, 21, 9))
        yield from at(rule_row('c', 't', others=['x'] * n), unless(n <= 8, 21, 12))
    for n in (0, 1, 2, 63, 64, 65, 127, 128, MOST_TARGET - 1, MOST_TARGET, MOST_TARGET + 1, 255):
        s = 'x' * n
        texts = ((dict(target=s), 10), (dict(end=s), 10), (dict(target='t', end=s), 12), (dict(others=[s]), 11),
                 (dict(others=['y', s]), 13))
        for given, within in texts:
            yield from at(rule_row('c', **given), unless(n <= MOST_TARGET, 21, within))
    # the flags: each of the lower five, with each of the texts, is right; bit 7 never is
    for flags in range(32):
        for target, end in itertools.product((None, 't'), (None, 'e')):
            yield from at(rule_row('c', target, flags, 65535, end=end), None)
        yield from at(rule_row('c', 't', flags | 128, end='e'), (21, 2))
    # every byte of a text and of a code
    for c in range(256):
        s = chr(c)
        for row, within in ((rule_row('c', s), 11), (rule_row('c', end='a' + s), 12), (rule_row('c', others=['', s + 'a']), 13)):
            yield after_first(row, unless(0x20 <= c <= 0x7E, 23, within))
    for c in range(128):
        for code in ('%sbc', 'a%sc', 'ab%s'):
            row = rule_row('c', codes=['xyz', code.replace('%s', chr(c))])
            yield after_first(row, unless(chr(c) in string.ascii_lowercase, 22, 13))
    # characters at the borders, each as the only one and as the second
    for c in CHARACTERS:
        right = not 0xD800 <= c <= 0xDFFF and c <= 0x10FFFF
        yield RULES, block([source_of(c)]), unless(right, 22, 5 + 6)
        yield RULES, block([first, source_of(0x63, c), last]), unless(right, 22, 5 + len(first) + 9)
    # order, as Python orders lists
    sources = ('a', 'b', 'aa', 'ab', 'ba', 'aaa', 'aab', 'a\xff', 'a\u0100', '\xff', '\u0100', '\uffff', '\U00010000',
               'a' * 16, 'a' * 15 + 'b')
    for one, two in itertools.product(sources, repeat=2):
        rises = [ord(c) for c in one] <= [ord(c) for c in two]
        yield RULES, block([rule_row(one, 'x'), rule_row(two, 'y')]), unless(rises, 24, 5 + len(rule_row(one, 'x')))


# Answered by the layout: a rule row is its length and a list of fields, of which some are made wrong, or cut off.

class Field(NamedTuple):
    """the bytes of a field, and others that are wrong in its place and refused by `number`"""
    right: bytes
    number: Optional[int] = None
    wrong: tuple = ()


SURROGATES_AND_ABOVE = tuple(c.to_bytes(3, 'big') for c in (0xD800, 0xDFFF, 0x110000, 0xFFFFFF))
NO_CODES = (b'Abc', b'a{c', b'ab`', b'ab\0', b'\xffbc')
NOT_PRINTABLE = (b'\x1f', b'\x7f', b'\x80', b'\0')


def counted(n, *wrong):
    return Field(bytes([n]), 21, tuple(bytes([value]) for value in wrong))


def text_fields(s):
    return [] if s is None else [counted(len(s), MOST_TARGET + 1, 255), *(Field(bytes([c]), 23, NOT_PRINTABLE) for c in s.encode())]


def fields_of(rule):
    """what stands behind a row's length, field by field"""
    row = rule_row(*rule)
    fields = [counted(row[2], row[2] | 128, 255), Field(row[3:5]), counted(len(rule.source), 0, 17, 255),
              *(Field(ord(c).to_bytes(3, 'big'), 22, SURROGATES_AND_ABOVE) for c in rule.source),
              counted(len(rule.codes), 9, 255), *(Field(code.encode(), 22, NO_CODES) for code in rule.codes),
              *text_fields(rule.target), *text_fields(rule.end),
              counted(len(rule.others), 9, 255), *itertools.chain.from_iterable(map(text_fields, rule.others))]
    assert b''.join(field.right for field in fields) == row[2:]
    return fields


class Layout:
    """the fields of a row, and how far from the row's start each begins"""
    def __init__(self, rule):
        self.fields = fields_of(rule)
        *self.starts, end = itertools.accumulate((len(field.right) for field in self.fields), initial=2)
        self.size = end - 2         # as its length says
        self.faulty = [i for i, field in enumerate(self.fields) if field.wrong]

    def end(self, i):
        """the bytes behind the row's length up to the end of this field"""
        return self.starts[i] - 2 + len(self.fields[i].right)

    def rest(self, values, n):
        """n bytes, with some fields' values changed, and filled up where there are more"""
        made = b''.join(values.get(i, field.right) for i, field in enumerate(self.fields))
        return made[:n] + b'\xff' * (n - self.size)

    def fault(self, wrong, n):
        """the fault where these fields are wrong and the row has n bytes behind its length: the earliest of the wrong fields if
        the row holds it and all before it, else the first that the row does not hold, or what is left over"""
        first = min(wrong, default=None)
        if first is not None and self.end(first) <= n:
            return self.fields[first].number, self.starts[first]
        if n < self.size:
            return 20, next(start for i, start in enumerate(self.starts) if n < self.end(i))
        return None if n == self.size else (20, 2 + self.size)


LOW, HIGH = rule_row('b'), rule_row('e', 'E')
LAYOUTS = [Layout(rule) for rule in (
    Rule('cd', 'tu', WHOLE, 258, ('abc', 'xyz'), 'e', ('v', '')), Rule('c'), Rule('c', 't', START, others=('v',)),
    Rule('cde', None, 0, 65535, ('abc',), 'en'), Rule('c', '', others=('', 'w~')))]


def in_order(row, wrong):
    return placed(RULES, LOW, row, HIGH, wrong)


def out_of_order(row, wrong):
    """behind a row whose source is above its own, which is told only where nothing else is wrong"""
    yield RULES, block([HIGH, row]), moved_by(5 + len(HIGH), wrong or (24, 0))


def both_ways(row, wrong):
    yield RULES, block([LOW, row]), moved_by(5 + len(LOW), wrong)
    yield from out_of_order(row, wrong)


def sizes(layout):
    """a row that ends at each of its bytes or has some left over, its length in step or alone; one that the block cuts off"""
    for n in range(layout.size + 3):
        row, wrong = sized(layout.rest({}, n)), layout.fault((), n)
        yield from in_order(row, wrong)
        yield from out_of_order(row, wrong)
    whole = layout.rest({}, layout.size)
    for n in range(layout.size):
        yield from both_ways(sized(whole, n), layout.fault((), n))
    for n in (layout.size + 1, layout.size + 256, 0xFFFF):
        yield from both_ways(sized(whole, n), (20, 0))
    # the row behind it is left over, the whole of it or a part
    for n in (1, len(HIGH) - 1, len(HIGH)):
        yield RULES, block([sized(whole, layout.size + n), HIGH]), (20, 5 + 2 + layout.size)


def single_faults(layout):
    """each field wrong in each way: in a whole row, in one that ends with it, with bytes left over, and cut off by the block"""
    for i in layout.faulty:
        for value in layout.fields[i].wrong:
            for n in sorted({layout.end(i), layout.size, layout.size + 1}):
                row = sized(layout.rest({i: value}, n))
                yield from in_order(row, layout.fault([i], n))
                yield from out_of_order(row, layout.fault([i], n))
            yield RULES, block([LOW, sized(layout.rest({i: value}, layout.size), layout.size + 1)]), (20, 5 + len(LOW))


def cut_faults(layout):
    """each field wrong once, in a row that ends at each byte, its length in step or alone"""
    for i in layout.faulty:
        values = {i: layout.fields[i].wrong[0]}
        for n in range(layout.size):
            yield from both_ways(sized(layout.rest(values, n)), layout.fault([i], n))
            yield RULES, block([LOW, sized(layout.rest(values, layout.size), n)]), moved_by(5 + len(LOW), layout.fault([i], n))


def pairs_of_faults(layout):
    """two fields wrong: the earlier in each way, the later wrong, missing or cut, with bytes left over and without"""
    for i, j in itertools.combinations(layout.faulty, 2):
        for value in layout.fields[i].wrong:
            values = {i: value, j: layout.fields[j].wrong[-1]}
            for n in sorted({layout.end(j - 1), layout.end(j) - 1, layout.size, layout.size + 2}):
                yield from both_ways(sized(layout.rest(values, n)), layout.fault([i, j], n))


def largest_row():
    """the first and the last of each kind of field in the longest row, wrong and missing"""
    layout = Layout(Rule('c' * 16, 'x' * MOST_TARGET, 31, 65535, ('abc',) * 8, 'y' * MOST_TARGET, ('z' * MOST_TARGET,) * 8))
    same = [(field.number, len(field.right)) for field in layout.fields]
    for i in layout.faulty:
        if i + 1 < len(same) and same[i - 1] == same[i] == same[i + 1]:
            continue
        values = {i: layout.fields[i].wrong[0]}
        for n in (layout.end(i), layout.end(i) - 1):
            yield RULES, block([sized(layout.rest(values, n))]), moved_by(5, layout.fault([i], n))
    for n in (layout.size, layout.size + 1):
        yield from both_ways(sized(layout.rest({}, n)), layout.fault((), n))


def two_faulty_rows():
    """the first decides, whatever is wrong with the second"""
    rows = ((sized(b''), (20, 2)), (rule_row('c', flags=128), (21, 2)), (rule_row('\ud800'), (22, 6)), (rule_row('c', '\x7f'), (23, 11)),
            (rule_row('a'), (24, 0)))
    for (one, wrong), two in itertools.product(rows, (*(row for row, _ in rows), b'\0')):
        yield RULES, block([LOW, one, two]), moved_by(5 + len(LOW), wrong)


def most_rules():
    """row 8,193 is one too many, whatever it is; a faulty row before it is named"""
    good, bad = rule_row('c'), sized(b'\x80', 9)
    yield RULES, block([good] * MOST_RULES + [bad]), (25, 5 + MOST_RULES * len(good))
    last = rule_row('c', flags=128)
    yield RULES, block([good] * (MOST_RULES - 1) + [last, good]), (21, 5 + (MOST_RULES - 1) * len(good) + 2)


def rule_layouts():
    for layout in LAYOUTS:
        for damage in (sizes, single_faults, cut_faults, pairs_of_faults):
            yield from damage(layout)
    yield from largest_row()
    yield from two_faulty_rows()
    yield from most_rules()


def class_rows():
    def of(c, *rest):
        return c.to_bytes(3, 'big') + bytes(rest)

    first, last = of(0, OTHER, 0, 0), of(0x10FFFF, OTHER, 0, 0)
    # characters at the borders, but for the first and the last, which stand around them
    for c in CHARACTERS:
        if c not in (0, 0x10FFFF):
            yield from placed(CLASSES, first, of(c, MARK, 1, 1), last, unless(c < 0xD800 or 0xE000 <= c < 0x10FFFF, 3, 0))
    # each field by itself
    for n in range(256):
        yield CLASSES, block([first, of(0xE01, n, 0, 0)]), unless(n <= 7, 3, 11)
        yield CLASSES, block([first, of(0xE01, LETTER, n, 0)]), unless(n <= 127, 3, 11)
        yield CLASSES, block([first, of(0xE01, LETTER, 0, n)]), None
    # ASCII: letters have one category, the space has one row
    for c, category in itertools.product(range(1, 128), range(9)):
        right = category == 1 if chr(c) in string.ascii_letters else category == 7 if c == 32 else category <= 7
        yield CLASSES, block([first, of(c, category, 0, 0)]), unless(right, 3, 11)
    for fields in itertools.product((0, 1, 6, 7, 8), (0, 1, 127, 128), (0, 1, 64, 127, 128)):
        yield from placed(CLASSES, first, of(0x20, *fields), last, unless(fields == (7, 0, 0), 3, 0))
    # order: each character once
    order = (0, 1, 0xFF, 0x100, 0x1FF, 0xFFFF, 0x10000, 0x100FF, 0x10FFFF)
    for one, two in itertools.product(order, repeat=2):
        yield CLASSES, block([of(one, 0, 0, 0), of(two, 0, 0, 0)]), unless(one < two, 3, 11)


def vowel_rows():
    first, last = vowel_row(1, A, 'a'), vowel_row(127, AO, 'zz')
    for n in range(256):
        yield VOWELS, block([vowel_row(n, A, 'a')]), unless(1 <= n <= 127, 4, 5)
        yield VOWELS, block([first, vowel_row(9, n, 'a')]), unless(n <= 1, 4, 9)
        for letters in ('%s', 'a%s', '%sz', 'abc%s'):
            right = n < 128 and chr(n) in string.ascii_lowercase
            yield VOWELS, block([first, vowel_row(9, A, letters.replace('%s', chr(n)))]), unless(right, 4, 9)
    for n in (*range(9), 127, 128, 255):
        yield from placed(VOWELS, first, vowel_row(9, AO, 'a' * n), last, unless(1 <= n <= 4, 4, 0))
    for one, two in itertools.product((1, 2, 9, 126, 127), repeat=2):
        yield VOWELS, block([vowel_row(one, A, 'abc'), vowel_row(two, AO, 'o')]), unless(one < two, 4, 11)
    # as many rows as there are scripts, and one more
    every = [vowel_row(n, A, 'a') for n in range(1, 128)]
    yield VOWELS, block(every), None
    yield VOWELS, block([*every, last]), (4, 5 + 127 * len(first))


def decomposition_rows():
    first, last = decomposition_row(0, 'a'), decomposition_row(0x10FFFF, 'z')

    def at(row, right):
        return placed(DECOMPOSITIONS, first, row, last, unless(right, 13, 0))

    for n in range(256):
        yield DECOMPOSITIONS, block([first, decomposition_row('c', 'd', n)]), unless(n <= 5, 13, 13)
        yield DECOMPOSITIONS, block([first, decomposition_row('c', 'd', count=n)]), unless(n == 1, 13, 13)
    for n in (*range(21), 127, 128, 255):
        yield from at(decomposition_row('c', 'd' * n), 1 <= n <= 18)
    # each part at the borders of its range, in a row of one, two and 18 characters
    borders = (*CHARACTERS, 0x0EFF, 0x0F00, 0x0FFF, 0x1000, 0x27FF, 0x2800, 0x28FF, 0x2900, 0xABFF, 0xAC00, 0xD7A3, 0xD7A4)
    for c in borders:
        character = not 0xD800 <= c <= 0xDFFF and c <= 0x10FFFF
        right = character and not (0x0F00 <= c <= 0x0FFF or 0x2800 <= c <= 0x28FF or 0xAC00 <= c <= 0xD7A3)
        for tag in (UNTAGGED, FORM):
            yield DECOMPOSITIONS, block([decomposition_row(c, 'd', tag)]), unless(character, 13, 5)
            for held in ([c], ['d', c], [c, 'd'], [*'d' * 17, c], [*'d' * 9, c, *'d' * 8]):
                yield DECOMPOSITIONS, block([decomposition_row('c', held, tag), decomposition_row('e', 'x')]), unless(right, 13, 5)
    # no row for a space, which any other may hold
    for tag in range(6):
        yield DECOMPOSITIONS, block([decomposition_row('\x1f', ' ', tag), decomposition_row('!', ' x ', tag)]), None
        yield DECOMPOSITIONS, block([decomposition_row('\x1f', 'x', tag), decomposition_row(' ', 'x', tag)]), (13, 13)
    # order: each character once
    order = (0, 1, 0xFF, 0x100, 0x1FF, 0xFFFF, 0x10000, 0x100FF, 0x10FFFF)
    for one, two in itertools.product(order, repeat=2):
        yield DECOMPOSITIONS, block([decomposition_row(one, 'x'), decomposition_row(two, 'y')]), unless(one < two, 13, 13)
    # as many rows as are allowed, and one more
    every = [decomposition_row(0x3400 + k, 'x') for k in range(MOST_RULES + 1)]
    yield DECOMPOSITIONS, block(every[:-1]), None
    yield DECOMPOSITIONS, block(every), (13, 5 + 8 * MOST_RULES)


def nested_decompositions():
    """a row that holds a character with a row, of any tag, before it or behind it or its own; but rows behind one that is wrong by
    itself are not there"""
    def of(*rows):
        return DECOMPOSITIONS, block(rows)

    tags = (UNTAGGED, SUPER, COMPAT, FORM)
    for one, two in itertools.product(tags, repeat=2):
        yield *of(decomposition_row('c', 'd', one), decomposition_row('d', 'x', two)), (13, 5)
        yield *of(decomposition_row('c', 'x', one), decomposition_row('d', 'c', two)), (13, 13)
        yield *of(decomposition_row('c', 'd', one), decomposition_row('d', 'c', two)), (13, 5)
    for tag in tags:
        yield *of(decomposition_row('c', 'c', tag)), (13, 5)
        yield *of(decomposition_row('c', 'dd', tag)), None
    # the row that is held stands at each place of a table that its index steps through, and so does the row that holds it
    many = [chr(0x100 + 2 * k) for k in range(50)]
    for k in range(50):
        for c, right in ((many[k], False), (chr(ord(many[k]) + 1), True)):
            yield *of(decomposition_row('!', 'x' + c), *(decomposition_row(d, 'y') for d in many)), unless(right, 13, 5)
            yield *of(*(decomposition_row(d, 'y') for d in many), decomposition_row('\u0400', 'x' * 17 + c)), unless(right, 13, 5 + 50 * 8)
    for n in range(18):
        yield *of(decomposition_row('c', 'x' * n + 'd' + 'x' * (17 - n)), decomposition_row('d', 'y')), (13, 5)
    # one that is wrong by itself between them, and behind them
    wrong = (decomposition_row('d', 'x', 6), decomposition_row('d', ''), decomposition_row('d', 'x' * 19), decomposition_row('d', [0xD800]),
             decomposition_row('d', [0x0F00]), decomposition_row('b', 'x'), decomposition_row('d', 'x', count=200), decomposition_row(' ', 'x'))
    for row in wrong:
        yield *of(decomposition_row('c', 'd'), row), (13, 13)
        yield *of(decomposition_row('c', 'e'), row, decomposition_row('e', 'x')), (13, 13)
        yield *of(decomposition_row('B', 'c'), decomposition_row('c', 'x'), row), (13, 5)


def headers():
    """a version, a length or an end that is wrong: place 0, whatever the rows are"""
    # the number, a good row, a bad one and how far within it the fault is
    given = ((20, rule_row('b', 'B'), bytes(2), 2), (3, class_row('b', LETTER), bytes(3), 0), (4, vowel_row(5, A, 'a'), bytes(1), 0),
             (13, decomposition_row('c', 'd'), bytes(4), 0))
    for kind, (number, good, bad, within) in enumerate(given):
        for rows in (b'', good, bad):
            table = block([rows])
            yield kind, table, unless(rows != bad, number, 5 + within)
            for n in range(5):
                yield kind, table[:n], (number, 0)
            for version in (0, 2, 3, 0x80, 0x81, 0xFF):
                yield kind, bytes([version]) + table[1:], (number, 0)
            n = len(rows)
            for length in (n + 1, n + 256, n + 65536, n + 2 ** 24, n + 2 ** 31, 2 ** 32 - 1, 2 ** 32 - 5, *range(n)):
                yield kind, table[:1] + length.to_bytes(4, 'big') + rows, (number, 0)
            for more in (b'\0', b'\1', good):
                yield kind, table + more, (number, 0)


# Answered by the reader: good tables damaged at every byte.

GOOD = (
    (RULES, block([rule_row('b', 'B'), rule_row('cc', 't', WHOLE, 258, ['abc', 'xyz'], 'e', ['v', 'wz']),
                   rule_row('cd', None, START, 1, end='~')])),
    (RULES, block([rule_row('c', ' ', others=['', 'x']), rule_row('c', ''), rule_row('c\u0301', 'az', codes=['aaz'])])),
    (RULES, block([rule_row('\u0e40\u2013\u0e32', 'ao'), rule_row('\ud7ff', '', 31, 65535, end=''), rule_row('\ue000', 'q'),
                   rule_row('\U0010ffff')])),
    (CLASSES, block([class_row(' ', ZS), class_row('@', OTHER), class_row('A', LETTER), class_row('z', LETTER, 6),
                     class_row('{', MARK, 127, 127), class_row('\U0001f600', ZS)])),
    (CLASSES, block([class_row('\x1f', OTHER), class_row('!', CF), class_row('\u0e40', LETTER, THAI, PRE),
                     class_row('\ud7ff', CO), class_row('\ue000', MARK, DEVANAGARI, VIRAMA)])),
    (VOWELS, block([vowel_row(1, A, 'a'), vowel_row(5, AO, 'abcd'), vowel_row(6, A, 'yz'), vowel_row(127, AO, 'o')])),
    (VOWELS, block([vowel_row(2, AO, 'aaaa'), vowel_row(3, A, 'zzz'), vowel_row(126, A, 'm')])),
    (DECOMPOSITIONS, block([decomposition_row('\x1f', 'a'), decomposition_row('!', ' b', SUPER), decomposition_row('\xbd', '1\u20442'),
                            decomposition_row('\u0f00', '\u0eff\u1000', UNTAGGED), decomposition_row('\u2460', '1')])),
    (DECOMPOSITIONS, block([decomposition_row('\ud7ff', '\ue000', COMPAT), decomposition_row('\uff21', 'A'), decomposition_row('\uff22', 'BC'),
                            decomposition_row('\U0001f130', '\u1160\uabff')])),
)
VALUES = (0, 1, 0x1F, 0x20, 0x40, 0x60, 0x61, 0x7A, 0x7B, 0x7E, 0x7F, 0x80, 0xFF)


def changed(good):
    for at, old in enumerate(good):
        for value in sorted({*VALUES, old ^ 1, (old + 1) % 256, (old - 1) % 256} - {old}):
            yield good[:at] + bytes([value]) + good[at + 1:]


def moved(good):
    """a byte lost, a byte twice, two bytes exchanged, and the rows cut off, each with a length that is in step"""
    rows = good[5:]
    for at in range(len(rows)):
        yield block([rows[:at], rows[at + 1:]])
        yield block([rows[:at + 1], rows[at:]])
        yield block([rows[:at], rows[at:at + 2][::-1], rows[at + 2:]])
        yield block([rows[:at]])


def damaged():
    for kind, good in GOOD:
        yield kind, good, None
        for table in itertools.chain(changed(good), moved(good)):
            yield kind, table, read(kind, table)


def encoded(kind, table, answer):
    number, place = answer or (0, 0)
    return bytes([kind]) + len(table).to_bytes(3, 'big') + table + bytes([number]) + place.to_bytes(3, 'big')


def told(answers):
    """how many there are of each number"""
    numbers = collections.Counter((answer or (0,))[0] for answer in answers)
    return ', '.join(f'{count} of {number}' for number, count in sorted(numbers.items()))


def main():
    made = itertools.chain(frozen(), headers(), rule_rows(), rule_layouts(), class_rows(), vowel_rows(), decomposition_rows(),
                           nested_decompositions(), damaged())
    found = list(agreed(made))
    size = program.deliver('tables_vectors', list(itertools.starmap(encoded, found)))
    assert size < ROOM, size
    for kind, name in enumerate(NAMES):
        answers = [answer for k, _, answer in found if k == kind]
        print(f'{name}: {len(answers)} vectors: {told(answers)}', file=sys.stderr)
    print(f'{len(found)} vectors, {size} bytes', file=sys.stderr)


main()
