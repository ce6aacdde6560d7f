"""Writes and reads Jettyfig's tables and listings; docs/FORMAT.md says what each byte is.

Writers take rows in any order and answer the bytes of a table:

    rules(("क", "k"), Rule("ж", "zh", flags=START, count=1, others=["j"]))
    classes({"क": (LETTER, DEVANAGARI), " ": (ZS,)})
    vowels((DEVANAGARI, A, "a"))
    decompositions({"①": "1", "½": "1\u20442", "²": ("2", SUPER)})
    listing(Edge(0, 1, CORE, 1, "ka"))

A row that breaks a rule of the format raises ValueError, which names the row and the rule. Readers are the way back, so that
rules(*read_rules(table)) == table:

    read_rules(table)      a list of Rule
    read_classes(table)    a dict from characters to Kind
    read_vowels(table)     a list of Vowel
    read_decompositions(table)  a dict from characters to Held
    read_listing(output)   a list of Edge

A table that a call would refuse raises Faulty there, whose `number` and `place` are those of the refusal: of a rule table what is
wrong (FAULTS) and the offset of the faulty field or row; of a class table 3, of a vowel table 4 and of a decomposition table 13 with
the offset of the first faulty row. Its `row` is counted from 1; place and row are 0 for the header.

rule_row, class_row, vowel_row, decomposition_row, edge_row and block only lay bytes out and check nothing: faulty tables are made
with them."""
from typing import NamedTuple, Optional

VERSION = 1
HEADER = 5          # bytes before the first row
MOST_RULES = MOST_CLASSES = MOST_DECOMPOSITIONS = 8192
MOST_VOWELS = 127
MOST_CHARACTERS = 4096
MOST_SOURCE, MOST_CODES, MOST_OTHERS, MOST_TARGET = 16, 8, 8, 200
MOST_LETTERS = 4
MOST_HELD = 18      # characters of a decomposition
# bytes of an alternative: a text of the table and a vowel; and of an edge: such a text doubled, a pre-vowel's text behind it, then an e in
# front, a small letter's text in place of the last letter, and a long mark's letter
MOST_ALTERNATIVE = MOST_TARGET + MOST_LETTERS
MOST_EDGE_TEXT = MOST_ALTERNATIVE + 1 + MOST_TARGET + 1 + (MOST_TARGET - 1) + 1

# bits of a rule's flags; has target and has end-of-syllable target follow from the texts
START, NOT_START, END, NOT_END, WHOLE = 1, 2, 4, 8, 16
HAS_TARGET, HAS_END = 32, 64
# categories
OTHER, LETTER, NONSPACING, MARK, NUMBER, CF, CO, ZS = range(8)
# scripts that have steps of their own; others are numbered from 6 on, as the maker of the tables likes
THAI, COPTIC, HIRAGANA, KATAKANA, DEVANAGARI = range(1, 6)
# bits of a class row's flags
SIGN, MEDIAL, SUBJOINED, VIRAMA, VOCALIC, TONE, PRE, LOWER = (1 << bit for bit in range(8))
# types of inherent vowels
A, AO = 0, 1
# tags of decompositions; only the last gives an edge
UNTAGGED, SUPER, SUB, NO_BREAK, COMPAT, FORM = range(6)
# characters that no text may have, from and to: Tibetan, Braille and Hangul
LEFT_OUT = (0x0F00, 0x0FFF), (0x2800, 0x28FF), (0xAC00, 0xD7A3)
# the numbers that a faulty table is refused by
BAD_LENGTH, BAD_COUNT, BAD_SOURCE, BAD_TARGET, BAD_ORDER, TOO_MANY = range(20, 26)
BAD_CLASSES, BAD_VOWELS, BAD_DECOMPOSITIONS = 3, 4, 13
FAULTS = {BAD_LENGTH: "header or length", BAD_COUNT: "flag or count out of its range", BAD_SOURCE: "source or language code",
         BAD_TARGET: "target byte", BAD_ORDER: "row order", TOO_MANY: "too many rows"}
# annotations of a listing's edges
(ROM, CORE, TAIL, EXPANDED, DELETED, SINGLE, FALLBACK_MN, FALLBACK_CF, FALLBACK_CO, FALLBACK_ZS, ORIG, ALT, ALT2,
 ALT3, DECOMP) = range(1, 16)


class Rule(NamedTuple):
    """a row of the rule table; a target of None is none, "" is a present, empty one"""
    source: str
    target: Optional[str] = None
    flags: int = 0
    count: int = 0
    codes: tuple = ()
    end: Optional[str] = None
    others: tuple = ()


class Kind(NamedTuple):
    """what the class table says of a character"""
    category: int
    script: int = 0
    flags: int = 0


class Vowel(NamedTuple):
    """a row of the vowel table"""
    script: int
    type: int
    letters: str


class Held(NamedTuple):
    """what a row of the decomposition table holds of its character"""
    characters: str
    tag: int = FORM


class Edge(NamedTuple):
    """a row of a listing"""
    start: int
    end: int
    annotation: int
    core: int
    text: str


class Faulty(ValueError):
    """a table that is refused: by which number, where, and in which row, counted from 1; number is None for a listing"""
    def __init__(self, table, number, place, row, why):
        kind = ["%s (%d)" % (FAULTS[number], number)] if number in FAULTS else []
        where = "row %d" % row if row else "header"
        super().__init__(": ".join([table, *kind, "offset %d, %s" % (place, where), why]))
        self.number, self.place, self.row, self.why = number, place, row, why


# What is wrong with a field or a row, in words, or None. Writers and readers ask the same.

# how many a rule row may have, from the least to the most
OF_SOURCE, OF_CODES, OF_OTHERS = (("source characters", 1, MOST_SOURCE), ("language codes", 0, MOST_CODES),
                                  ("alternatives", 0, MOST_OTHERS))
# and a decomposition
OF_HELD = "characters", 1, MOST_HELD


def first_wrong(found):
    """the first words that there are"""
    return next(filter(None, found), None)


def scalar(number):
    """whether this is the number of a character: a Unicode scalar value"""
    return 0 <= number < 0xD800 or 0xDFFF < number < 0x110000


def left_out(number):
    """whether number 8 refuses this character"""
    return any(first <= number <= last for first, last in LEFT_OUT)


def small(letters):
    """whether all are letters a to z"""
    return all("a" <= c <= "z" for c in letters)


def wrong_amount(of, n):
    what, least, most = of
    if not least <= n <= most:
        return "%d %s, %d to %d are allowed" % (n, what, least, most)


def wrong_character(number):
    if not scalar(number):
        return "%#x is no Unicode scalar value" % number


def wrong_code(code):
    if len(code) != 3 or not small(code):
        return "language code %r is not three letters a to z" % (code,)


def wrong_length(name, n):
    if n > MOST_TARGET:
        return "the %s has %d bytes, at most %d" % (name, n, MOST_TARGET)


def wrong_byte(name, c):
    if not " " <= c <= "~":
        return "the %s has %r, which is outside 0x20 to 0x7E" % (name, c)


def wrong_text(name, s):
    return wrong_length(name, len(s)) or first_wrong(wrong_byte(name, c) for c in s)


def wrong_rule(rule):
    if not 0 <= rule.flags < HAS_TARGET:
        return "flags %#x: only bits 0 to 4 may be given" % rule.flags
    if not 0 <= rule.count <= 0xFFFF:
        return "restriction count %d is not in 0 to 65535" % rule.count
    texts = [("target", rule.target), ("end-of-syllable target", rule.end)] + [("alternative", s) for s in rule.others]
    return first_wrong((
        wrong_amount(OF_SOURCE, len(rule.source)), *(wrong_character(ord(c)) for c in rule.source),
        wrong_amount(OF_CODES, len(rule.codes)), *map(wrong_code, rule.codes),
        wrong_amount(OF_OTHERS, len(rule.others)), *(wrong_text(name, s) for name, s in texts if s is not None)))


def wrong_kind(char, kind):
    if len(char) != 1 or not scalar(ord(char)):
        return "%r is not one character, a Unicode scalar value" % (char,)
    if not 0 <= kind.category <= ZS:
        return "category %d is not in 0 to 7" % kind.category
    if not 0 <= kind.script <= 127:
        return "script %d is not in 0 to 127" % kind.script
    if not 0 <= kind.flags <= 255:
        return "flags %#x: only bits 0 to 7 may be set" % kind.flags
    if char == " " and kind != (ZS, 0, 0):
        return "U+0020 must be of category 7, script 0, with no flags"
    if char.isascii() and char.isalpha() and kind.category != LETTER:
        return "A-Z and a-z must be of category 1"


def wrong_vowel(row):
    if not 1 <= row.script <= 127:
        return "script %d is not in 1 to 127" % row.script
    if row.type not in (A, AO):
        return "type %d is neither 0 nor 1" % row.type
    if not 1 <= len(row.letters) <= MOST_LETTERS:
        return "%d letters, 1 to %d are allowed" % (len(row.letters), MOST_LETTERS)
    if not small(row.letters):
        return "%r is not letters a to z" % (row.letters,)


def wrong_held(char, held):
    if len(char) != 1 or not scalar(ord(char)):
        return "%r is not one character, a Unicode scalar value" % (char,)
    if char == " ":
        return "U+0020 must have no row"
    if not UNTAGGED <= held.tag <= FORM:
        return "tag %d is not in 0 to 5" % held.tag
    return wrong_amount(OF_HELD, len(held.characters)) or first_wrong(map(wrong_inside, map(ord, held.characters)))


def wrong_inside(number):
    return wrong_character(number) or left_out(number) and "it holds U+%04X, which no text may have" % number


def wrong_nesting(held, has_row):
    """what is wrong where a row holds characters that have rows themselves"""
    return first_wrong(c in has_row and "it holds U+%04X, which has a row" % ord(c) for c in held.characters)


def wrong_edge(edge):
    length = len(edge.text.encode("utf-8", "surrogatepass"))
    if not 0 <= edge.start < edge.end <= MOST_CHARACTERS:
        return "an edge from %d to %d, within 0 to %d it must go forward" % (edge.start, edge.end, MOST_CHARACTERS)
    if not ROM <= edge.annotation <= DECOMP:
        return "annotation %d is not in 1 to 15" % edge.annotation
    if length > MOST_EDGE_TEXT:
        return "a text of %d bytes, at most %d" % (length, MOST_EDGE_TEXT)
    if not 0 <= edge.core <= (length if edge.annotation == CORE else 0):
        return "core length %d of a text of %d bytes under annotation %d" % (edge.core, length, edge.annotation)
    if not all(scalar(ord(c)) for c in edge.text):
        return "a text with a surrogate"


# The bytes of single rows and of a block, unchecked.

def short_text(s):
    """a length byte and the bytes"""
    return bytes([len(s)]) + s.encode("latin-1")


def rule_row(source, target=None, flags=0, count=0, codes=(), end=None, others=()):
    flags |= HAS_TARGET * (target is not None) | HAS_END * (end is not None)
    row = bytes([flags]) + count.to_bytes(2, "big")
    row += bytes([len(source)]) + b"".join(ord(c).to_bytes(3, "big") for c in source)
    row += bytes([len(codes)]) + b"".join(c.encode() for c in codes)
    row += b"".join(short_text(t) for t in (target, end) if t is not None)
    row += bytes([len(others)]) + b"".join(map(short_text, others))
    return len(row).to_bytes(2, "big") + row


def class_row(char, category, script=0, flags=0):
    return ord(char).to_bytes(3, "big") + bytes([category, script, flags])


def vowel_row(script, kind, letters):
    return bytes([script, kind, len(letters)]) + letters.encode("latin-1")


def three(char):
    """three bytes of a character, or of a number that need not be one"""
    return (char if isinstance(char, int) else ord(char)).to_bytes(3, "big")


def decomposition_row(char, characters, tag=FORM, count=None):
    """with another count than it has characters where one is given"""
    return three(char) + bytes([tag, len(characters) if count is None else count]) + b"".join(map(three, characters))


def edge_row(start, end, annotation, core, text):
    row = start.to_bytes(2, "big") + end.to_bytes(2, "big") + bytes([annotation, core]) + text.encode()
    return len(row).to_bytes(2, "big") + row


def block(rows):
    """a header and the rows"""
    body = b"".join(rows)
    return bytes([VERSION]) + len(body).to_bytes(4, "big") + body


# Writers.

def refuse(why, row):
    """raises the error of a row that may not be written"""
    if why:
        raise ValueError("%r: %s" % (row, why))


def few(rows, most):
    if len(rows) > most:
        raise ValueError("%r: %d rows, at most %d" % (rows[most], len(rows), most))


def rules(*given):
    """a rule table; each rule is a Rule, or a tuple of its first fields. Rows are put in order; equal sources keep theirs"""
    made = sorted((Rule(*r) for r in given), key=lambda rule: rule.source)
    for rule in made:
        refuse(wrong_rule(rule), rule)
    few(made, MOST_RULES)
    return block(rule_row(*rule) for rule in made)


def classes(given):
    """a class table; from characters to (category, script, flags), the last two 0 where left out"""
    made = [(char, Kind(*given[char])) for char in sorted(given)]
    for char, kind in made:
        refuse(wrong_kind(char, kind), (char, *kind))
    few(made, MOST_CLASSES)
    return block(class_row(char, *kind) for char, kind in made)


def vowels(*given):
    """a vowel table; each row is (script, type, letters)"""
    made = sorted(Vowel(*row) for row in given)
    for before, row in zip([None, *made], made):
        refuse(wrong_vowel(row), row)
        refuse(before and before.script == row.script and "script %d has a row already" % row.script, row)
    return block(vowel_row(*row) for row in made)


def decompositions(given):
    """a decomposition table; from characters to their characters, or to these and a tag, which is FORM where left out"""
    made = [(char, Held(given[char]) if isinstance(given[char], str) else Held(*given[char])) for char in sorted(given)]
    for char, held in made:
        refuse(wrong_held(char, held) or wrong_nesting(held, given), (char, *held))
    few(made, MOST_DECOMPOSITIONS)
    return block(decomposition_row(char, *held) for char, held in made)


def listing(*given):
    """a listing, in the order given; each edge is (start, end, annotation, core length, text)"""
    made = [Edge(*edge) for edge in given]
    for edge in made:
        refuse(wrong_edge(edge), edge)
    return block(edge_row(*edge) for edge in made)


# Readers.

def number_of(part):
    return int.from_bytes(part, "big")


class Bytes:
    """reads big-endian numbers and stretches from the front"""
    def __init__(self, data):
        self.data, self.at = data, 0

    def take(self, n):
        part = self.data[self.at:self.at + n]
        if len(part) != n:
            raise ValueError("cut short at byte %d" % self.at)
        self.at += n
        return part

    def number(self, n):
        return number_of(self.take(n))

    def done(self):
        return self.at == len(self.data)


def right(why):
    """raises where something is wrong"""
    if why:
        raise ValueError(why)


class Wrong(ValueError):
    """what is wrong with a rule table, at an offset of its block"""
    def __init__(self, number, place, why):
        super().__init__(why)
        self.number, self.place = number, place


def letters_of(part):
    """a character for each byte"""
    return part.decode("latin-1")


class Fields:
    """a rule row's fields, one after another; the first that its row does not hold whole, or that is wrong, is raised"""
    def __init__(self, block, start, end):
        self.block, self.at, self.end = block, start, end

    def field(self, what, size, read, number=None, wrong=None):
        """the next field, refused by `number` where `wrong` has words for it"""
        place, self.at = self.at, self.at + size
        if self.at > self.end:
            raise Wrong(BAD_LENGTH, place, "the row ends within or before the %s" % what)
        value = read(self.block[place:self.at])
        why = wrong and wrong(value)
        if why:
            raise Wrong(number, place, why)
        return value

    def flags(self):
        return self.field("flags", 1, number_of, BAD_COUNT, lambda n: n > 127 and "flags %#x: bit 7 must be zero" % n)

    def restriction_count(self):
        return self.field("restriction count", 2, number_of)

    def amount(self, of):
        return self.field("number of " + of[0], 1, number_of, BAD_COUNT, lambda n: wrong_amount(of, n))

    def character(self):
        return chr(self.field("source", 3, number_of, BAD_SOURCE, wrong_character))

    def code(self):
        return self.field("language codes", 3, letters_of, BAD_SOURCE, wrong_code)

    def text(self, name):
        """its length, and each byte by itself"""
        length = self.field("length of the " + name, 1, number_of, BAD_COUNT, lambda n: wrong_length(name, n))
        return "".join(self.field(name, 1, letters_of, BAD_TARGET, lambda c: wrong_byte(name, c)) for _ in range(length))

    def finish(self):
        if self.at < self.end:
            raise Wrong(BAD_LENGTH, self.at, "%d bytes left over in the row" % (self.end - self.at))


def read_rule(table, before):
    start = table.at
    rest = table.take(table.number(2))
    row = Fields(table.data, table.at - len(rest), table.at)
    flags, count = row.flags(), row.restriction_count()
    source = "".join(row.character() for _ in range(row.amount(OF_SOURCE)))
    codes = tuple(row.code() for _ in range(row.amount(OF_CODES)))
    target = row.text("target") if flags & HAS_TARGET else None
    end = row.text("end-of-syllable target") if flags & HAS_END else None
    others = tuple(row.text("alternative") for _ in range(row.amount(OF_OTHERS)))
    row.finish()
    # strings of scalar values compare character by character, a prefix first
    if before and source < before.source:
        raise Wrong(BAD_ORDER, start, "its source %r is below the one before, %r" % (source, before.source))
    return Rule(source, target, flags & ~(HAS_TARGET | HAS_END), count, codes, end, others)


def read_class(table, before):
    row = Bytes(table.take(6))
    number, kind = row.number(3), Kind(row.number(1), row.number(1), row.number(1))
    right(wrong_character(number))
    char = chr(number)
    right(wrong_kind(char, kind))
    right(before and char <= before[0] and "U+%04X is not above the one before" % ord(char))
    return char, kind


def read_vowel(table, before):
    row = Vowel(table.number(1), table.number(1), table.take(table.number(1)).decode("latin-1"))
    right(wrong_vowel(row))
    right(before and row.script <= before.script and "script %d is not above the one before" % row.script)
    return row


def read_decomposition(table, before):
    number, tag = table.number(3), table.number(1)
    inside = [table.number(3) for _ in range(table.number(1))]
    right(wrong_character(number) or first_wrong(map(wrong_character, inside)))
    char, held = chr(number), Held("".join(map(chr, inside)), tag)
    right(wrong_held(char, held))
    right(before and char <= before[0] and "U+%04X is not above the one before" % number)
    return char, held


def read_edge(table, _):
    row = Bytes(table.take(table.number(2)))
    edge = Edge(row.number(2), row.number(2), row.number(1), row.number(1), row.data[6:].decode("utf-8"))
    right(wrong_edge(edge))
    return edge


def read_block(name, table, read_row, most, number, too_many=None):
    """the rows of a block, each read with the one before it at hand; what is wrong is refused by `number` at its row's start, but one
    row more than allowed by `too_many`, and what says its own number and place"""
    data, place, rows, row = Bytes(table), 0, [], 0
    try:
        right(data.number(1) != VERSION and "version %d is not 1" % table[0])
        length = data.number(4)
        right(length != len(table) - HEADER and "it says %d bytes of rows, there are %d" % (length, len(table) - HEADER))
        while not data.done():
            place, row = data.at, len(rows) + 1
            if len(rows) == most:
                raise Wrong(too_many or number, place, "at most %d rows" % most)
            rows.append(read_row(data, rows[-1] if rows else None))
    except Wrong as error:
        raise Faulty(name, error.number, error.place, row, str(error)) from None
    except ValueError as error:
        raise Faulty(name, number, place, row, str(error)) from None
    return rows


def read_rules(table):
    return read_block("rule table", table, read_rule, MOST_RULES, BAD_LENGTH, TOO_MANY)


def read_classes(table):
    return dict(read_block("class table", table, read_class, MOST_CLASSES, BAD_CLASSES))


def read_vowels(table):
    return read_block("vowel table", table, read_vowel, MOST_VOWELS, BAD_VOWELS)


def read_decompositions(table):
    """a row that holds a character with a row is faulty only by the rows before the first that is wrong by itself"""
    name, found, own = "decomposition table", [], None

    def read_row(data, before):
        place = data.at
        found.append((place, *read_decomposition(data, before)))
        return found[-1][1:]

    try:
        read_block(name, table, read_row, MOST_DECOMPOSITIONS, BAD_DECOMPOSITIONS)
    except Faulty as error:
        own = error
    has_row = {char for _, char, _ in found}
    for row, (place, _, held) in enumerate(found, 1):
        why = wrong_nesting(held, has_row)
        if why:
            raise Faulty(name, BAD_DECOMPOSITIONS, place, row, why)
    if own:
        raise own
    return {char: held for _, char, held in found}


def read_listing(output):
    return read_block("listing", output, read_edge, None, None)


def fault(read, table):
    """the number and the place that a reader finds a table faulty by, or None"""
    try:
        read(table)
    except Faulty as error:
        return error.number, error.place
    return None
