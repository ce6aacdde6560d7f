"""Rule tables with a fault of each kind, as the programs tell of it: by the table's bytes and not by a reader of them."""
import collections
import pathlib
import sys

ROOT = pathlib.Path(__file__).resolve().parents[2]
sys.path.insert(0, str(ROOT / "tests" / "generate"))
import sample

# what the programs call each number that refuses a rule table
KINDS = {
    20: "a length that does not fit",
    21: "a flag or count out of its range",
    22: "a source character or language code that is none",
    23: "a byte of a target text that is not printable",
    24: "a source below the one before it",
    25: "a row too many",
}

# the number and its place; rows that are right, where the row behind them begins; the lines of the rows that can be read
Fault = collections.namedtuple("Fault", "table number place rows at listed")

# three rows behind the header, of 14 bytes the first two
TABLE = sample.rules(("Ж", "ZH"), ("ж", "zh"), ("з", "z"))
FIRST, SECOND, THIRD, ROW = 5, 19, 33, 14
# in a row: its length's lower byte, the flags, the source's count, its character and that one's lowest byte, the count of codes,
# the target's length and text, the count of alternatives
LENGTH, FLAGS, COUNT, CHARACTER, LOWEST, CODES, TARGET, TEXT, OTHERS = 1, 2, 5, 6, 8, 9, 10, 11, 13
FIRST_LINE = '%d U+0416 "ZH" 20\n' % FIRST
SECOND_LINE = '%d U+0436 "zh" 20\n' % SECOND
THIRD_LINE = '%d U+0437 "z" 20\n' % THIRD
MOST_ROWS = 8192


def changed(at, byte):
    """the table with another byte at an offset of its second row"""
    return TABLE[:SECOND + at] + bytes([byte]) + TABLE[SECOND + at + 1:]


def faulty(number, at, byte, place):
    """the second row can't be read"""
    return Fault(changed(at, byte), number, SECOND + place, 1, SECOND, FIRST_LINE)


def too_many():
    """equal rows, one more than a table may have"""
    last = FIRST + MOST_ROWS * ROW
    lines = "".join('%d U+0416 "ZH" 20\n' % at for at in range(FIRST, last + 1, ROW))
    return Fault(sample.block([sample.rule_row("Ж", "ZH")] * (MOST_ROWS + 1)), 25, last, MOST_ROWS, last, lines)


FAULTS = [
    # the row runs past the table's end; it has no flags, or no count of alternatives; a byte is left over
    faulty(20, LENGTH, 200, 0),
    faulty(20, LENGTH, 0, FLAGS),
    faulty(20, LENGTH, ROW - 2 - 1, OTHERS),
    faulty(20, LENGTH, ROW - 2 + 1, ROW),
    faulty(21, FLAGS, 0xA0, FLAGS),
    faulty(21, COUNT, 0, COUNT),
    faulty(21, TARGET, sample.MOST_TARGET + 1, TARGET),
    faulty(23, TARGET, sample.MOST_TARGET, OTHERS),
    faulty(21, OTHERS, 9, OTHERS),
    faulty(22, CHARACTER, 0x11, CHARACTER),
    faulty(22, CODES, 1, CODES + 1),
    faulty(23, TEXT, 0x7F, TEXT),
    faulty(23, TEXT + 1, 0x1F, TEXT + 1),
    Fault(changed(LOWEST, 0x15), 24, SECOND, 1, SECOND, FIRST_LINE + SECOND_LINE.replace("36", "15") + THIRD_LINE),
    too_many(),
]

# tables whose header is faulty, with the rows that are listed all the same
HEADERS = [
    (b"", ""),
    (b"\2\0\0\0\0", ""),
    (TABLE[:-1], FIRST_LINE + SECOND_LINE),
]
