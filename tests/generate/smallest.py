"""The smallest rule table of each fault, made by hand: what is wrong, the table, and the number and place that it is refused by.

A row's offset is 5, so its flags stand at 7, its restriction count at 8, its number of characters at 10, and its first one at 11.
With one character its number of codes stands at 14; with no code its target, or else its number of alternatives, at 15."""
import pathlib
import sys

sys.path.insert(0, str(pathlib.Path(__file__).resolve().parents[2] / "tools"))
from tables import MOST_RULES, MOST_TARGET, block

HEADERS = [
    ("no byte", ""), ("four bytes", "01 00 00 00"), ("version 0", "00 00 00 00 00"), ("version 2", "02 00 00 00 00"),
    ("a length of one byte that is not there", "01 00 00 00 01"), ("a byte that the length does not count", "01 00 00 00 00 00"),
]

ROW_C, ROW_B = "00 09 00 00 00 01 00 00 63 00 00", "00 09 00 00 00 01 00 00 62 00 00"

ROWS = [
    # a row past the block's end is a length fault at its start, before any of its fields
    ("a single byte", "00", 20, 5),
    ("no flags in the block", "00 01", 20, 5),
    ("bit 7 in a row past the block's end", "00 02 80", 20, 5),
    ("the block ends one byte before the row", "00 09 00 00 00 01 00 00 63 00", 20, 5),
    ("a second row of a single byte", ROW_C + "00", 20, 16),
    # flags
    ("no flags", "00 00", 20, 7),
    ("bit 7", "00 01 80", 21, 7),
    ("all bits", "00 01 ff", 21, 7),
    ("bit 7, and nothing else wrong", "00 09 80 00 00 01 00 00 63 00 00", 21, 7),
    # the restriction count is one field
    ("no restriction count", "00 01 00", 20, 8),
    ("half a restriction count", "00 02 00 ff", 20, 8),
    # the number of characters
    ("no number of characters", "00 03 00 ff ff", 20, 10),
    ("no character", "00 04 00 00 00 00", 21, 10),
    ("17 characters", "00 04 00 00 00 11", 21, 10),
    ("255 characters", "00 04 00 00 00 ff", 21, 10),
    # the characters
    ("the character is missing", "00 04 00 00 00 01", 20, 11),
    ("a third of a character, which can be none", "00 05 00 00 00 01 ff", 20, 11),
    ("two thirds of a character, which can be none", "00 06 00 00 00 01 ff ff", 20, 11),
    ("the first surrogate", "00 07 00 00 00 01 00 d8 00", 22, 11),
    ("the last surrogate", "00 07 00 00 00 01 00 df ff", 22, 11),
    ("above the last character", "00 07 00 00 00 01 11 00 00", 22, 11),
    ("the second character is missing", "00 07 00 00 00 02 00 00 63", 20, 14),
    ("two thirds of the second character", "00 09 00 00 00 02 00 00 63 00 d8", 20, 14),
    ("the second character is a surrogate", "00 0a 00 00 00 02 00 00 63 00 d8 00", 22, 14),
    ("the first of 16 characters, of which no other is there", "00 07 00 00 00 10 00 d8 00", 22, 11),
    # the number of codes
    ("no number of codes", "00 07 00 00 00 01 00 00 63", 20, 14),
    ("9 codes", "00 08 00 00 00 01 00 00 63 09", 21, 14),
    ("255 codes", "00 08 00 00 00 01 00 00 63 ff", 21, 14),
    # the codes: their place is the first letter's
    ("the code is missing", "00 08 00 00 00 01 00 00 63 01", 20, 15),
    ("a letter of a code, which is none", "00 09 00 00 00 01 00 00 63 01 41", 20, 15),
    ("two letters of a code, which are none", "00 0a 00 00 00 01 00 00 63 01 41 41", 20, 15),
    ("the first letter", "00 0b 00 00 00 01 00 00 63 01 60 62 63", 22, 15),
    ("the second letter", "00 0b 00 00 00 01 00 00 63 01 61 7b 63", 22, 15),
    ("the third letter", "00 0b 00 00 00 01 00 00 63 01 61 62 43", 22, 15),
    ("the second code is missing", "00 0b 00 00 00 01 00 00 63 02 61 62 63", 20, 18),
    ("two letters of the second code", "00 0d 00 00 00 01 00 00 63 02 61 62 63 61 41", 20, 18),
    ("the second code's third letter", "00 0e 00 00 00 01 00 00 63 02 61 62 63 61 62 00", 22, 18),
    # the target: a length byte, and every byte a field of its own
    ("no length of the target", "00 08 20 00 00 01 00 00 63 00", 20, 15),
    ("a target of 65 bytes, of which none is there", "00 09 20 00 00 01 00 00 63 00 41", 20, 16),
    ("a target of 255 bytes", "00 09 20 00 00 01 00 00 63 00 ff", 21, 15),
    ("the target's byte is missing", "00 09 20 00 00 01 00 00 63 00 01", 20, 16),
    ("below the space", "00 0a 20 00 00 01 00 00 63 00 01 1f", 23, 16),
    ("above the tilde", "00 0a 20 00 00 01 00 00 63 00 01 7f", 23, 16),
    ("the target's second byte is missing", "00 0a 20 00 00 01 00 00 63 00 02 20", 20, 17),
    ("a bad byte before one that is missing", "00 0a 20 00 00 01 00 00 63 00 02 ff", 23, 16),
    ("the target's second byte", "00 0b 20 00 00 01 00 00 63 00 02 7e ff", 23, 17),
    ("63 of 64 bytes are missing", "00 0a 20 00 00 01 00 00 63 00 40 61", 20, 17),
    # the end-of-syllable target, alone and behind a target
    ("no length of the end-of-syllable target", "00 08 40 00 00 01 00 00 63 00", 20, 15),
    ("an end-of-syllable target of 65 bytes, of which none is there", "00 09 40 00 00 01 00 00 63 00 41", 20, 16),
    ("the end-of-syllable target's byte is missing", "00 09 40 00 00 01 00 00 63 00 01", 20, 16),
    ("the end-of-syllable target's byte", "00 0a 40 00 00 01 00 00 63 00 01 1f", 23, 16),
    ("no length of the text behind the target", "00 0a 60 00 00 01 00 00 63 00 01 74", 20, 17),
    ("65 bytes behind the target, of which none is there", "00 0b 60 00 00 01 00 00 63 00 01 74 41", 20, 18),
    ("the byte behind the target", "00 0c 60 00 00 01 00 00 63 00 01 74 01 7f", 23, 18),
    # the number of alternatives
    ("no number of alternatives", "00 08 00 00 00 01 00 00 63 00", 20, 15),
    ("9 alternatives", "00 09 00 00 00 01 00 00 63 00 09", 21, 15),
    ("255 alternatives", "00 09 00 00 00 01 00 00 63 00 ff", 21, 15),
    ("no number of alternatives behind a target", "00 0a 20 00 00 01 00 00 63 00 01 74", 20, 17),
    ("9 alternatives behind a target", "00 0b 20 00 00 01 00 00 63 00 01 74 09", 21, 17),
    # the alternatives
    ("no length of the alternative", "00 09 00 00 00 01 00 00 63 00 01", 20, 16),
    ("an alternative of 65 bytes, of which none is there", "00 0a 00 00 00 01 00 00 63 00 01 41", 20, 17),
    ("the alternative's byte is missing", "00 0a 00 00 00 01 00 00 63 00 01 01", 20, 17),
    ("the alternative's byte", "00 0b 00 00 00 01 00 00 63 00 01 01 1f", 23, 17),
    ("the second alternative is missing", "00 0a 00 00 00 01 00 00 63 00 02 00", 20, 17),
    ("the second alternative of 65 bytes, of which none is there", "00 0b 00 00 00 01 00 00 63 00 02 00 41", 20, 18),
    ("the second alternative's byte", "00 0c 00 00 00 01 00 00 63 00 02 00 01 80", 23, 18),
    # bytes that are left over, at the first of them
    ("a byte left over", "00 0a 00 00 00 01 00 00 63 00 00 00", 20, 16),
    ("two bytes left over", "00 0b 00 00 00 01 00 00 63 00 00 ff ff", 20, 16),
    ("a byte left over behind an alternative", "00 0b 00 00 00 01 00 00 63 00 01 00 00", 20, 17),
    # row order, at the row's start, and only where no field is faulty
    ("below the row before", ROW_C + ROW_B, 24, 16),
    ("its prefix is behind it", "00 0c 00 00 00 02 00 00 63 00 00 63 00 00" + ROW_C, 24, 19),
    ("below the row before, a field faulty", ROW_C + "00 09 00 00 00 01 00 00 62 00 09", 21, 26),
    ("below the row before, a byte left over", ROW_C + "00 0a 00 00 00 01 00 00 62 00 00 00", 20, 27),
    # the earliest field of a row, and the first faulty row
    ("bit 7, and no character", "00 04 80 00 00 00", 21, 7),
    ("a surrogate, and 9 codes", "00 08 00 00 00 01 00 d8 00 09", 22, 11),
    ("a bad byte, and a byte left over", "00 0c 20 00 00 01 00 00 63 00 01 1f 00 00", 23, 16),
    ("a bad byte in the first row, bit 7 in the second", "00 0b 20 00 00 01 00 00 63 00 01 1f 00" + "00 01 80", 23, 16),
    ("the third row below the second", ROW_B + ROW_C + ROW_B, 24, 27),
]

# a text may have as many bytes as C8 says: with C9 it is too long, with C8 its first byte is missed
LONG_ROWS = [
    ("a target of 201 bytes", "00 09 20 00 00 01 00 00 63 00 c9", 21, 15),
    ("a target of 200 bytes, of which none is there", "00 09 20 00 00 01 00 00 63 00 c8", 20, 16),
    ("199 of 200 bytes are missing", "00 0a 20 00 00 01 00 00 63 00 c8 61", 20, 17),
    ("a target of 201 bytes, the first of which is bad", "00 0a 20 00 00 01 00 00 63 00 c9 1f", 21, 15),
    ("an end-of-syllable target of 201 bytes", "00 09 40 00 00 01 00 00 63 00 c9", 21, 15),
    ("an end-of-syllable target of 200 bytes, of which none is there", "00 09 40 00 00 01 00 00 63 00 c8", 20, 16),
    ("an end-of-syllable target of 255 bytes", "00 09 40 00 00 01 00 00 63 00 ff", 21, 15),
    ("201 bytes behind the target", "00 0b 60 00 00 01 00 00 63 00 01 74 c9", 21, 17),
    ("200 bytes behind the target, of which none is there", "00 0b 60 00 00 01 00 00 63 00 01 74 c8", 20, 18),
    ("an alternative of 201 bytes", "00 0a 00 00 00 01 00 00 63 00 01 c9", 21, 16),
    ("an alternative of 200 bytes, of which none is there", "00 0a 00 00 00 01 00 00 63 00 01 c8", 20, 17),
    ("an alternative of 255 bytes", "00 0a 00 00 00 01 00 00 63 00 01 ff", 21, 16),
    ("the second alternative of 201 bytes", "00 0b 00 00 00 01 00 00 63 00 02 00 c9", 21, 17),
    ("the second alternative of 200 bytes, of which none is there", "00 0b 00 00 00 01 00 00 63 00 02 00 c8", 20, 18),
]
assert MOST_TARGET == 0xC8

# behind as many rows as are allowed each of these is one too many, whatever it is
TOO_MANY_ROWS = [("a row that is right", ROW_C), ("a row below the one before", ROW_B), ("bit 7", "00 01 80"), ("no flags", "00 00"),
                 ("a single byte", "00"), ("a row past the block's end", "00 09 80")]


def small_tables():
    for words, table in HEADERS:
        yield words, bytes.fromhex(table), 20, 0
    for words, rows, number, place in ROWS:
        yield words, block([bytes.fromhex(rows)]), number, place


def long_tables():
    for words, rows, number, place in LONG_ROWS:
        yield words, block([bytes.fromhex(rows)]), number, place


def large_tables():
    for words, row in TOO_MANY_ROWS:
        yield words, block([bytes.fromhex(ROW_C)] * MOST_RULES + [bytes.fromhex(row)]), 25, 5 + 8192 * 11
