#!/usr/bin/env python3
"""Vectors for the crate utf8, with Python's own strict UTF-8 decoder as the judge.

vectors.py            writes crates/utf8_vectors/stdin and stdout
vectors.py --check    only says whether they are what it would write

A vector: the text's length and its bytes; 0 and the number of characters, or 1 and the offset of the first bad
sequence; how many characters are given, and each in three bytes. Those past the room of `chars` are not given."""
import itertools
import pathlib
import random
import sys

sys.path.insert(0, str(pathlib.Path(__file__).resolve().parents[1] / 'generate'))
import program

ROOM = 16           # the length of `chars` in crates/utf8_vectors
BORDERS = (0x7F, 0x80, 0x8F, 0x90, 0x9F, 0xA0, 0xBF, 0xC0)
EDGES = (0x7F, 0x80, 0xBF, 0xC0)


def judged(text):
    """The characters up to the first bad sequence, and its offset or None."""
    try:
        return [ord(c) for c in text.decode('utf-8', 'strict')], None
    except UnicodeDecodeError as e:
        return [ord(c) for c in text[:e.start].decode('utf-8', 'strict')], e.start


def vector(text):
    chars, bad = judged(text)
    given = chars[:ROOM]
    head = bytes([len(text)]) + text
    answer = bytes([0, len(chars)]) if bad is None else bytes([1, bad])
    return head + answer + bytes([len(given)]) + b''.join(c.to_bytes(3, 'big') for c in given)


def short():
    """Each first byte, cut and with each border after it."""
    for first in range(256):
        yield bytes([first])
        for second in BORDERS:
            yield bytes([first, second])


def long():
    """The first bytes of three and four, and the next that is none, with borders at every place."""
    for first in range(0xE0, 0xF9):
        for more in itertools.product(BORDERS, EDGES):
            yield bytes([first, *more])
    for first in range(0xE0, 0xF0):
        for more in itertools.product(BORDERS, (0x8F, 0x90, 0x9F, 0xA0)):
            yield bytes([first, *more])
    for first in range(0xF0, 0xF9):
        for more in itertools.product(BORDERS, EDGES, EDGES):
            yield bytes([first, *more])


# the start, the middle and the end of a text; what stands around has one to four bytes
PLACES = ((b'', b'z'), ('é'.encode(), '\U00010000'.encode()), ('a\uffff'.encode(), b''))


def placed():
    """The short sequences at each place, the long ones in turn."""
    for s in short():
        for before, after in PLACES:
            yield before + s + after
    for i, s in enumerate(long()):
        before, after = PLACES[i % 3]
        yield before + s + after


def borders_of_length():
    """The first and the last character of each length, the surrogates' neighbours, in full and with a byte cut off."""
    for c in (0, 0x7F, 0x80, 0x7FF, 0x800, 0xD7FF, 0xE000, 0xFFFD, 0xFFFF, 0x10000, 0x10FFFF):
        whole = chr(c).encode()
        for n in range(len(whole) + 1):
            yield whole[:n]
            yield b'ab' + whole[:n]
            yield whole[:n] + whole
            yield whole + whole[:n]


def character(r):
    low, high = r.choice(((0, 0x7F), (0x80, 0x7FF), (0x800, 0xD7FF), (0xE000, 0xFFFF), (0x10000, 0x10FFFF)))
    return chr(r.randint(low, high))


def texts(r):
    """Right texts, some longer than the room, and the same ones damaged."""
    for _ in range(250):
        text = ''.join(character(r) for _ in range(r.choice((1, 3, 6, 15, 16, 17, 24)))).encode()
        yield text
        hurt = bytearray(text)
        at = r.randrange(len(hurt))
        how = r.randrange(4)
        if how == 0:
            hurt[at] = r.randrange(256)
        elif how == 1:
            del hurt[at]
        elif how == 2:
            hurt.insert(at, r.choice(BORDERS + (0xED, 0xF4, 0xF8, 0xFF)))
        else:
            hurt[at] ^= 1 << r.randrange(8)
        yield bytes(hurt)


def main():
    found = [b'', *placed(), *borders_of_length(), *texts(random.Random(3629))]
    size = program.deliver('utf8_vectors', [vector(t) for t in found])
    bad = sum(judged(t)[1] is not None for t in found)
    print(f'{len(found)} vectors, {len(set(found))} different texts, {bad} bad, {size} bytes')


main()
