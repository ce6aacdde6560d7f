"""Call files: calls and their answers, one after another, all numbers big-endian.

A call is its mode (1 byte), capitals (1), O ang (1), readings (1), the bytes of slots, room and output (4 each), then rules, classes,
vowels, decompositions, code and text (each a 4-byte length and its bytes). Its answer follows: number (1), place, length and edges (4
each), and `length` output bytes; past these the output must be zero to its end. A file whose name ends in .xz is compressed."""
import lzma
import pathlib
import sys
from typing import NamedTuple

sys.path.insert(0, str(pathlib.Path(__file__).resolve().parents[2] / "tools"))
from tables import Bytes

# numbers of a call that stand before its tables: mode and choices
NUMBERS = 4


class Given(NamedTuple):
    """what the engine itself is asked: a call without the room that it is lent"""
    mode: int
    capitals: int
    o_ang: int
    readings: int
    rules: bytes
    classes: bytes
    vowels: bytes
    decompositions: bytes
    code: bytes
    text: bytes


class Lent(NamedTuple):
    """bytes of slots, text room and output"""
    slots: int
    room: int
    output: int


class Answer(NamedTuple):
    number: int
    place: int
    length: int
    edges: int
    output: bytes


class Call(NamedTuple):
    given: Given
    lent: Lent
    answer: Answer


def refused(number, place):
    return Answer(number, place, 0, 0, b"")


def four(n):
    return n.to_bytes(4, "big")


def parts(given):
    """mode and choices, then tables, code and text as a call file and the oracle hold them"""
    return bytes(given[:NUMBERS]), b"".join(four(len(part)) + part for part in given[NUMBERS:])


def encode(call):
    numbers, tables = parts(call.given)
    a = call.answer
    assert len(a.output) == a.length
    return numbers + b"".join(map(four, call.lent)) + tables + bytes([a.number]) + four(a.place) + four(a.length) + four(a.edges) + a.output


def decode(b):
    numbers = [b.number(1) for _ in range(NUMBERS)]
    lent = Lent(b.number(4), b.number(4), b.number(4))
    given = Given(*numbers, *(b.take(b.number(4)) for _ in range(6)))
    number, place, length, edges = b.number(1), b.number(4), b.number(4), b.number(4)
    return Call(given, lent, Answer(number, place, length, edges, b.take(length)))


def opened(path, how):
    return (lzma.open if str(path).endswith(".xz") else open)(path, how)


def read(path):
    with opened(path, "rb") as f:
        b = Bytes(f.read())
    calls = []
    while not b.done():
        calls.append(decode(b))
    return calls


def write(path, calls):
    with opened(path, "wb") as f:
        f.write(b"".join(map(encode, calls)))
