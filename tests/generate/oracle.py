"""Asks the oracle, and makes calls of what it answers. The oracle knows nothing of the room lent to a call, nor of the longest text of
an edge: 9, 10, 11 and 14 are worked out here, by the words of document 01 and ticket 3, from the edges in their adding order."""
import itertools
import pathlib
import subprocess
import sys
from typing import NamedTuple

ROOT = pathlib.Path(__file__).resolve().parents[2]
sys.path[:0] = [str(ROOT / "tests" / "calls"), str(ROOT / "tools")]
import callfile
from callfile import Answer, Call, Given, Lent, parts, refused
from tables import MOST_EDGE_TEXT, Bytes, read_listing

SLOT = 12


class Added(NamedTuple):
    """an edge: its start, the length of its text, and those of the lattice that a decomposition's edge comes of, in adding order"""
    start: int
    length: int
    inner: list

    def room(self):
        """the room that it needs: the lattice that it comes of is gone before it is added"""
        return max(self.length, sum(self.inner))

    def slots(self):
        return max(1, len(self.inner))


class Built(NamedTuple):
    """what the engine makes of a case: the output, and its edges in adding order"""
    output: bytes
    added: list

    def lent(self):
        """exactly what the call needs"""
        before = itertools.accumulate((edge.length for edge in self.added), initial=0)
        slots = max((k + edge.slots() for k, edge in enumerate(self.added)), default=0)
        room = max((had + edge.room() for had, edge in zip(before, self.added)), default=0)
        return Lent(SLOT * slots, room, len(self.output))


def added(b):
    start, length, edges = b.number(2), b.number(2), b.number(2)
    return Added(start, length, [b.number(2) for _ in range(edges)])


def ask(program, cases):
    """the oracle's answers to cases (Given); None where it refuses mode, choices, tables, code or text"""
    asked = b"".join(b"".join(parts(case)) for case in cases)
    b = Bytes(subprocess.run([program], input=asked, stdout=subprocess.PIPE, check=True).stdout)
    answers = []
    for case in cases:
        status, edges, length = b.number(1), b.number(4), b.number(4)
        output = b.take(length)
        if status == 1:
            raise ValueError("the oracle panicked on %r" % (case,))
        answers.append(None if status == 2 else Built(output, [added(b) for _ in range(edges)]))
    assert b.done()
    return answers


def misfit(lengths, slots, room):
    """9 or 10 where an edge of these lengths does not fit into so many slots and so much room: the slot is asked before the room"""
    for length in lengths:
        if slots == 0:
            return 9
        if length > room:
            return 10
        slots, room = slots - 1, room - length
    return None


def hindered(edge, slots, room):
    """what keeps an edge out: its string's 9 or 10, 14 where its text is too long, its own 9 or 10"""
    too_long = 14 if edge.inner and edge.length > MOST_EDGE_TEXT else None
    return misfit(edge.inner, slots, room) or too_long or misfit([edge.length], slots, room)


def first_misfit(added, slots, room):
    """the refusal of the first edge that can't be added"""
    for k, edge in enumerate(added):
        number = hindered(edge, slots // SLOT - k, room)
        if number:
            return refused(number, edge.start)
        room -= edge.length
    return None


def answered(built, lent):
    """the answer where this much is lent"""
    found = first_misfit(built.added, lent.slots, lent.room)
    if found:
        return found
    if lent.output < len(built.output):
        return refused(11, len(built.output))
    return Answer(0, 0, len(built.output), len(built.added), built.output)


def call(given, built, lent):
    return Call(given, lent, answered(built, lent))


def string_of(given, built):
    """the path's string, from mode 0 or 1"""
    if given.mode == 0:
        return built.output.decode()
    return "".join(edge.text for edge in read_listing(built.output))
