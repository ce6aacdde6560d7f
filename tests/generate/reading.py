#!/usr/bin/env python3
"""Small cases made by hand: document 01's sample results, and for each corner of its text the smallest call that tells a wrong
reading from the right one. Where a string, a count of edges or the alternatives are stated here, the oracle must give them.

usage: reading.py ORACLE FILE.calls.xz"""
import itertools
import sys

import sample
from forms import *
from lower import lowered
from oracle import Given, Lent, ask, call, callfile, string_of
from tables import *

L = (LETTER, 0)          # a letter of no script
DEVA = (LETTER, DEVANAGARI)
SIX = (LETTER, 6)        # a letter of a script that the Rust does not name
N = (NUMBER,)
T = (LETTER, THAI)
COPT = (LETTER, COPTIC)
HIRA = (LETTER, HIRAGANA)
TONE_MARK = (NONSPACING, THAI, TONE)
DEAD = (NONSPACING, 0, VIRAMA)
A6, A5 = (6, A, "a"), (5, A, "a")


class Corner:
    """a case in all four modes; `want` is the path's string, `begins` how it begins, `edges` the lattice's count, `listed` what mode 2
    lists behind the path, as codes and texts, where stated; `lower` are the characters of lower case, `made` the decompositions"""
    def __init__(self, text, rows, kinds, vowel_rows=(), code="", want=None, edges=None, begins="", listed=None, capitals=0, o_ang=0,
                 readings=0, lower="", made={}):
        self.text, self.code, self.want, self.edges, self.begins, self.listed = text, code, want, edges, begins, listed
        self.choices = capitals, o_ang, readings
        self.tables = rows if isinstance(rows, bytes) else rules(*rows), \
            lowered(kinds if isinstance(kinds, bytes) else classes(kinds), lower), \
            vowel_rows if isinstance(vowel_rows, bytes) else vowels(*vowel_rows), forms(made)

    def given(self, mode):
        return Given(mode, *self.choices, *self.tables, self.code.encode(), self.text.encode())


def by_o_ang(text, rows, kinds, wants, **more):
    """the case with the choice of O ang off and on, and the string that each gives"""
    for o_ang, want in enumerate(wants):
        yield Corner(text, rows, kinds, want=want, o_ang=o_ang, **more)


def by_readings(text, rows, kinds, off, on, **more):
    """the case with the choice of readings off and on, and the alternatives that each lists"""
    for readings, listed in enumerate((off, on)):
        yield Corner(text, rows, kinds, listed=listed, readings=readings, **more)


def sample_results():
    for text, code, want in sample.RESULTS:
        yield Corner(text, sample.RULES, sample.CLASSES, sample.VOWELS, code, want, 4 if text == "क\u094dत" else None)
    for capitals, want in enumerate(sample.CASED_RESULTS):
        yield Corner("Жж", sample.RULES, sample.CASED_CLASSES, sample.VOWELS, want=want, capitals=capitals)
    for text in ("", "\u0eff", "\u1000", "क" * 40):
        yield Corner(text, sample.RULES, sample.CLASSES, sample.VOWELS)
    yield Corner("कत\n", sample.RULES, sample.CLASSES, sample.VOWELS, want="kat\n")


def longest_and_most():
    # every step that makes a text longer, of targets of 64: vowel 4, doubled 1, pre-vowel 64, e 1, small ya 64 for one, long mark 1
    yield Corner("เっกⲁ\u0300ゃー", [("กⲁ", "k" * 64), ("เ", "e" * 62 + "ki"), ("ゃ", "y" + "a" * 63)],
                 {"เ": (OTHER, THAI, PRE), "っ": (OTHER, THAI), "ก": T, "ⲁ": COPT, "\u0300": (NONSPACING, HIRAGANA), "ゃ": HIRA, "ー": L},
                 [(THAI, A, "aeio")], want="e" + "k" * 65 + "aeio" + "e" * 62 + "ky" + "a" * 64)
    # an alternative of 64 and a vowel of 4
    yield Corner("क", [("क", "k", 0, 0, (), None, ["x" * 64])], {"क": SIX}, [(6, A, "aeio")], want="kaeio")
    # 48 edges start at 0, since those found at 1 and 2 move there; then 16, 15 .. 1 from 3 on, and two fallbacks
    text = "เっ" + "ก" * 17
    rows = [(text[p:p + n], "kmn"[p] + "a" * (n % 3)) for p in range(3) for n in range(1, 17)]
    yield Corner(text, rows, {"เ": (LETTER, THAI, PRE), "っ": T, "ก": T}, edges=48 + 136 + 2)


def vowel_step():
    for c in "bcdfghjklmnpqrstvwxyz":     # the first pattern has a set of its own before y
        want = (c if c in "cfghkmnqrstxy" else "") + "ya"
        yield Corner("क", [("क", c + "ya")], {"क": SIX}, [A6], want=want)
    yield Corner("क", [("क", "kyya")], {"क": SIX}, [A6], want="yya")
    yield Corner("क", [("क", "dya")], {"क": SIX}, [A6], want="ya")
    yield Corner("क", [("क", "kyoo")], {"क": SIX}, [(6, AO, "o")], want="kyoo")
    yield Corner("क", [("क", "byaa")], {"क": SIX}, [(6, AO, "o")], want="yaa")
    yield Corner("क", [("क", "byo")], {"क": SIX}, [A6])
    yield Corner("क", [("क", "ko")], {"क": SIX}, [(6, AO, "o")], want="ko")
    yield Corner("क", [("क", "koo")], {"क": SIX}, [(6, AO, "o")])
    yield Corner("A", [("A", "k")], {"A": SIX}, [A6], want="ka")
    yield Corner("A", [("A", "k")], {}, [A6], want="k")
    sign = {"क": SIX, "ि": (MARK, 6, SIGN)}
    yield Corner("कि", [("क", "tika")], sign, [A6], want="kि")
    yield Corner("क", [("क", "tika")], sign, [A6], want="ka")
    for kind, row in ((DEVA, A5), (SIX, A6)):
        for target in ("ka-", "1ka-", "ya-", "k-", "-", "Ka-", "~ka-"):
            yield Corner("क", [("क", target)], {"क": kind}, [row])
            yield Corner("कत", [("कत", target)], {"क": kind, "त": kind}, [row])
    yield Corner("क", [("क", "ka-")], {"क": DEVA}, [A5], want="ka")
    yield Corner("क", [("क", "1ka-")], {"क": DEVA}, [A5], want="1ka-")
    yield Corner("क", [("क", "ya-")], {"क": DEVA}, [A5], want="ya-")
    yield Corner("क", [("क", "ya-")], {"क": SIX}, [A6], want="ya")
    for code in ("", "asm", "ben", "guj", "kas", "pan", "hin", "san"):   # a word's end
        keeps = code in ("asm", "ben", "guj", "kas", "pan")
        yield Corner("गक", [("ग", "ga"), ("क", "k")], {"ग": SIX, "क": SIX}, [A6], code, want="gak" if keeps else "gaka")
        yield Corner("गक", [("ग", "ga"), ("क", "k")], {"ग": DEVA, "क": DEVA}, [A5], code, want="gaka" if code == "san" else "gak")
    # a vowel at a word's start only where there is none of aeiou
    for target in ("1ka", "1ko", "1kya", "1kyo"):
        for kind in (A, AO):
            yield Corner("क", [("क", target)], {"क": DEVA}, [(5, kind, "o")])
    yield Corner("कत", [("क", "ik"), ("त", "t")], {"क": SIX, "त": SIX}, [A6])
    yield Corner("कत", [("क", "k"), ("त", "t")], {"क": SIX, "त": SIX}, [A6])
    # all added letters must be vowels for a core
    yield Corner("h", [("h", "h")], {"h": SIX}, [(6, A, "n")], want="hn")
    yield Corner("h", [("h", "h")], {"h": SIX}, [(6, A, "an")], want="han")
    yield Corner("h", [("h", "h")], {"h": SIX}, [(6, A, "ae")], want="hae")
    # Khmer yo after b c d z ng, and after others
    for target in ("b", "c", "d", "z", "ng", "n", "k", "ba", "nga"):
        yield Corner("កយ", [("ក", target), ("យ", "y")], {"ក": SIX, "យ": SIX}, [A6])
    # what stands after: medial, subjoined, virama, and the same after a nonspacing mark
    for flag in (SIGN, MEDIAL, SUBJOINED, VIRAMA, VOCALIC, TONE, PRE):
        kinds = {"क": SIX, "x": (LETTER, 6, flag), "\u0301": (NONSPACING, 0), "\u0302": (MARK, 0)}
        for text in ("कx", "क\u0301x", "क\u0302x", "कxx", "xक", "xकx", "ककx"):
            yield Corner(text, [("क", "k")], kinds, [A6])
    # vocalic, and neighbours of the same and of another script, inside a word
    for before in (SIX, (LETTER, 7)):
        for after in (SIX, (LETTER, 7)):
            for flags in (0, VOCALIC):
                yield Corner("aकb", [("क", "k"), ("क", "ik", 0, 1, ["abc"])], {"a": before, "क": (LETTER, 6, flags), "b": after}, [A6])
    # a tail keeps its own
    yield Corner("aकb", [("क", "+n")], {"a": SIX, "क": SIX, "b": SIX}, [A6])
    # capital letters are no base
    yield Corner("Ж", [("Ж", "ZH")], {"Ж": SIX}, [A6], want="ZH")


def word_boundaries():
    # asked once, remembered: a foreign rule's start test in the look-ahead
    rows, foreign = [Rule("क-", "", end="n"), Rule("त", "t")], Rule("त", "x", START, codes=["abc"])
    kinds = {"क": L, "त": DEVA}
    yield Corner("क-त", [foreign, *rows], kinds, [A5], want="nta")
    yield Corner("क-त", [*rows, foreign], kinds, [A5], want="nta")
    yield Corner("क-त", [foreign, *rows], kinds, [A5], code="abc")
    yield Corner("क-त", rows, kinds, [A5], want="nt")
    # asked before anything ended there, used in the fallback
    yield Corner("っっ", [("っ", "n", START)], {"っ": (OTHER, 0, VIRAMA)})
    # an edge's last character, looked up in the class table
    for kinds, want in (({"1": L}, "1y"), ({}, "1x"), ({"1": (NONSPACING,)}, "1y"), ({"1": (MARK,)}, "1y"), ({"1": (NUMBER,)}, "1x")):
        yield Corner("-x", [("-", "1"), ("x", "y", NOT_START)], kinds, want=want)
    # a character of category 1 to 3 before; others
    for category in range(8):
        kinds = {"é": (category,)}
        yield Corner("éx", [("x", "s", START)], kinds)
        yield Corner("xé", [("x", "e", END)], kinds)
        yield Corner("éxé", [("x", "w", WHOLE)], kinds)
        yield Corner("éxé", [("x", "n", NOT_START), ("x", "m", NOT_END, 1)], kinds)
    # end of word looks ahead at targets, asks no validity, and leaves out rules of bit 0
    ends = [("x", "q", END, 1), ("x", "p")]
    for row, want in ((Rule("-", "k", codes=["abc"]), "p--"), (Rule("-", "k", START), "q"), (Rule("-", "k", NOT_START), "pkk"),
                      (Rule("-", "k", END), "p"), (Rule("-", "k", NOT_END), "p"), (Rule("-", "k", WHOLE), "p"), (Rule("-", "1"), "q11"),
                      (Rule("-", None, end="k"), "q"), (Rule("-", "1", others=["k"]), "q11"), (Rule("-", "12k3"), "p12k312k3"),
                      (Rule("--", "k"), "pk"), (Rule("---", "k"), "q--"), (Rule("-", ""), "q")):
        yield Corner("x--", [*ends, row], {}, begins=want)
        yield Corner("x--", [*ends, row, Rule("-", "7", 0, 9)], {}, begins=want[0])


def rule_choice():
    for high in (1, 255, 256, 65535):
        yield Corner("x", [("x", "a"), ("x", "b", 0, high)], {}, want="b")
        yield Corner("x", [("x", "a", 0, high), ("x", "b")], {}, want="a")
        yield Corner("x", [("x", "a"), ("x", None, 0, high)], {}, want="a")
    yield Corner("x", [("x", "a", 0, 256), ("x", "b", 0, 255)], {}, want="a")
    yield Corner("x", [("x", "a", 0, 7), ("x", "b", 0, 7)], {}, want="a")
    yield Corner("x", [("x", None), ("x", None, 0, 5)], {}, want="x")
    yield Corner("x", [("x", "")], {}, want="", edges=1)
    for codes in ((), ("abc",), ("abc", "def"), ("def",)):
        for code in ("", "abc", "def"):
            yield Corner("x", [Rule("x", "a", codes=codes)], {}, code=code, want="a" if not codes or code in codes else "x")
    # a rule without target but with an end target answers full search alone
    yield Corner("あつ", [Rule("つ", None, end="t")], {"あ": HIRA, "つ": HIRA}, want="あt")
    yield Corner("つ", [Rule("つ", None, end="t")], {"あ": HIRA, "つ": HIRA}, want="つ")
    yield Corner("あつ", [Rule("つ", None, 0, 0, (), "t"), Rule("つ", None, 0, 3, (), "d")], {"あ": HIRA, "つ": HIRA}, want="あd")
    # the tail rule, of targets and end targets
    for target in ("+n", "+", "+a", "+ng", "+nga", "+ar", "++", "+nn", "+gn", "+m", "+r", "+ra", "n+"):
        yield Corner("x", [("x", target)], {})
        yield Corner("x-", [("x", target)], {"x": L, "-": DEAD})
        yield Corner("xx", [Rule("x", "s", end=target)], {})
    yield Corner("xx", [Rule("x", "s", end="+n")], {}, want="sn")
    # prefixes of sources carry the search on, over lengths without a rule
    yield Corner("abcd", [("abc", "X"), ("bcd", "Y"), ("c", "Z")], {}, want="Xd")
    yield Corner("abcd", [("abcde", "X"), ("ab", "Y")], {}, want="Ycd")
    yield Corner("a" * 17, [("a" * 16, "X")], {}, want="Xa")


def syllables():
    thai = {"ก": T, "เ": (LETTER, THAI, PRE), "า": T, "\u0e48": TONE_MARK, "อ": T, " ": (ZS,)}
    k = Rule("ก", "k", end="t")
    yield Corner("ก", [k], thai, want="k")
    yield Corner("กก", [k], thai, want="kt")
    vowel = [k, ("า", "a"), ("เ", "e"), ("อ", "o")]
    for text in ("กกา", "ากา", "ากก", "าก", "เก", "เกก", "ากเก", "าก า", " กก", "าก\u0e48", "าก\u0e48า", "าก\u0e48\u0e48า", "าก\u0e48เ",
                 "ากอ", "ากอา", "ากอก", "ากอ\u0e48", "าก\u0e48อา", "าก\u0e48อ", "ากxา", "ากx"):
        yield Corner(text, vowel, thai)
    # a capital vowel ahead counts; consonants to the left are small ones, without w and y
    for ahead in ("A", "a", "E", "I", "O", "U", "b", "", "1", "Ya"):
        yield Corner("ากา", [k, ("า", ahead)], thai)
    for left in "bcdfghjklmnpqrstvwxyzaBKY":
        yield Corner("xxกา", [("xx", "q" if left == "z" else "a" + left), k, ("า", "a")], {**thai, "x": L})
        yield Corner("xyกา", [("x", "a" + left), ("y", "u" + left), k, ("า", "a")], {**thai, "x": T, "y": T})
    # a source of two before a source of one
    yield Corner("ากาก", [k, ("า", "a"), ("าก", "z")], thai)
    yield Corner("ากาก", [k, ("า", "z"), ("าก", "a")], thai)
    # characters two back: letters and marks or not
    for category in range(8):
        yield Corner("éกา", [k, ("า", "z")], {**thai, "é": (category,)})
        yield Corner("ากé", [k], {**thai, "é": (category,)})


def expansion():
    # doubling: equal scripts, 0 and 0 too; ch becomes tch or cch; not v x y
    for small in "っッ\u0a71":
        for target in ("ka", "chi", "cha", "c", "va", "xa", "ya", "wa", "za", "a", "Ka", "h"):
            yield Corner(small + "か", [("か", target)], {small: HIRA, "か": HIRA})
    yield Corner("っか", [("か", "ka")], {}, want="kka")
    yield Corner("っか", [("か", "ka")], {"っ": (LETTER, KATAKANA), "か": HIRA}, want="っka")
    yield Corner("xっか", [("か", "ka"), ("x", "s")], {"っ": HIRA, "か": HIRA})
    yield Corner("っかき", [("かき", "ka")], {"っ": HIRA, "か": HIRA, "き": (LETTER, KATAKANA)}, want="kka")
    yield Corner("っかき", [("かき", "ka")], {"っ": HIRA, "か": (LETTER, KATAKANA), "き": HIRA}, want="っka")
    # the capitalizing step never acts where it is not chosen
    yield Corner("Жж", [("Ж", "ZH"), ("ж", "zh")], {"Ж": L, "ж": L}, want="ZHzh")
    yield Corner("Жж", [("Ж", "ZH"), ("ж", "zh")], {"Ж": L, "ж": L}, want="ZHzh", lower="ж")
    # long mark, small ya and Coptic look at the last character, which moves on
    copt = {"ⲁ": COPT, "\u0300": (NONSPACING, HIRAGANA), "ー": L}
    yield Corner("ⲁ\u0300ー", [("ⲁ", "i")], copt, want="eii")
    yield Corner("ⲁ\u0300ー", [("ⲁ", "i")], {**copt, "\u0300": (NONSPACING, COPTIC)}, want="eiー")
    yield Corner("ⲁ\u0300ー", [("ⲁ", "i")], {**copt, "\u0300": (NONSPACING, KATAKANA)}, want="eii")
    yield Corner("ⲁ\u0300ー", [("ⲁ", "n")], copt, want="enー")
    yield Corner("ⲁ\u0300ゃー", [("ⲁ", "ki"), ("ゃ", "ya")], {**copt, "ゃ": HIRA}, want="ekyaa")
    # Coptic is blocked by a valid rule with a target, not by a mere row
    for row in (Rule("ⲁ\u0300", "z"), Rule("ⲁ\u0300", None), Rule("ⲁ\u0300", "z", codes=["abc"]), Rule("ⲁ\u0300", "")):
        yield Corner("ⲁ\u0300", [("ⲁ", "a"), row], copt)
        yield Corner("ⲁ\u0300", [("ⲁ", "a"), row], copt, code="abc")
    # small ya: all six, equal scripts, an i after a consonant, the first rule, and both spans asked
    for small in "ゃゅょャュョ":
        yield Corner("き" + small, [("き", "ki"), (small, "ya")], {"き": HIRA, small: HIRA}, want="kya")
    hira = {c: HIRA for c in "っきゃゅ"}
    for target in ("ki", "i", "ai", "ni", "yi", "wi", "vi", "Ki", "k", "ka", "kI"):
        yield Corner("きゃ", [("き", target), ("ゃ", "ya")], hira)
    yield Corner("きゃ", [("き", "ki"), ("ゃ", "ya")], {"き": HIRA, "ゃ": (LETTER, KATAKANA)}, want="kiya")
    yield Corner("きゃ", [("き", "ki")], hira, want="kiゃ")
    yield Corner("きゃ", [("き", "ki"), ("ゃ", None), ("ゃ", "ya")], hira, want="kiya")
    yield Corner("きゃ", [("き", "ki"), Rule("ゃ", "ja", NOT_START, 0, ["abc"]), ("ゃ", "ya", 0, 9)], hira, want="kja")
    yield Corner("きゃ", [("き", "ki"), ("ゃ", "")], hira, want="k")
    for row in (Rule("きゃ", "z"), Rule("きゃ", None), Rule("きゃ", "z", codes=["abc"]), Rule("っきゃ", "z"), Rule("っきゃ", None)):
        yield Corner("っきゃ", [("き", "ki"), ("ゃ", "ya"), row], hira)
    # the long mark
    for target in ("ka", "k", "kA", "ke", "ki", "ko", "ku", "", "y"):
        yield Corner("かー", [("か", target)], {"か": HIRA, "ー": L})
    yield Corner("かー", [("か", "ka")], {"か": (LETTER, KATAKANA), "ー": L}, want="kaa")
    yield Corner("かー", [("か", "ka")], {"か": L, "ー": L}, want="kaー")
    yield Corner("かーー", [("か", "ka")], {"か": HIRA, "ー": HIRA})
    yield Corner("かー", [("か", "k")], {"か": HIRA, "ー": (LETTER, 0, VIRAMA)})
    # a virama is absorbed, but not by an empty romanization, and before spaces are trimmed
    for target in ("k", "", " k", "k ", " "):
        yield Corner("x-", [("x", target)], {"-": DEAD})
        yield Corner(" x- ", [("x", target)], {"-": DEAD, " ": (ZS,)})
    # one space a side; U+0020 itself; the text's front counts, its end does not
    for target in (" k", "  k", "k ", "k  ", " k ", " ", "  "):
        for text in ("x", " x", "x ", " x ", "\u00a0x\u00a0", "yx", "xy", "x x"):
            yield Corner(text, [("x", target)], {"\u00a0": (ZS,), " ": (ZS,)})
    # the best edge is the first added
    yield Corner("か\u094d", [("か", "k"), ("か\u094d", "z")], {"か": HIRA, "\u094d": DEAD}, want="k")
    # equal edges are added once
    yield Corner("っか", [("っ", "kka"), ("か", "ka")], {"か": (LETTER, HIRAGANA, VIRAMA), "っ": HIRA}, edges=3)


def thai():
    kinds = {**{c: T for c in "กขคาอย"}, "เ": (LETTER, THAI, PRE), "แ": (LETTER, THAI, PRE), "\u0e48": TONE_MARK, "っ": T, " ": (ZS,)}
    k = ("ก", "k")
    pattern = [k, ("เ", "e"), ("เ\u2013า", "ao"), ("า", "a")]
    yield Corner("เกา", pattern, kinds, want="kao")
    yield Corner("เกา", pattern, {**kinds, "เ": (LETTER, 0, PRE)}, want="kao")      # the pattern asks no script of it,
    yield Corner("เก", pattern, {**kinds, "เ": (LETTER, 0, PRE)}, want="ek")        # the pre-vowel step does
    yield Corner("เกา", pattern, {**kinds, "เ": T})
    yield Corner("เกา", pattern, {**kinds, "ก": L})
    longest = [k, ("เ\u2013า", "1"), ("เ\u2013าข", "2"), ("เ\u2013าขค", "3")]
    for text in ("เกา", "เกาข", "เกาขค", "เกาขคา", "เกาคข"):
        yield Corner(text, longest, kinds)
    yield Corner("เกาข", [k, ("เ\u2013า", "1"), ("เ\u2013าข", None), ("เ\u2013าข", "2")], kinds, want="k1ข")
    yield Corner("เกา", [k, Rule("เ\u2013า", "x", START, 0, ["abc"]), ("เ\u2013า", "y", 0, 9)], kinds, want="kx")
    for target in ("k", "ka", "y", "w", "kya", "K", "ky"):
        yield Corner("เกา", [("ก", target), ("เ", "e"), ("เ\u2013า", "ao")], kinds)
        yield Corner("เก", [("ก", target), ("เ", "e")], kinds)
    yield Corner("เกขา", [("กข", "k"), ("เ", "e"), ("เ\u2013า", "ao")], kinds)
    yield Corner("เก", [k, ("เ", None), ("เ", "e")], kinds)
    yield Corner("เก", [k, Rule("เ", "x", START, 0, ["abc"]), ("เ", "e", 0, 9)], kinds, want="kx")
    # after doubling the span is two wide
    yield Corner("เっกา", [k, ("เ", "e"), ("เ\u2013า", "ao")], kinds)
    yield Corner("っอ", [("อ", "k")], kinds, want="kk")
    # after a pre-vowel there is no O ang
    yield Corner("แอ", [("อ", "k"), ("แ", "")], kinds, want="k")
    yield Corner("แอ", [("อ", "o"), ("แ", "")], kinds, want="")
    # O ang: between consonants, y being none on either side
    for left in ("k", "y", "w", "ka", "v", "", "1", "K", "ky", "yk"):
        yield Corner("กอข", [("ก", left), ("อ", "o"), ("ข", "k")], kinds)
        yield Corner("กอข", [("ก", "k"), ("อ", "o"), ("ข", left)], kinds)
    for text in ("อ", "กอ", "อก", "กออก", "ก อก", " อก", "ก\u0e48อก", "กอ\u0e48ก", "xอก", "กอx", "ก \u0e48อก", "ก  อก"):
        yield Corner(text, [k, ("อ", "o"), ("x", "k")], kinds)
    yield Corner("ก\u0e48อก", [k, ("อ", "o")], kinds, want="kok")
    yield Corner("กอข", [k, ("อ", "o"), ("ข", None), ("ข", "k")], kinds)
    yield Corner("กอข", [k, ("อ", "o"), Rule("ข", "k", END, 0, ["abc"]), ("ข", "a", 0, 9)], kinds)
    yield Corner("กอข", [k, ("ก", "k"), ("อข", "o")], kinds)
    yield Corner("กขอค", [("กข", "a"), ("ข", "k"), ("อ", "o"), ("ค", "k")], kinds)
    yield Corner("กขอค", [("กข", "k"), ("ข", "a"), ("อ", "o"), ("ค", "k")], kinds)


def capitals():
    """the choice is on: what one character becomes has only its first byte large, before a character of lower case"""
    def chosen(text, rows, kinds, want=None, lower="ж", **more):
        return Corner(text, rows, kinds, want=want, capitals=1, lower=lower, **more)

    both = {"Ж": L, "ж": L}
    small = ("ж", "zh")
    # every later letter becomes small where there is a capital and no small letter; all else stays
    for target, want in (("ZH", "Zh"), ("SHCH", "Shch"), ("A1B", "A1b"), ("1ZH", "1zh"), ("-A", "-a"), ("A'B-C", "A'b-c"), ("Z H ", "Z h "),
                         (" ZH", "zh"), ("+NG", "+ng"), ("+nG", "nG"), ("+N", "N"), ("+1", "1"), ("Zh", "Zh"), ("zH", "zH"), ("ZHh", "ZHh"),
                         ("Z", "Z"), ("1", "1"), ("12", "12"), ("", ""), ("@AZ[`{~AZ", "@az[`{~az"), ("AZ@[", "Az@["), ("Z" * 64, "Z" + "z" * 63)):
        yield chosen("Жж", [("Ж", target), small], both, want + "zh")
    # before lower case: a row with flag 7, whatever else it has; not the text's end, and not a-z by themselves
    zh = ("Ж", "ZH")
    yield chosen("Ж", [zh], both, "ZH", lower="Жж")
    yield chosen("жжЖ", [("ж", "ZH")], both, "ZhZHЖ")
    yield chosen("Жa", [zh], both, "ZHa")
    yield chosen("Жa", [zh], {**both, "a": L}, "ZHa")
    yield chosen("Жa", [zh], {**both, "a": L}, "Zha", lower="a")
    yield chosen("ЖA", [zh], {**both, "A": L}, "ZhA", lower="A")
    yield chosen("Ж ж", [zh, small], {**both, " ": (ZS,)}, "ZH zh")
    for category in range(8):
        yield chosen("Жж", [zh], {"Ж": L, "ж": (category,)})
    for flag in (SIGN, MEDIAL, SUBJOINED, VIRAMA, VOCALIC, TONE, PRE):
        yield chosen("Жж", [zh], {"Ж": L, "ж": (LETTER, 0, flag)}, "Zh" if flag == VIRAMA else "Zhж")
    # one character, and the one behind it
    yield chosen("ЖЖж", [("ЖЖ", "ZH"), small], both, "ZHzh")
    yield chosen("ЖЖж", [zh, small], both, "ZHZhzh")
    yield chosen("ЖжЖ", [("Жж", "ZH"), zh], both, "ZHZH", lower="жЖ")
    # the end-of-syllable target too, and not alternatives
    yield chosen("ЖЖж", [Rule("Ж", "S", end="TS"), small], both)
    yield chosen("Жж", [Rule("Ж", "ZH", others=["J", "JH"]), Rule("Ж", "Zh", START, 0, (), None, ["G", "GH"])], both)
    yield chosen("Жж", [Rule("Ж", "ZH", codes=["abc"]), Rule("Ж", "Zh", others=["GH"])], both, code="abc")
    # fallbacks are not expanded: an absorbed virama leaves Ж alone to one
    yield chosen("Жж", [zh], {"Ж": L, "ж": DEAD}, edges=3)
    yield chosen("Жж", [zh], {"Ж": SIX, "ж": SIX}, "Zhж", vowel_rows=[A6])
    # before doubling, small ya, the long mark and the Coptic accent, which meet small letters now
    kana = {c: HIRA for c in "っかきゃー"}
    yield chosen("っか", [("か", "KA")], kana, "っKA", lower="っか")
    yield chosen("っかき", [("か", "KA")], kana, "っKaき", lower="き")
    for target, want in (("KKI", "Kkya"), ("KI", "Kiya"), ("1KI", "1kya"), ("I", "Iya"), ("KKA", "Kkaya")):
        yield chosen("きゃ", [("き", target), ("ゃ", "ya")], kana, want, lower="ゃ")
        yield chosen("きゃー", [("き", target), ("ゃ", "YA")], kana, lower="ゃー")
    for target, want in (("KA", "Kaa"), ("A", "Aー"), ("1A", "1aa"), ("KAK", "Kakー")):
        yield chosen("かー", [("か", target)], kana, want, lower="ー")
    yield chosen("ⲁ\u0300", [("ⲁ", "AB")], {"ⲁ": COPT, "\u0300": (NONSPACING,)}, "eAb", lower="\u0300")
    # what stands before is asked for small consonants: by O ang, and at a syllable's end
    thai = {c: T for c in "กขอา"}
    yield chosen("กอข", [("ก", "AK"), ("อ", "o"), ("ข", "k")], thai, "Akok", lower="อ")
    yield chosen("กอข", [("ก", "AK"), ("อ", "o"), ("ข", "k")], thai, "AKk", lower="ข")
    yield chosen("กอข", [("ก", "k"), ("อ", "OO"), ("ข", "k")], thai, "kOok", lower="ข")
    yield chosen("ขกา", [("ข", "AK"), Rule("ก", "k", end="t"), ("า", "a")], thai, lower="ก")
    yield chosen("ขกา", [("ข", "AK"), Rule("ก", "k", end="t"), ("า", "a")], thai, lower="า")


O_ANG_KINDS = {**{c: T for c in "กขคงจนาอ①"}, "เ": (LETTER, THAI, PRE), "แ": (LETTER, THAI, PRE), "\u0e48": TONE_MARK, "\u0e34": (NONSPACING, THAI),
               " ": (ZS,), "\u00a0": (ZS,), "\u00b7": (ZS,), "\u3000": (ZS,), "\u200b": (CF,)}
O_ANG_RULES = [("ก", "k"), ("น", "n"), ("า", "a"), ("อ", "o")]


def o_ang():
    """the walk back behind O ang ends at the nearest space where that is chosen; each text has a string for both choices"""
    def read(text, off, on, *more, rows=O_ANG_RULES, kinds=O_ANG_KINDS, **others):
        return by_o_ang(text, [*rows, *more], kinds, (off, on), **others)

    def same(text, want, *more, **others):
        return read(text, want, want, *more, **others)

    for text, *wants in sample.O_ANG_RESULTS:
        yield from by_o_ang(text, sample.RULES, sample.CLASSES, wants, vowel_rows=sample.VOWELS)
    # several spaces: the nearest ends it, whatever stands before
    yield from read("ก ก ก \u0e48อก", "k k k ok", "k k k k")
    yield from read("ก   \u0e48อก", "k   ok", "k   k")
    yield from read("ก \u0e48อก \u0e48อก", "k ok ok", "k k k")
    yield from read("ก \u0e48อก ก\u0e48อก", "k ok kok", "k k kok")
    yield from read("ก \u0e48 \u0e48อก", "k  ok", "k  k")
    yield from read("ก " + "\u0e48" * 40 + "อก", "k ok", "k k", edges=44)
    yield from read(" ก \u0e48อก ", " k ok ", " k k ")
    yield from read("ก \u0e48อก", "k ok", "k k", kinds={c: kind for c, kind in O_ANG_KINDS.items() if c != " "})
    # behind the space nothing is spoken, and before it neither
    yield from same(" \u0e48อก", " k")
    yield from same("\u0e48 \u0e48อก", " k")
    yield from same("กา \u0e48อก", "ka k")
    yield from same("ก\u0e48อก \u0e48อ", "kok ")
    # a space beside it is no Thai neighbour
    yield from same("ก อก", "k k")
    yield from same(" อก", " k")
    yield from same("ก  อก", "k  k")
    yield from same("กอ ก", "k k")
    # in a word with a consonant of its own, and without a space
    yield from same("ก กอก", "k kok")
    yield from same("กา ก\u0e48อน น\u0e48อก", "ka kon nok")
    for text, want in (("อ", ""), ("กอ", "k"), ("อก", "k"), ("กออก", "kok"), ("ก\u0e48อก", "kok"), ("กอ\u0e48ก", "kk"), ("xอก", "xk"), ("กอx", "kx"),
                       ("\u0e48อก", "k"), ("กาอก", "kak"), ("ก\u0e48\u0e34อน", "kon")):
        yield from same(text, want)
    # O ang behind O ang: silent ones are empty edges, which the walk passes; a spoken one is read
    yield from read("กอ \u0e48อก", "k ok", "k k")
    yield from read("ก \u0e48ออก", "k ok", "k k")
    yield from read("ก \u0e48อ \u0e48อก", "k  ok", "k  k")
    yield from read("ก \u0e48อ\u0e48อก", "k ok", "k k")
    h = [("ก", "k"), ("อ", "h")]
    yield from read("ก \u0e48ออก", "k hhk", "k k", rows=h)
    yield from read("ก \u0e48อก\u0e48อก", "k hkhk", "k khk", rows=h)
    yield from same("กออ อก", "kh k", rows=h)
    # marks with rules: an empty text is passed, another is read
    yield from read("ก \u0e48อก", "k ok", "k k", ("\u0e48", ""))
    yield from same("ก \u0e48อก", "k tok", ("\u0e48", "t"))
    yield from same("ก \u0e48อก", "k ak", ("\u0e48", "a"))
    yield from read("ก \u0e34\u0e48อก", "k ok", "k k", ("\u0e34", ""))
    # a rule over the space: its edge is read whole where it ends behind the space, and where its text is empty the walk is over
    yield from same("ง จอก", "ngok", ("ง จ", "ng"))
    yield from same("ง จ\u0e48อก", "ngok", ("ง จ", "ng"))
    yield from same("ก ข คอก", "ngok", ("ก ข ค", "ng"))
    yield from same("ง จอก", "ak", ("ง จ", "a"))
    yield from read("กข คอก", "kok", "kk", ("ข ค", ""))
    yield from read("กข ค\u0e48อก", "kok", "kk", ("ข ค", ""))
    yield from read("กข ข คอก", "kok", "kk", ("ข ข ค", ""))
    yield from same(" งอก", "ngok", (" ง", "ng"))
    yield from read("ก ขอก", "kok", "kk", (" ข", ""))
    yield from same("ก ข\u0e48นอก", "knok", (" ข", ""))
    # one that ends at the space is not reached; one over O ang is not asked
    yield from read("ก \u0e48อก", "kok", "kk", ("ก ", "k"))
    yield from read("ก  \u0e48อก", "kok", "kk", ("ก  ", "k"))
    yield from same("ก อก", "xk", ("ก อ", "x"))
    # a rule of the space itself
    yield from read(" \u0e48อก", "kok", "kk", (" ", "k"))
    yield from read("ก \u0e48อก", "kok", "kk", (" ", ""))
    yield from read("กา \u0e48อก", "katok", "katk", (" ", "t"))
    yield from same("ก \u0e48อก", "kak", (" ", "a"))
    # no other character ends it: not one of category 7, a line's end or a blank without width
    for c, shown in (("\u00a0", " "), ("\u00b7", " "), ("\u3000", " "), ("\n", "\n"), ("\t", "\t"), ("_", "_"), ("\u200b", "")):
        yield from same("ก" + c + "\u0e48อก", "k" + shown + "ok")
        yield from read("ก " + c + "\u0e48อก", "k " + shown + "ok", "k " + shown + "k")
        yield from read("ก" + c + " \u0e48อก", "k" + shown + " ok", "k" + shown + " k")
    # pre-vowels: one that is spoken behind its consonant ends the word before, one of an empty text is passed
    e, none = ("เ", "e"), ("เ", "")
    yield from same("เก \u0e48อก", "ke k", e)
    yield from read("เก \u0e48อก", "k ok", "k k", none)
    yield from read("เกา \u0e48อก", "kn ok", "kn k", e, ("เ\u2013า", "n"))
    yield from same("ก เ\u0e48อก", "k ek", e)
    yield from read("ก เ\u0e48อก", "k ok", "k k", none)
    yield from read("ก เอก", "k ok", "k k", none)
    yield from same("ก แอ", "k k", ("แ", ""), rows=[("ก", "k"), ("อ", "k")])
    # both choices: each does its own
    for capitals, spoken in enumerate(("OO", "Oo")):
        yield from by_o_ang("ก \u0e48อข", [("ก", "k"), ("อ", "OO"), ("ข", "k")], O_ANG_KINDS, ("k %sk" % spoken, "k k"), capitals=capitals, lower="ข")
    # a decomposition's string is a text of its own, with the same choice
    for row, off, on in (("ก \u0e48อก", "k ok", "k k"), ("ก\u0e48อก", "kok", "kok"), ("ก ก \u0e48อก", "k k ok", "k k k")):
        yield from read("①", off, on, made={"①": row}, edges=1)
        yield from read("ก ①", "k " + off, "k " + on, made={"①": row})
    yield from same("ก①", "k k", made={"①": " \u0e48อก"})
    yield from same("ก ①", "k k", made={"①": "\u0e48อก"})
    # what it comes to is read as any edge, and spaces in its row end nothing in the text around
    yield from same("①อก", "kok", made={"①": "ก"})
    yield from read("① \u0e48อก", "k ok", "k k", made={"①": "ก"})
    yield from read("① \u0e48อก", "k ok ok", "k k k", made={"①": "ก \u0e48อก"})
    yield from same("①อก", " kok", made={"①": " ก"})
    yield from same("①อก", "k k", made={"①": "ก "})
    yield from same("ก①\u0e48อก", "k k", made={"①": " "})
    yield from read("ก ①อก", "k ok", "k k", made={"①": "\u0301"}, kinds={**O_ANG_KINDS, "\u0301": (NONSPACING,)})
    yield from same("ก①อก", "kok", made={"①": "\u0301"}, kinds={**O_ANG_KINDS, "\u0301": (NONSPACING,)})


def made(text, rows, want=None, table=(), kinds=(), **more):
    """a case with decompositions"""
    return Corner(text, table, dict(kinds), want=want, made=rows, **more)


ONE, RING = {"①": "1"}, {"①": "1", "②": "2", "½": "1\u20442"}


def decompositions():
    """which characters have an edge of their row, with spaces and slashes"""
    yield made("①", ONE, "1", edges=1)
    yield made("①", {}, "①", edges=1)
    yield made("②", ONE, "②", edges=1)
    yield made("ＡＢＣ", {"Ａ": "A", "Ｂ": "B", "Ｃ": "C"}, "ABC", edges=3)
    yield made("①" * 40, ONE, "1" * 40, edges=40)
    yield made("a", {"\u0f00": "1", "\u28ff": "2", "\uac00": "3"}, "a", edges=1)     # what the text may not have may have a row
    # tags 0 to 4 give no edge, and no spaces
    for tag in (UNTAGGED, SUPER, SUB, NO_BREAK, COMPAT):
        yield made("①", {"①": ("1", tag)}, "①", edges=1)
        yield made("2①2", {"①": ("1", tag)}, "2①2", kinds={"①": N, "2": N})
        yield made("\u00a0", {"\u00a0": (" ", tag)}, " ", kinds={"\u00a0": (ZS,)})
        yield made("①", {"①": ("1", tag)}, "one", [("①", "one")], edges=1)
    yield made("\u00a0", {"\u00a0": "_"}, "_", kinds={"\u00a0": (ZS,)}, edges=1)
    # beside numbers: it must be one itself, and the neighbour too
    for kinds, want in (({}, "12"), ({"①": N}, "12"), ({"2": N}, "12"), ({"①": N, "2": N}, "1 2"), ({"①": L, "2": N}, "12"), ({"①": N, "2": L}, "12")):
        yield made("①2", ONE, want, kinds=kinds)
        yield made("2①", ONE, want[::-1], kinds=kinds)
        yield made("2①2", ONE, want[::-1] + want[1:], kinds=kinds)
        yield made("2 ①", ONE, "2 1", kinds={**kinds, " ": (ZS,)})
    for category in range(8):
        yield made("é①é", ONE, kinds={"①": N, "é": (category,)})
        yield made("2①2", ONE, kinds={"①": (category,), "2": N})
        yield made("①", ONE, "1", kinds={"①": (category,)}, edges=1)
    yield made("①①①", ONE, "1  1  1", kinds={"①": N}, edges=3)
    yield made("①②½①", RING, "1  2  1/2  1", kinds={c: N for c in RING})
    # the class of what stands in the row is nothing to it, nor are a neighbour's text and its row's characters
    yield made("a①a", ONE, "a1a", kinds={"①": N, "1": N})
    yield made("x①", ONE, "21", [("x", "2")], {"①": N, "2": N})
    yield made("②①", {**ONE, "②": "2"}, "21", kinds={"①": N, "2": N})
    # a string that is empty, or ends in blanks, takes its spaces
    yield made("2①2", {"①": "\u0301"}, "2  2", kinds={"①": N, "2": N, "\u0301": (NONSPACING,)}, edges=3)
    yield made("①", {"①": "\u0301"}, "", kinds={"①": N, "\u0301": (NONSPACING,)}, edges=1)
    yield made("2①2", {"①": "1"}, "2  2", [("1", "")], {"①": N, "2": N})
    yield made("2①2", {"①": " "}, "2   2", kinds={"①": N, "2": N, " ": (ZS,)})
    # the slash is put into the string of a number, and not into the row's characters
    half = {"½": "1\u20442"}
    yield made("½", half, "1\u20442", edges=1)
    yield made("½", half, "1/2", kinds={"½": N}, edges=1)
    yield made("2½", half, "2 1/2", kinds={"½": N, "2": N})
    yield made("½", half, "1/2", [("1/2", "half"), ("/", "over")], {"½": N})
    yield made("½", half, "half", [("1\u20442", "half")], {"½": N})
    yield made("½", half, "1:2", [("\u2044", ":")], {"½": N})
    yield made("½", {"½": "\u2044\u20442\u2044"}, "//2/", kinds={"½": N})
    yield made("\u2044½", half, "\u20441/2", kinds={"½": N})
    yield made("\u2044", {"\u2044": "/"}, "/", kinds={"½": N})


def decompositions_and_rules():
    """rules of the same character, and what of a call reaches into the string"""
    # a rule of the same character: its edge is before, and is the better one
    for kinds in ({}, {"①": N}, {"①": (NONSPACING,)}):
        yield made("①", ONE, "one", [("①", "one")], kinds, edges=2)
        yield made("①", ONE, "", [("①", "")], kinds, edges=2)
        yield made("①", ONE, "1", [("①", None)], kinds, edges=1)
        yield made("①", ONE, "1", [("①", "one", NOT_START)], kinds, edges=1)
        yield made("①", ONE, "1", [Rule("①", "one", codes=["abc"])], kinds, edges=1)
        yield made("①", ONE, "one", [Rule("①", "one", codes=["abc"])], kinds, code="abc", edges=2)
    yield made("①", ONE, "1", [("①", "1")], edges=2)
    yield made("①", ONE, "ng", [("①", "+ng")], edges=2)
    yield made("①②", RING, "twelve", [("①②", "twelve")], edges=3)
    yield made("①②", RING, "a2", [("①", "a"), ("①②x", "b")], edges=3)
    yield made("①-", ONE, "k", [("①", "k")], {"-": DEAD}, edges=3)
    yield made("-①", {"①": "a"}, "-ka", [("①", "k", START)], {"-": (OTHER, 0, VIRAMA), "①": SIX}, vowel_rows=[A6])
    # no language code inside
    yield made("①1", ONE, "1uno", [Rule("1", "uno", codes=["abc"])], code="abc")
    yield made("① कत", {"①": "कत"}, "kat kata", sample.RULES, {"क": DEVA, "त": DEVA, " ": (ZS,)}, vowel_rows=[A5], code="san")
    yield made("① กก", {"①": "กก"}, table=[("ก", "k"), Rule("ก", "g", codes=["abc"])], kinds={"ก": SIX, " ": (ZS,)}, vowel_rows=[A6], code="asm")
    # the same choice inside, and none outside
    letters = [("Ж", "ZH"), ("ж", "zh")]
    for capitals in (0, 1):
        cased = dict(table=letters, kinds={"Ж": L, "ж": L, "Ⓩ": L}, lower="ж", capitals=capitals)
        yield made("Ⓩ", {"Ⓩ": "Жж"}, ("ZHzh", "Zhzh")[capitals], **cased)
        yield made("Ⓩж", {"Ⓩ": "Ж"}, "ZHzh", **cased)
        yield made("ЖⓏ", {"Ⓩ": "Ж"}, "ZHZH", **cased)
        yield made("ЖⓏ", {"Ⓩ": "ж"}, ("ZHzh", "Zhzh")[capitals], **{**cased, "lower": "Ⓩ"})
    # a text of its own: its words begin and end there
    words = [("x", "s", START, 1), ("x", "e", END, 2), ("x", "m")]
    for text in ("①", "a①", "①a", "a①a"):
        for row in ("x", "xx", "xxx", "1x", "x1", "x x"):
            yield made(text, {"①": row}, table=words, kinds={"①": L, " ": (ZS,)})
    yield made("a①", {"①": "x"}, "aw", [("x", "w", WHOLE)])
    yield made("k①", {"①": "อk"}, "kk", [("อ", "o")], {"อ": T, "k": T})
    yield made("っ①", {"①": "か"}, "っka", [("か", "ka")], {"っ": HIRA, "①": HIRA, "か": HIRA})
    yield made("き①", {"①": "ゃ"}, "kiya", [("き", "ki"), ("ゃ", "ya")], {"き": HIRA, "ゃ": HIRA, "①": HIRA})
    yield made("①ー", {"①": "か"}, "kaー", [("か", "ka")], {"か": HIRA, "①": HIRA, "ー": L})
    yield made("①\u094d", {"①": "か"}, "ka", [("か", "ka")], {"①": HIRA, "\u094d": DEAD})
    # all steps are taken in it
    for row, want in (("きゃ", "kya"), ("っち", "tchi"), ("かー", "kaa"), ("เกา", "kao"), ("កយ", "kaya"), ("क\u094dत", "kta"), ("жж", "jzh"),
                      ("р", "ng"), ("с", "+ar"), ("ก \u0e48อก", "k ok"), ("\u0e48อก", "k"), ("é€𐍈", "é€𐍈"), (" a ", " a ")):
        yield Corner("①", sample.RULES, sample.CLASSES, sample.VOWELS, want=want, made={"①": row}, edges=1)
        yield Corner("ж①ж", sample.RULES, sample.CLASSES, sample.VOWELS, made={"①": row})
    yield made("①", {"①": "x"}, "k ", [("x", " k ")])
    yield made("①", {"①": "x "}, "k ", [("x", " k ")], {" ": (ZS,)})
    yield made("① ", {"①": "x"}, "k  ", [("x", " k ")], {" ": (ZS,)})


def decompositions_and_words():
    """what the edge's text is for the characters around it"""
    # its last character is a letter for the word behind it, or none, as its class row says
    behind = [("x", "s", START, 1), ("x", "m")]
    for category in range(8):
        yield made("①x", {"①": "é"}, table=behind, kinds={"é": (category,)})
        yield made("①x", {"①": "𐍈é"}, table=[*behind, ("𐍈", "")], kinds={"𐍈": L, "é": (category,)})
    for row, kinds, want in (("a", {}, "am"), ("1", {}, "1s"), ("a1", {}, "a1s"), ("1a", {}, "1am"), ("1", {"1": L}, "1m"), ("aé", {}, "aés"),
                             ("é", {"é": L}, "ém"), ("𐍈", {"𐍈": (MARK,)}, "𐍈m"), ("é", {"é": (NONSPACING,)}, "s"), ("1", {"①": L}, "1m"),
                             ("1", {"①": N}, "1s"), ("a", {"①": N}, "am")):
        yield made("①x", {"①": row}, want, behind, kinds)
    yield made("①2", {"①": "a"}, "a t", [("2", "t", START)], {"①": N, "2": N})
    yield made("①2", {"①": "a"}, "a2", [("2", "t", START)], {"2": N})
    # asked before the edge is there, and remembered
    asked = [Rule("①", "1", end="2"), *behind]
    yield made("p①x", {"①": "a"}, "p2s", asked, {"p": L, "x": L})
    yield made("p①x", {"①": "a"}, "pam", behind, {"p": L, "x": L})
    # an end of word looks at the character and its rules, not at its row
    ends = [("x", "q", END, 1), ("x", "p")]
    yield made("x①", {"①": "a"}, "qa", ends)
    yield made("x①", {"①": "a"}, "pa", ends, {"①": L})
    yield made("x①", {"①": "a"}, "pb", [*ends, ("①", "b")])
    # what stands to the left: O ang, an end of syllable
    thai = {c: T for c in "①กอาข"}
    left = [("อ", "o"), ("ก", "k"), ("า", "a")]
    yield made("①อก", {"①": "ก"}, "kok", left, thai)
    yield made("①อก", {"①": "า"}, "ak", left, thai)
    yield made("①อก", {"①": "า"}, "tok", [*left, ("①", "t")], thai)
    yield made("①อก", {"①": "\u0301"}, "k", left, {**thai, "\u0301": (NONSPACING,)})
    yield made("ก①อก", {"①": "\u0301"}, "kok", left, {**thai, "\u0301": (NONSPACING,)})
    syllable = [Rule("ข", "k", end="t"), ("า", "a"), ("ก", "k")]
    for row in ("ก", "า", "1", "\u0301"):
        yield made("x①ขา", {"①": row}, table=syllable, kinds={**thai, "x": L, "\u0301": (NONSPACING,)})
        yield made("ข①า", {"①": row}, table=syllable, kinds=thai)
        yield made("xข①", {"①": row}, table=syllable, kinds={**thai, "x": L})
    # alternatives of a path's edge ask its text, not how it came
    kana = {c: HIRA for c in "っ①か"}
    yield made("xっ①", {"①": "か"}, "ska", [("xっ", "s"), Rule("①", "ka", others=["ga", "ka"]), ("か", "ka")], kana)
    yield made("xっ①", {"①": "か"}, "ska", [("xっ", "s"), Rule("①", "ta", end="ka", others=["ga"]), ("か", "ka")], kana)
    yield made("①", {"①": "か"}, "ka", [Rule("か", "ka", others=["ga"])], kana)
    yield made("①", {"①": "か"}, "ko", [Rule("①", "ko", others=["ka", "go"]), ("か", "ka")], kana)
    # 18 characters; long texts
    yield made("①", {"①": "abcdefghijklmnopqr"}, "abcdefghijklmnopqr", edges=1)
    yield made("①", {"①": "x" * 18}, "k" * 198, [("x", "k" * 11)])
    yield made("2①2", {"①": "x" * 17 + "y"}, "2 " + "k" * 196 + " 2", [("x", "k" * 11), ("y", "k" * 9)], {"①": N, "2": N})
    yield made("①", {"①": "𐍈" * 18}, "𐍈" * 18)
    yield made("①", {"①": "x" * 15 + "\u2044" * 3}, "k" * 195 + "///", [("x", "k" * 13)], {"①": N})
    yield made("①", {"①": "か" * 18}, table=[("か" * n, "k" * n) for n in range(1, 17)])
    # several rows, some of them of tags without an edge
    several = {"Ⅷ": "VIII", "㍿": "か か", "㎞": ("km", COMPAT), "①": "1", "\U0010ffff": "x", "\0": "y"}
    yield made("Ⅷ㍿㎞①\U0010ffff\0", several, "VIIIka ka㎞1xy", [("か", "ka")], {"か": HIRA, " ": (ZS,)})


def fallbacks():
    for category in range(8):
        kinds = {"é": (category,)}
        yield Corner("é", [], kinds)
        yield Corner("é", [("é", "+ng", END)], kinds)
        yield Corner("é-", [("é", "+ng")], {**kinds, "-": DEAD})
    yield Corner(" ", [], {})
    yield Corner(" ", [], {" ": (ZS,)})
    for target in ("+m", "+n", "+g", "+r", "+a", "+", "+ma", "++m", "m+", "+ra", "+rab", ""):
        yield Corner("x-", [("x", target)], {"-": DEAD})
    yield Corner("", [], {})
    yield Corner("é€𐍈a", [], {})
    yield Corner("\u0eff\u1000", [], {})
    yield Corner("\ud7ff\ue000\U0010ffff", [], {})


def alternatives():
    yield Corner("ж", [Rule("ж", "a", others=["b"])], {"ж": (LETTER, 7)}, want="a", edges=1)
    yield Corner("ж", [Rule("ж", "a", others=["b", "b", "a", "c"]), Rule("ж", "a", others=["d", "c"]), Rule("ж", "b", others=["e"])], {})
    yield Corner("ж", [Rule("ж", "a"), Rule("ж", "a", NOT_START, others=["b"]), Rule("ж", None, others=["c"])], {})
    yield Corner("ж", [Rule("ж", "a"), Rule("ж", "a", codes=["abc"], others=["b"])], {})
    yield Corner("ж", [Rule("ж", "a"), Rule("ж", "a", codes=["abc"], others=["b"])], {}, code="abc")
    # by core the vowel is appended, by the whole text it is not
    core = [Rule("क", "k", others=["g", "h"]), Rule("क", "ka", 0, 0, (), None, ["x"])]
    yield Corner("क", core, {"क": SIX}, [A6], want="ka")
    yield Corner("क", [Rule("क", "h", others=["g"])], {"क": SIX}, [(6, A, "n")], want="hn")
    # a tail's text is not its target; the end target is
    yield Corner("x", [Rule("x", "+n", others=["m"])], {})
    yield Corner("x", [Rule("x", "+n", end="n", others=["m"])], {})
    yield Corner("xx", [Rule("x", "s", end="t", others=["u"])], {})
    yield Corner("xx", [Rule("x", "s", end="s", others=["u"])], {})
    yield Corner("xx", [Rule("x", "s", end="t"), Rule("x", "s2", end="t"), Rule("x", "s", end="t")], {})
    yield Corner("xx", [Rule("x", None, end="t", others=["u"])], {})
    # of every edge of the path, in order; of fallbacks too
    yield Corner("xyx", [Rule("x", "a", others=["b"]), Rule("y", "c", others=["d"]), Rule("xy", "e", others=["f", "g"])], {})
    yield Corner("x-", [Rule("x", "k", others=["b"])], {"-": DEAD})
    yield Corner("-x", [Rule("x", "k", START, others=["b"]), Rule("-", "k", others=["a"])], {"-": (OTHER, 0, VIRAMA)})
    yield Corner("x", [Rule("x", "", others=["b", ""])], {})


def readings():
    """with the choice a rule whose target is the edge's text lists its end-of-syllable target too, as 13, unless that text is listed
    already for the same characters; 12 is a rule's alternative, 14 the target of a rule whose end-of-syllable target is the text"""
    def rule(target, end=None, others=(), **more):
        return Rule("x", target, end=end, others=others, **more)

    none = []
    # the character is "k", and "t" where a syllable ends, which a text of one character never does
    yield from by_readings("x", [rule("k", "t")], {}, none, [(13, "t")], want="k")
    yield from by_readings("x", [rule("k")], {}, none, none, want="k")
    # as the table has it: the plus of a tail stays
    yield from by_readings("x", [rule("k", "+n")], {}, none, [(13, "+n")])
    # "ka" is "k" and a vowel: by the core "k" there are alternatives, with the vowel, and no reading; by "ka" itself there is one
    core = dict(kinds={"x": SIX}, vowel_rows=[A6], want="ka")
    yield from by_readings("x", [rule("k", "t", ["g"])], off=[(12, "ga")], on=[(12, "ga")], **core)
    yield from by_readings("x", [rule("k", "t"), rule("ka", "d", ["g"])], off=[(12, "g")], on=[(12, "g"), (13, "d")], **core)
    # behind the rule's own alternatives, and not again where it is one of them
    yield from by_readings("x", [rule("k", "t", ["a", "b"])], {}, [(12, "a"), (12, "b")], [(12, "a"), (12, "b"), (13, "t")])
    yield from by_readings("x", [rule("k", "t", ["a", "t"])], {}, [(12, "a"), (12, "t")], [(12, "a"), (12, "t")])
    # the edge has this text itself
    yield from by_readings("x", [rule("k", "k")], {}, none, none)
    # two rules, one reading or two, in the order of the rules
    yield from by_readings("x", [rule("k", "t"), rule("k", "t")], {}, none, [(13, "t")])
    yield from by_readings("x", [rule("k", "t"), rule("k", "d")], {}, none, [(13, "t"), (13, "d")])
    yield from by_readings("x", [rule("k", "d"), rule("k", "t")], {}, none, [(13, "d"), (13, "t")])
    # what one rule has listed, whether as a reading or as an alternative, a later one does not list again
    yield from by_readings("x", [rule("k", "t"), rule("k", others=["t"])], {}, [(12, "t")], [(13, "t")])
    yield from by_readings("x", [rule("k", others=["t"]), rule("k", "t")], {}, [(12, "t")], [(12, "t")])
    # the same of two rules that say the opposite of each other; that for "k" has the higher count
    k, t = rule("k", "t", count=1), rule("t", "k")
    yield from by_readings("x", [k, t], {}, [(14, "t")], [(13, "t")], want="k")
    yield from by_readings("x", [t, k], {}, [(14, "t")], [(14, "t")], want="k")
    # an empty text is a text: it is listed, once, and an edge may have it
    yield from by_readings("x", [rule("k", "")], {}, none, [(13, "")])
    yield from by_readings("x", [rule("k", ""), rule("k", "")], {}, none, [(13, "")])
    yield from by_readings("x", [rule("k", "", [""])], {}, [(12, "")], [(12, "")])
    yield from by_readings("x", [rule("", "t")], {}, none, [(13, "t")], want="")
    yield from by_readings("x", [rule("", "")], {}, none, none, want="")
    # no target, no reading
    yield from by_readings("x", [rule("k"), rule(None, "t")], {}, none, none)
    # another text's rule
    yield from by_readings("x", [rule("k", count=1), rule("d", "t", ["a"])], {}, none, none, want="k")
    # the second character ends a syllable: there the target is the other reading, as it always was
    yield from by_readings("xx", [rule("k", "t")], {}, [(14, "k")], [(13, "t"), (14, "k")], want="kt")
    yield from by_readings("xx", [rule("k", "t"), rule("t", "d")], {}, [(14, "k")], [(13, "t"), (14, "k"), (13, "d")], want="kt")
    # of each character its own: the first character's "t" keeps no other one's out
    yield from by_readings("xaxa", [rule("k", "t"), ("a", "a")], {}, none, [(13, "t"), (13, "t")], want="kaka")
    yield from by_readings("xyxy", [Rule("xy", "ka", end="ta"), rule("k", "t")], {}, [(14, "ka")], [(13, "ta"), (14, "ka")], want="kata")
    # a rule that is not valid here: of another language, or of another place in the word
    foreign = [rule("k"), rule("k", "t", codes=["abc"])]
    yield from by_readings("x", foreign, {}, none, none)
    yield from by_readings("x", foreign, {}, none, none, code="def")
    yield from by_readings("x", foreign, {}, none, [(13, "t")], code="abc")
    inside = [rule("k"), rule("k", "t", flags=NOT_START)]
    yield from by_readings("x", inside, {}, none, none)
    yield from by_readings("axa", [*inside, ("a", "a")], {}, none, [(13, "t")], want="aka")
    # the text of a tail is not the target: "+n" gives "n"; nor is a text that became small
    yield from by_readings("x", [rule("+n", "t")], {}, none, none, want="n")
    cased = dict(rows=[Rule("Ж", "ZH", end="S"), ("ж", "zh")], kinds={"Ж": L, "ж": L}, lower="ж")
    yield from by_readings("Жж", off=none, on=[(13, "S")], want="ZHzh", **cased)
    yield from by_readings("Жж", off=none, on=none, want="Zhzh", capitals=1, **cased)
    # what was doubled or put together is no rule's target
    yield from by_readings("っx", [rule("ka", "t")], {}, none, none, want="kka")
    # a decomposition's edge is asked like any other; the string inside it lists nothing
    kana = {c: HIRA for c in "っ①か"}
    yield from by_readings("xっ①", [("xっ", "s"), Rule("①", "ka", end="t"), ("か", "ka")], kana, none, [(13, "t")], want="ska", made={"①": "か"})
    yield from by_readings("①", [Rule("か", "ka", end="t")], kana, none, none, want="ka", made={"①": "か"})
    # a long one
    yield from by_readings("x", [rule("k", "t" * 64)], {}, none, [(13, "t" * 64)])


def readings_elsewhere():
    """the string, the path and all edges have no alternatives, and so no readings"""
    yield from by_readings("xx", [Rule("x", "k", end="t", others=["a"])], {}, [(12, "a"), (14, "k")], [(12, "a"), (13, "t"), (14, "k")], want="kt")


def reading_pairs():
    """two rules of one character, in both orders: what the first one's target "k", which the path has, its end-of-syllable target and its
    alternative can have to do with the second one's"""
    ends, others = (None, "", "k", "t"), ((), ("t",))
    for end, other, target2, end2, other2 in itertools.product(ends, others, (None, "", "k", "t"), ends, others):
        first, second = Rule("x", "k", 0, 1, (), end, other), Rule("x", target2, 0, 0, (), end2, other2)
        yield Corner("x", [first, second], {}, want="k", readings=1)
        yield Corner("x", [second, first], {}, want="k", readings=1)


def readings_again():
    """corners that are about alternatives and about ends of syllables, with readings"""
    for corner in itertools.chain(alternatives(), syllables()):
        corner.choices = 0, 0, 1
        yield corner


def letters():
    """every set of letters, letter by letter"""
    thai = {**{c: T for c in "กขอายx"}, "เ": (LETTER, THAI, PRE)}
    hira = {c: HIRA for c in "っかきゃ"}
    sign = {"क": SIX, "ि": (MARK, 6, SIGN)}
    for c in "abcdefghijklmnopqrstuvwxyzKA1":
        yield Corner("っか", [("か", c + "a")], hira)                                              # doubling
        yield Corner("เก", [("ก", c + "a"), ("เ", "e")], thai)                                     # a pre-vowel
        yield Corner("เกา", [("ก", "k" + c), ("เ\u2013า", "ao")], thai)                            # the Thai pattern
        yield Corner("กอข", [("ก", "a" + c), ("อ", "o"), ("ข", "k")], thai)                        # O ang, left and right
        yield Corner("กอข", [("ก", "k"), ("อ", "o"), ("ข", "k" + c)], thai)
        yield Corner("xยกา", [("ย", "u" + c), Rule("ก", "k", end="t"), ("า", "a")], thai)          # end of syllable, left and right
        yield Corner("ากา", [Rule("ก", "k", end="t"), ("า", c)], thai)
        yield Corner("きゃ", [("き", c + "i"), ("ゃ", "ya")], hira)                                # small ya
        yield Corner("かー", [("か", "k" + c)], {**hira, "ー": L})                                  # the long mark
        yield Corner("x-", [("x", "+" + c + "a")], {"-": DEAD})                                    # tails, and their fallbacks
        yield Corner("क", [("क", "k" + c)], {"क": SIX}, [A6])                                      # the vowel step's consonants
        for target in (c + "a", c + "o", c + "ka", c + "ko", c + "ya", c + "yoo", c + "y"):
            for kind in (A, AO):
                yield Corner("कि", [("क", target)], sign, [(6, kind, "a")])
        if c.islower():
            yield Corner("क", [("क", "h")], {"क": SIX}, [(6, A, c)])                               # a core's vowel
            yield Corner("क", [("क", "h")], {"क": SIX}, [(6, A, "a" + c)])


MOST = MOST_TARGET


def longest_edges():
    """targets, end-of-syllable targets and alternatives of 200 bytes"""
    # the longest text that an edge can have: 200, vowel 4, doubled 1, pre-vowel 200, e 1, small ya 200 for one, long mark 1
    want = "e" + "k" * (MOST + 1) + "aeio" + "e" * (MOST - 2) + "ky" + "a" * MOST
    assert len(want) == MOST_EDGE_TEXT
    every = {"เ": (OTHER, THAI, PRE), "っ": (OTHER, THAI), "ก": T, "ⲁ": COPT, "\u0300": (NONSPACING, HIRAGANA), "ゃ": HIRA, "ー": L}
    yield Corner("เっกⲁ\u0300ゃー", [("กⲁ", "k" * MOST), ("เ", "e" * (MOST - 2) + "ki"), ("ゃ", "y" + "a" * (MOST - 1))], every,
                 [(THAI, A, "aeio")], want=want)
    # the longest alternative: 200 and a vowel of 4
    yield Corner("क", [Rule("क", "k", others=["x" * MOST])], {"क": SIX}, [(6, A, "aeio")], want="kaeio", listed=[(12, "x" * MOST + "aeio")])
    # cores: 200 bytes, and on both sides of what was the most, and of 127
    for n in (64, 65, 127, 128, MOST - 1, MOST):
        yield Corner("क", [Rule("क", "k" * n, others=["g" * n])], {"क": SIX}, [(6, A, "ae")], want="k" * n + "ae", listed=[(12, "g" * n + "ae")])
    # each step by itself
    yield Corner("っか", [("か", "k" * MOST)], {c: HIRA for c in "っか"}, want="k" * (MOST + 1))
    yield Corner("っち", [("ち", "ch" + "i" * (MOST - 2))], {c: HIRA for c in "っち"}, want="tch" + "i" * (MOST - 2))
    yield Corner("きゃ", [("き", "k" * (MOST - 1) + "i"), ("ゃ", "y" + "a" * (MOST - 1))], {c: HIRA for c in "きゃ"}, want="k" * (MOST - 1) + "y" + "a" * (MOST - 1))
    yield Corner("かー", [("か", "k" * (MOST - 1) + "a")], {"か": HIRA, "ー": L}, want="k" * (MOST - 1) + "aa")
    yield Corner("ⲁ\u0300", [("ⲁ", "a" * MOST)], {"ⲁ": COPT, "\u0300": (NONSPACING, COPTIC)}, want="e" + "a" * MOST)
    thai = {"ก": T, "า": T, "อ": T, "เ": (LETTER, THAI, PRE), "\u0e48": TONE_MARK}
    yield Corner("เก", [("ก", "k" * MOST), ("เ", "e" * MOST)], thai, want="k" * MOST + "e" * MOST)
    yield Corner("เกา", [("ก", "k" * MOST), ("เ\u2013า", "a" * MOST)], thai, want="k" * MOST + "a" * MOST)
    yield Corner("กอก", [("ก", "a" * (MOST - 1) + "k"), ("อ", "o" * MOST)], thai)
    yield Corner("กก", [Rule("ก", "k", end="t" * MOST)], thai, want="k" + "t" * MOST)
    # what is looked for stands at the very end, or at the front
    for front in ("x", "1", "-"):
        for target in ("kya", "dya", "tika", "ka", "k", "ya-"):
            yield Corner("क", [("क", front * (MOST - len(target)) + target)], {"क": SIX}, [A6])
    yield Corner("x--", [("x", "q", END, 1), ("x", "p"), ("-", "1" * (MOST - 1) + "k")], {}, begins="p")
    yield Corner("x--", [("x", "q", END, 1), ("x", "p"), ("-", "1" * MOST)], {}, begins="q")
    yield Corner("-x", [("-", "1" * (MOST - 1) + "k"), ("x", "y", NOT_START)], {}, want="1" * (MOST - 1) + "ky")
    yield Corner("-x", [("-", "k" * (MOST - 1) + "1"), ("x", "y", START)], {}, want="k" * (MOST - 1) + "1y")
    yield Corner("x", [("x", "+" + "n" * (MOST - 1))], {}, want="+" + "n" * (MOST - 1))
    for capitals, shown in ((0, "ZH" * (MOST // 2)), (1, "Z" + "h" + "zh" * (MOST // 2 - 1))):
        yield Corner("Жж", [("Ж", "ZH" * (MOST // 2)), ("ж", "zh")], {"Ж": L, "ж": L}, want=shown + "zh", capitals=capitals, lower="ж")
    # texts that differ in their last byte alone
    x, y, z = ("x" * (MOST - 1) + c for c in "xyz")
    yield Corner("ж", [Rule("ж", x, others=[y, z, y, x]), Rule("ж", x, others=[z, x[:-1]])], {}, want=x, listed=[(12, y), (12, z), (12, x[:-1])])
    yield Corner("ж", [Rule("ж", y, others=["b"]), Rule("ж", x, 0, 1, (), None, ["a"])], {}, want=x, listed=[(12, "a")])
    yield from by_readings("x", [Rule("x", x, end=y, others=[z])], {}, [(12, z)], [(12, z), (13, y)])
    yield from by_readings("x", [Rule("x", x, end=x), Rule("x", x, end=z)], {}, [], [(13, z)])
    yield Corner("xx", [Rule("x", "s", end=y), Rule("x", z, end=y), Rule("x", y, end=y)], {})
    # decompositions: three times 200 bytes and 6, or 5 and a space, or slashes
    yield Corner("①", [("x", "k" * MOST)], {}, want="k" * 3 * MOST + "€€", made={"①": "xxx€€"})
    yield Corner("①2", [("x", "k" * MOST), ("y", "k" * 5)], {"①": N, "2": N}, want="k" * (3 * MOST + 5) + " 2", made={"①": "xyxx"})
    yield Corner("①", [("x", "k" * MOST)], {"①": N}, want="///" + "k" * 3 * MOST + "///", made={"①": "\u2044\u2044\u2044xxx\u2044\u2044\u2044"})


# words of several scripts
LINE_OF_WORDS = "कत ก \u0e48อก きゃっか เกา жж कित Жж р с ងយ "


def longer_texts():
    """one character more than was the most once; longer ones are in a list of their own (long_texts.py)"""
    yield Corner((LINE_OF_WORDS * 513)[:513], sample.RULES, sample.CLASSES, sample.VOWELS)


# what each group tells is seen in these modes: all edges, and the others in turn
TURNS = lambda k: (k % 3, 3)
GROUPS = {
    sample_results: lambda k: range(4), longest_and_most: lambda k: range(4), vowel_step: TURNS, word_boundaries: TURNS, rule_choice: TURNS,
    syllables: TURNS, expansion: TURNS, thai: TURNS, capitals: TURNS, decompositions: TURNS,
    decompositions_and_rules: TURNS, decompositions_and_words: TURNS, fallbacks: TURNS,
    alternatives: lambda k: (k % 2, 2), letters: lambda k: (3,), o_ang: TURNS, readings: lambda k: (2,), readings_elsewhere: lambda k: (0, 1, 3),
    reading_pairs: lambda k: (2,), readings_again: lambda k: (2,),
    # what came with targets of 200 bytes and longer texts
    longest_edges: lambda k: range(4), longer_texts: lambda k: range(4),
}


def checked(corner, built):
    """what is stated here must be what the oracle says"""
    got = string_of(corner.given(0), built[0])
    stated = corner.begins if corner.want is None else corner.want
    if got != corner.want and not (corner.want is None and got.startswith(stated)):
        raise SystemExit("%r: the oracle says %r, stated is %r" % (corner.text, got, stated))
    if corner.edges is not None and len(built[0].added) != corner.edges:
        raise SystemExit("%r: the oracle has %d edges, stated are %d" % (corner.text, len(built[0].added), corner.edges))
    path, listed = (read_listing(built[mode].output) for mode in (1, 2))
    others = [(edge.annotation, edge.text) for edge in listed[len(path):]]
    if corner.listed is not None and others != corner.listed:
        raise SystemExit("%r: the oracle lists %s, stated is %s" % (corner.text, others, corner.listed))


def check_elsewhere(program, corners):
    """readings change nothing but alternatives"""
    asked = [corner.given(mode) for corner in corners for mode in (0, 1, 3)]
    assert ask(program, asked) == ask(program, [given._replace(readings=0) for given in asked])


def main(program, path):
    corners = [(corner, modes) for group, modes in GROUPS.items() for corner in group()]
    check_elsewhere(program, [corner for corner, _ in corners])
    built = iter(ask(program, [corner.given(mode) for corner, _ in corners for mode in range(4)]))
    calls = []
    for k, (corner, modes) in enumerate(corners):
        answers = [next(built) for _ in range(4)]
        checked(corner, answers)
        for mode in modes(k):
            exact, more = answers[mode].lent(), (k + mode) % 4          # exactly what is needed, or a little more
            lent = Lent(exact.slots + 7 * more, exact.room + more, exact.output + more)
            calls.append(call(corner.given(mode), answers[mode], lent))
    outputs = {c.answer.output.hex() for c in calls}
    assert sample.LINE in outputs and sample.LINE_WITH_END in outputs
    callfile.write(path, calls)
    print("%d calls of %d corners" % (len(calls), len(corners)))


if __name__ == "__main__":
    main(*sys.argv[1:])
