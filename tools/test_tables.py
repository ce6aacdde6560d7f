"""Tests of tools/tables.py and of the examples of docs/FORMAT.md: python3 -m unittest discover -s tools"""
import pathlib
import re
import sys
import unittest

ROOT = pathlib.Path(__file__).resolve().parents[1]
sys.path[:0] = [str(ROOT / "tools"), str(ROOT / "tests" / "generate")]
import smallest
import tables
from tables import *

SAMPLE = {"rules": (read_rules, lambda rows: rules(*rows)), "classes": (read_classes, classes), "vowels": (read_vowels, lambda rows: vowels(*rows)),
          "decompositions": (read_decompositions, decompositions)}
FULL = Rule("cd", "t", WHOLE | START, 258, ("abc", "xyz"), "e", ("v", ""))


class RoundTrips(unittest.TestCase):
    def test_the_sample_tables(self):
        for name, (read, write) in SAMPLE.items():
            table = (ROOT / "crates" / "romanize" / "data" / (name + ".bin")).read_bytes()
            self.assertEqual(write(read(table)), table)
            self.assertGreater(len(read(table)), 1)

    def test_empty_tables(self):
        empty = bytes.fromhex("0100000000")
        self.assertEqual([rules(), classes({}), vowels(), decompositions({}), listing()], [empty] * 5)
        for read in (read_rules, read_classes, read_vowels, read_decompositions, read_listing):
            self.assertEqual(len(read(empty)), 0)

    def test_rows_come_back_as_they_were(self):
        given = [Rule("b", " ~"), FULL, Rule("ce", None, NOT_END, 65535, (), "~"), Rule("\U0010ffff" * 16, "x" * MOST_TARGET, others=("y" * MOST_TARGET,) * 8)]
        self.assertEqual(read_rules(rules(*given)), given)
        kinds = {" ": (ZS, 0, 0), "Z": (LETTER, 127, 127), "z": (LETTER, 0, LOWER), "é": (LETTER, 6, 255), "\ud7ff": (CO, 6, 0), "\ue000": (MARK, 5, VIRAMA)}
        self.assertEqual(read_classes(classes(kinds)), kinds)
        every = [Vowel(n, n % 2, "aeio"[:1 + n % 4]) for n in range(1, 128)]
        self.assertEqual(read_vowels(vowels(*every)), every)
        held = {"\0": Held("\x01", UNTAGGED), "A": Held(" ", COMPAT), "\u0f00": Held("\u0eff\u1000", SUPER), "①": Held("1", FORM),
                "\ue000": Held("\ud7ff" * 18, NO_BREAK), "\U0010ffff": Held("\U0010fffe\uffff", SUB)}
        self.assertEqual(read_decompositions(decompositions(held)), held)
        self.assertEqual(read_decompositions(decompositions({"½": "1\u20442", "²": ("2", SUPER)})), {"½": ("1\u20442", FORM), "²": ("2", SUPER)})
        edges = [Edge(0, MOST_CHARACTERS, CORE, 2, "kha"), Edge(3, 4, ORIG, 0, "€"), Edge(0, 1, FALLBACK_MN, 0, ""), Edge(0, 1, EXPANDED, 0, "k" * MOST_EDGE_TEXT), Edge(1, 2, DECOMP, 0, " 1/2")]
        self.assertEqual(read_listing(listing(*edges)), edges)

    def test_writers_put_rows_in_order(self):
        table = rules(("ab", "1"), ("b", "2"), ("a", "3"), ("a", "4"), ("\U00010000", "5"), ("\uffff", "6"))
        self.assertEqual("".join(rule.target for rule in read_rules(table)), "341265")
        self.assertEqual(list(read_classes(classes({"b": (LETTER,), "a": (LETTER,)}))), ["a", "b"])
        self.assertEqual([row.script for row in read_vowels(vowels((9, A, "a"), (5, AO, "o")))], [5, 9])
        self.assertEqual(list(read_decompositions(decompositions({"②": "2", "①": "1"}))), ["①", "②"])

    def test_the_largest_tables(self):
        most = "c" * 16, "x" * MOST_TARGET, 31, 65535, ["abc"] * 8, "y" * MOST_TARGET, ["z" * MOST_TARGET] * 8
        sizes = len(rules(*[most] * MOST_RULES)), 5 + 6 * MOST_CLASSES, len(vowels(*((n, A, "aaaa") for n in range(1, 128))))
        sizes += len(decompositions({chr(0x3400 + k): "1" * 18 for k in range(MOST_DECOMPOSITIONS)})),
        page = (ROOT / "docs" / "FORMAT.md").read_text(encoding="utf-8")
        for size in sizes:
            self.assertIn(format(size, ","), page)


class WrittenFaults(unittest.TestCase):
    def refused(self, words, write, *given):
        with self.assertRaises(ValueError) as caught:
            write(*given)
        for word in words if isinstance(words, tuple) else (words,):
            self.assertIn(word, str(caught.exception))

    def test_rules(self):
        for words, rule in [
                (("0 source characters", "''"), Rule("", "t")), ("17 source", Rule("c" * 17, "t")), ("0xd800", Rule("\ud800", "t")),
                ("bits 0 to 4", Rule("c", "t", 128)), ("bits 0 to 4", Rule("c", None, 32)), ("bits 0 to 4", Rule("c", "t", -1)),
                ("65536", Rule("c", "t", 0, 65536)), ("9 language codes", Rule("c", "t", codes=["abc"] * 9)),
                ("'ab'", Rule("c", "t", codes=["ab"])), ("'abC'", Rule("c", "t", codes=["abc", "abC"])),
                (("target has 201 bytes", "'c'"), Rule("c", "x" * (MOST_TARGET + 1))), ("0x20", Rule("c", "\x1f")), ("0x7E", Rule("c", "é")),
                ("end-of-syllable target", Rule("c", "t", end="\x7f")), ("alternative", Rule("c", "t", others=["\t"])),
                ("9 alternatives", Rule("c", "t", others=["x"] * 9))]:
            self.refused(words, rules, ("b", "B"), rule)
        self.refused("8193 rows", rules, *[("c", "t")] * 8193)

    def test_classes(self):
        for words, char, kind in [
                ("one character", "ab", (LETTER,)), ("scalar", "\udfff", (LETTER,)), ("category 8", "é", (8,)), ("script 128", "é", (1, 128)),
                ("bits 0 to 7", "é", (1, 0, 256)), ("U+0020", " ", (OTHER,)), ("U+0020", " ", (ZS, 1)), ("U+0020", " ", (ZS, 0, 1)),
                ("U+0020", " ", (ZS, 0, LOWER)),
                ("A-Z and a-z", "a", (OTHER,)), ("A-Z and a-z", "Z", (MARK, 5))]:
            self.refused(words, classes, {"\0": (OTHER,), char: kind})
        self.refused("8193 rows", classes, {chr(0x4E00 + k): (LETTER,) for k in range(8193)})

    def test_vowels(self):
        for words, row in [("script 0", (0, A, "a")), ("script 128", (128, A, "a")), ("type 2", (6, 2, "a")), ("0 letters", (6, A, "")),
                           ("5 letters", (6, A, "aaaaa")), ("'A'", (6, A, "A")), ("already", (5, AO, "o"))]:
            self.refused(words, vowels, (5, A, "a"), row)

    def test_decompositions(self):
        for words, char, held in [
                ("one character", "ab", "1"), ("scalar", "\ud800", "1"), ("U+0020", " ", "1"), ("U+0020", " ", ("1", UNTAGGED)), ("tag 6", "②", ("2", 6)),
                ("tag -1", "②", ("2", -1)), ("0 characters", "②", ""), ("19 characters", "②", "2" * 19), ("0xdfff", "②", "2\udfff"),
                ("U+0F00", "②", "\u0f00"), ("U+28FF", "②", "2\u28ff"), ("U+AC00", "②", ("\uac00", SUPER)), ("U+2460, which has a row", "②", "2①"),
                ("U+2461, which has a row", "②", ("②", COMPAT))]:
            self.refused((words, repr(char)), decompositions, {"①": "1", char: held})
        self.refused("8193 rows", decompositions, {chr(0x4E00 + k): "1" for k in range(8193)})

    def test_listings(self):
        for words, edge in [("from 1 to 1", (1, 1, ROM, 0, "a")), ("from 0 to 4097", (0, MOST_CHARACTERS + 1, ROM, 0, "a")), ("annotation 0", (0, 1, 0, 0, "a")),
                            ("annotation 16", (0, 1, 16, 0, "a")), ("core length 1", (0, 1, DECOMP, 1, "a")), ("core length 1", (0, 1, ROM, 1, "a")), ("core length 2", (0, 1, CORE, 2, "a")),
                            ("607 bytes", (0, 1, ROM, 0, "a" * (MOST_EDGE_TEXT + 1))), ("surrogate", (0, 1, ROM, 0, "\ud800"))]:
            self.refused(words, listing, (0, 1, ROM, 0, "k"), edge)


class ReadFaults(unittest.TestCase):
    """a faulty row as the only one, after a good one and between two; the words that the error has, its number and its place"""
    def faulty(self, read, good, bad, number, within=0, words=""):
        """`within` is how far from the row's start the fault is"""
        for rows, row in (([bad], 1), ([good, bad], 2), ([good, bad, good], 2)):
            with self.assertRaises(Faulty) as caught:
                read(block(rows))
            found, place = caught.exception, 5 + (row - 1) * len(good) + within
            self.assertEqual((found.number, found.place, found.row), (number, place, row), bad)
            self.assertIn("offset %d, row %d: " % (place, row), str(found))
            self.assertIn(words, str(found))

    def test_headers(self):
        for read, number in ((read_rules, 20), (read_classes, 3), (read_vowels, 4), (read_decompositions, 13), (read_listing, None)):
            for table in (b"", b"\1\0\0\0", b"\0\0\0\0\0", b"\2\0\0\0\0", b"\1\0\0\0\1", b"\1\0\0\0\0\0", b"\1\1\0\0\1\0"):
                self.assertEqual(fault(read, table), (number, 0))

    def test_the_smallest_rule_tables(self):
        for words, table, number, place in [*smallest.small_tables(), *smallest.long_tables(), *smallest.large_tables()]:
            self.assertEqual(fault(read_rules, table), (number, place), words)

    def test_rule_rows(self):
        good = rule_row("b", "B")
        full = rule_row(*FULL)
        for bad, number, within, words in [
                (rule_row("c", "t", 128), 21, 2, "bit 7"), (rule_row("", "t"), 21, 5, "0 source characters"),
                (rule_row("c" * 17, "t"), 21, 5, "17 source characters"), (rule_row("\ud800", "t"), 22, 6, "0xd800"),
                (rule_row("c", "t", codes=["abc"] * 9), 21, 9, "9 language codes"), (rule_row("c", "t", codes=["a c"]), 22, 10, "'a c'"),
                (rule_row("c", "x" * (MOST_TARGET + 1)), 21, 10, "201 bytes"), (rule_row("c", "\x7f"), 23, 11, "0x7E"),
                (rule_row("c", end="\x80"), 23, 11, "end-of-syllable"), (rule_row("c", others=["\x1f"]), 23, 12, "alternative"),
                (rule_row("c", others=[""] * 9), 21, 10, "9 alternatives"), (b"\0\x09\0\0\0\1\x11\0\0\0\0", 22, 6, "0x110000"),
                (full[:1] + bytes([full[1] + 1]) + full[2:] + b"\0", 20, len(full), "left over"), (b"\0\0", 20, 2, "flags")]:
            self.faulty(read_rules, good, bad, number, within, words)
            self.faulty(read_rules, good, bad, number, within, "rule table: %s (%d): " % (FAULTS[number], number))
        for n in range(1, len(full)):
            self.assertEqual(fault(read_rules, block([good, full[:n]])), (20, 5 + len(good)))
        self.assertEqual(fault(read_rules, block([full, good])), (24, 5 + len(full)))
        self.assertEqual(fault(read_rules, block([rule_row("ca"), rule_row("c")])), (24, 5 + len(rule_row("ca"))))
        self.assertIsNone(fault(read_rules, block([good] * MOST_RULES)))

    def test_every_field_is_missed_where_it_would_stand(self):
        """a row that is cut, its length in step, lacks the field that the cut is before or in"""
        full = rule_row(*FULL)
        fields = [2, 3, 3, 5, 6, 6, 6, 9, 9, 9, 12, 13, 13, 13, 16, 16, 16, 19, 20, 21, 22, 23, 24, 25, 26]
        self.assertEqual(len(fields), len(full) - 2)
        for cut, field in enumerate(fields, 2):
            row = (cut - 2).to_bytes(2, "big") + full[2:cut]
            self.assertEqual(fault(read_rules, block([row])), (20, 5 + field), row)

    def test_class_rows(self):
        good = class_row("\0", OTHER)
        for bad, words in [(class_row("é", 8), "category 8"), (class_row("é", 1, 128), "script 128"),
                           (class_row(" ", OTHER), "U+0020"), (class_row(" ", ZS, 0, LOWER), "U+0020"), (class_row("q", OTHER), "a-z"), (class_row("\udc00", OTHER), "0xdc00"),
                           (b"\x11\0\0\0\0\0", "0x110000")]:
            self.faulty(read_classes, good, bad, 3, words=words)
        for n in range(1, 6):
            self.assertEqual(fault(read_classes, block([good, class_row("é", 1)[:n]])), (3, 11))
        self.assertEqual(fault(read_classes, block([good, good])), (3, 11))
        rows = [class_row(chr(0x4E00 + k), LETTER) for k in range(MOST_CLASSES + 1)]
        self.assertEqual(fault(read_classes, block(rows)), (3, 5 + 6 * MOST_CLASSES))

    def test_vowel_rows(self):
        good = vowel_row(5, A, "a")
        for bad, words in [(vowel_row(0, A, "a"), "script 0"), (vowel_row(128, A, "a"), "script 128"), (vowel_row(6, 2, "a"), "type 2"),
                           (vowel_row(6, A, ""), "0 letters"), (vowel_row(6, A, "aaaaa"), "5 letters"), (vowel_row(6, A, "{"), "'{'"),
                           (b"\x06", "cut short")]:
            if words != "cut short":
                self.faulty(read_vowels, good, bad, 4, words=words)
            self.assertEqual(fault(read_vowels, block([good, bad])), (4, 9))
        for script in (4, 5):
            self.assertEqual(fault(read_vowels, block([good, vowel_row(script, A, "a")])), (4, 9))

    def test_decomposition_rows(self):
        good = decomposition_row("①", "1")
        for bad, words in [(decomposition_row(" ", "1"), "U+0020"), (decomposition_row("②", "2", 6), "tag 6"), (decomposition_row("②", ""), "0 characters"),
                           (decomposition_row("②", "2" * 19), "19 characters"), (decomposition_row("②", [0xD800]), "0xd800"),
                           (decomposition_row(0x110000, "2"), "0x110000"), (decomposition_row("②", ["2", 0x0FFF]), "U+0FFF"),
                           (decomposition_row("②", "2", count=9), "cut short")]:
            if words != "cut short":
                self.faulty(read_decompositions, good, bad, 13, words=words)
            self.assertEqual(fault(read_decompositions, block([good, bad])), (13, 13))
        for n in range(1, 8):
            self.assertEqual(fault(read_decompositions, block([good, decomposition_row("②", "2")[:n]])), (13, 13))
        for char in "⑨①":
            self.assertEqual(fault(read_decompositions, block([decomposition_row("⑨", "9"), decomposition_row(char, "1")])), (13, 13))
        rows = [decomposition_row(chr(0x4E00 + k), "1") for k in range(MOST_DECOMPOSITIONS + 1)]
        self.assertIsNone(fault(read_decompositions, block(rows[:-1])))
        self.assertEqual(fault(read_decompositions, block(rows)), (13, 5 + 8 * MOST_DECOMPOSITIONS))

    def test_a_decomposition_that_holds_a_character_with_a_row(self):
        """rows a to b, b to something; the rows after the first that is wrong by itself are not there"""
        first = decomposition_row("①", "②")
        for rows, place in [
                ([decomposition_row("①", "①")], 5), ([first, decomposition_row("②", "2", UNTAGGED)], 5), ([decomposition_row("①", "1"), decomposition_row("②", "①")], 13),
                ([first, decomposition_row("②", "2"), decomposition_row("③", "3", 6)], 5), ([first, decomposition_row("②", "2", 6)], 13),
                ([first, decomposition_row("②", [0x0F00])], 13), ([first, decomposition_row("①", "1"), decomposition_row("②", "2")], 13),
                ([decomposition_row("①", "12③"), decomposition_row("②", "2"), decomposition_row("③", "3")], 5)]:
            self.assertEqual(fault(read_decompositions, block(rows)), (13, place), rows)
        self.assertIsNone(fault(read_decompositions, block([first])))
        self.assertEqual(fault(read_decompositions, block([decomposition_row("A", "a"), first, decomposition_row("②", "2")])), (13, 13))

    def test_listing_rows(self):
        good = edge_row(0, 1, ROM, 0, "k")
        for bad, words in [(edge_row(2, 1, ROM, 0, "k"), "from 2 to 1"), (edge_row(0, 1, 16, 0, "k"), "annotation 16"),
                           (edge_row(0, 1, ROM, 1, "k"), "core length"), (b"\0\7\0\0\0\1\1\0\xff", "utf-8"), (b"\0\5\0\0\0\1\1", "cut short")]:
            self.faulty(read_listing, good, bad, None, words=words)


class Examples(unittest.TestCase):
    """docs/FORMAT.md: each expression in Python makes the bytes of the hex below it, and these are read back to the same"""
    READERS = {"rules": read_rules, "classes": read_classes, "vowels": read_vowels, "decompositions": read_decompositions, "listing": read_listing}

    @classmethod
    def setUpClass(cls):
        page = (ROOT / "docs" / "FORMAT.md").read_text(encoding="utf-8")
        cls.found = re.findall(r"```python\n(.*?)\n```\n\n```hex\n(.*?)```", page, re.S)

    @staticmethod
    def lines(text):
        """bytes of a line, and what it says of them"""
        for line in text.splitlines():
            data, _, said = line.partition("  ")
            yield bytes.fromhex(data), said.strip()

    def test_there_is_one_of_each(self):
        self.assertEqual([code.split("(")[0] for code, _ in self.found], list(self.READERS))

    def test_the_bytes(self):
        for code, text in self.found:
            made = eval(code, vars(tables))
            self.assertEqual(b"".join(data for data, _ in self.lines(text)), made, code)
            name = code.split("(")[0]
            back = self.READERS[name](made)
            self.assertEqual(getattr(tables, name)(*([back] if isinstance(back, dict) else back)), made)

    def test_offsets_lengths_and_characters(self):
        for _, text in self.found:
            at = 0
            for data, said in self.lines(text):
                self.assertTrue(said, data)
                for offset in re.findall(r"offset (\d+):", said):
                    self.assertEqual(int(offset), at, said)
                for length in re.findall(r"(\d+) bytes follow", said):
                    self.assertEqual(int.from_bytes(data, "big"), int(length), said)
                for number, char in re.findall(r"U\+([0-9A-F]{4})(?: ([^\x00-\x7f]+))?", said):
                    self.assertIn(bytes.fromhex("00" + number), data)
                    self.assertIn(char, ("", chr(int(number, 16))))
                at += len(data)

    def test_what_would_be_refused(self):
        table = eval(self.found[0][0], vars(tables))
        self.assertEqual(fault(read_rules, block([table[5:27], table[40:], table[27:40]])), (24, 40))
        self.assertEqual(fault(read_classes, block([class_row(" ", OTHER)])), (3, 5))
        held = eval(self.found[3][0], vars(tables))
        self.assertEqual(fault(read_decompositions, block([held[5:-3], three("½")])), (13, 27))

    def test_the_listing_is_the_sample_programs(self):
        self.assertEqual(eval(self.found[4][0], vars(tables)).hex(), (ROOT / "crates" / "sample" / "stdout").read_text().strip())


if __name__ == "__main__":
    unittest.main()
