"""What tools/unidata.py makes of Debian's unicode-data; skipped where that is not installed."""
import unittest

import test_runs
import unidata
from tables import COMPAT, FORM, LOWER, NO_BREAK, PRE, SUB, SUPER, UNTAGGED, decompositions, read_decompositions


@unittest.skipUnless(test_runs.installed("unicode-data"), "unicode-data is missing: tools/make_tables installs it")
class Flags(unittest.TestCase):
    def flags(self, wanted):
        """the flags of a character by its line in UnicodeData.txt"""
        return next(unidata.flags_of(c, name, script) for c, name, _, script in unidata.characters() if c == wanted)

    def test_a_small_letter_is_lower_case(self):
        for c in "zжßω":
            self.assertEqual(self.flags(c), LOWER, c)

    def test_so_is_what_is_no_small_letter_by_its_category(self):
        for c in "ª\u2170":
            self.assertEqual(self.flags(c), LOWER, c)

    def test_nothing_else_is(self):
        for c in "ZЖ\u01c5\u2160あ1 ":
            self.assertEqual(self.flags(c), 0, c)
        self.assertEqual(self.flags("เ"), PRE)


@unittest.skipUnless(test_runs.installed("unicode-data"), "unicode-data is missing: tools/make_tables installs it")
class Forms(unittest.TestCase):
    @classmethod
    def setUpClass(cls):
        cls.rows, cls.unfit = unidata.forms()

    def test_circled_fullwidth_and_others(self):
        for c, text in (("①", "1"), ("Ａ", "A"), ("½", "1\u20442"), ("\u3000", " "), ("ｶ", "カ"), ("㎏", "kg"), ("\U0001f130", "A")):
            self.assertEqual(self.rows[c], text)

    def test_other_tags_have_no_row(self):
        for c in "²₂\u00a0㈱é\u1160":
            self.assertNotIn(c, self.rows)
        tags = unidata.decomposed()
        self.assertEqual([tags[c].tag for c in "é²₂\u00a0㈱①"], [UNTAGGED, SUPER, SUB, NO_BREAK, COMPAT, FORM])

    def test_what_a_row_holds_has_no_row(self):
        self.assertEqual(unidata.decomposed()["\u3395"].characters, "\u03bc\u2113")
        self.assertEqual((self.rows["\u2113"], self.rows["\u3395"]), ("l", "\u03bcl"))
        self.assertEqual(unidata.spelled("c", {"c": "abd", "b": "xy", "y": "z"}), "axzd")

    def test_a_table_is_made_of_them(self):
        self.assertEqual(len(read_decompositions(decompositions(self.rows))), len(self.rows))
        self.assertEqual((len(self.rows["\ufdfa"]), self.unfit), (18, []))


if __name__ == "__main__":
    unittest.main()
