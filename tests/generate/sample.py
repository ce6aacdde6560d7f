"""Document 01's sample table and its results."""
import pathlib
import sys

sys.path.insert(0, str(pathlib.Path(__file__).resolve().parents[2] / "tools"))
from lower import lowered
from tables import *

KHMER, CYRILLIC = 6, 7

RULES = rules(
    ("क", "k"), ("त", "t"), ("\u093f", "i"), ("\u094d", ""),
    ("ង", "ng"), ("ក", "k"), ("យ", "y"),
    ("っ", "tsu"), ("か", "ka"), ("ち", "chi"), ("き", "ki"), ("ゃ", "ya"),
    ("เ", "e"), ("ก", "k"), ("า", "a"), ("อ", "o"), ("เ\u2013า", "ao"),
    ("Ж", "ZH"), ("ж", "zh"), ("ж", "j", START, 1), ("ж", "dj", START, 1), ("р", "+ng"), ("с", "+ar"))

LETTERS = {DEVANAGARI: "कत", KHMER: "ងកយ", HIRAGANA: "っかちきゃ", THAI: "กาอ", CYRILLIC: "Жжрс", 0: "ー"}

CLASSES = classes({
    **{c: (LETTER, script) for script, letters in LETTERS.items() for c in letters},
    "\u093f": (MARK, DEVANAGARI, SIGN),
    "\u094d": (NONSPACING, DEVANAGARI, VIRAMA),
    "\u0e48": (NONSPACING, THAI, TONE),
    "เ": (LETTER, THAI, PRE),
    " ": (ZS,),
})

# the same, and ж is lower case
CASED_CLASSES = lowered(CLASSES, "ж")

VOWELS = vowels((DEVANAGARI, A, "a"), (KHMER, A, "a"))

# document 01 has none of these; by them ①ＡＢＣ is 1ABC
DECOMPOSITIONS = decompositions({"①": "1", "Ａ": "A", "Ｂ": "B", "Ｃ": "C"})

# text, code, string
RESULTS = [
    ("कत", "", "kat"), ("कत", "san", "kata"), ("कित", "", "kit"), ("क\u094dत", "", "kta"), ("ងយ", "", "ngya"), ("កយ", "", "kaya"),
    ("っか", "", "kka"), ("っち", "", "tchi"), ("きゃ", "", "kya"), ("かー", "", "kaa"), ("เกา", "", "kao"), ("เก", "", "ke"),
    ("жж", "", "jzh"), ("Жж", "", "ZHzh"), ("р", "", "ng"), ("с", "", "+ar"),
    ("ก \u0e48อก", "", "k ok"), ("\u0e48อก", "", "k"),
]

# strings of Жж under the cased classes, by capitals
CASED_RESULTS = ["ZHzh", "Zhzh"]

# strings with O ang by its choice: text, off, on
O_ANG_RESULTS = [
    ("ก \u0e48อก", "k ok", "k k"), ("ก\u0e48อก", "kok", "kok"), ("ก ก \u0e48อก", "k k ok", "k k k"), ("ก  \u0e48อก", "k  ok", "k  k"),
    ("\u0e48 ก\u0e48อก", " kok", " kok"),
]

# the sample program's output in mode 1, with and without a line end
LINE = "010000001300080000000102016b61000700010002010074"
LINE_WITH_END = "010000001c00080000000102016b610007000100020100740007000200030b000a"
