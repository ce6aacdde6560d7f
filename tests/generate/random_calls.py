#!/usr/bin/env python3
"""Random calls, answered by the oracle. Small alphabets of each script meet random rules made from pieces of the text, so that
sources match, targets chain and the special characters stand beside each other. The last quarter of the calls is of worlds with readings,
where the texts of rules are often equal; only these choose readings. Behind them comes one more for each 20: worlds with targets of up to
200 bytes, where a text now and then has over 512 characters.

usage: random_calls.py ORACLE SEED COUNT FILE.calls[.xz]"""
import random
import string
import sys

from forms import MOST_FORM, SLASH, FORM, forms
from lower import lowered
from oracle import Call, Given, Lent, ask, call, callfile, refused
from tables import *

KHMER, GURMUKHI, LATIN = 6, 9, 0
EN_DASH = "\u2013"

# alphabets: characters and their usual classes
ALPHABETS = {
    "thai": {"ก": (LETTER, THAI), "ข": (LETTER, THAI), "น": (LETTER, THAI), "า": (LETTER, THAI), "อ": (LETTER, THAI),
             "เ": (LETTER, THAI, PRE), "แ": (LETTER, THAI, PRE), "ะ": (LETTER, THAI), "\u0e48": (NONSPACING, THAI, TONE), "ิ": (NONSPACING, THAI)},
    "coptic": {"ⲁ": (LETTER, COPTIC), "ⲃ": (LETTER, COPTIC), "ⲕ": (LETTER, COPTIC), "\u0300": (NONSPACING, 0), "ⲓ": (LETTER, COPTIC)},
    "hiragana": {"っ": (LETTER, HIRAGANA), "か": (LETTER, HIRAGANA), "き": (LETTER, HIRAGANA), "ち": (LETTER, HIRAGANA),
                 "ゃ": (LETTER, HIRAGANA), "ょ": (LETTER, HIRAGANA), "ー": (LETTER, 0), "ん": (LETTER, HIRAGANA)},
    "katakana": {"ッ": (LETTER, KATAKANA), "カ": (LETTER, KATAKANA), "キ": (LETTER, KATAKANA), "ャ": (LETTER, KATAKANA),
                 "ュ": (LETTER, KATAKANA), "ー": (LETTER, KATAKANA), "チ": (LETTER, KATAKANA)},
    "gurmukhi": {"\u0a71": (NONSPACING, GURMUKHI), "ਕ": (LETTER, GURMUKHI), "ਚ": (LETTER, GURMUKHI), "ਾ": (MARK, GURMUKHI, SIGN),
                 "\u0a4d": (NONSPACING, GURMUKHI, VIRAMA)},
    "devanagari": {"क": (LETTER, DEVANAGARI), "त": (LETTER, DEVANAGARI), "य": (LETTER, DEVANAGARI), "ऋ": (LETTER, DEVANAGARI, VOCALIC),
                   "ि": (MARK, DEVANAGARI, SIGN), "\u094d": (NONSPACING, DEVANAGARI, VIRAMA), "\u093c": (NONSPACING, DEVANAGARI),
                   "ः": (MARK, DEVANAGARI)},
    "khmer": {"ក": (LETTER, KHMER), "ង": (LETTER, KHMER), "យ": (LETTER, KHMER), "\u17d2": (NONSPACING, KHMER, VIRAMA),
              "ា": (MARK, KHMER, SIGN), "\u17be": (MARK, KHMER, MEDIAL), "\u17c9": (NONSPACING, KHMER, SUBJOINED)},
    "latin": {"a": (LETTER, LATIN), "b": (LETTER, LATIN), "Z": (LETTER, LATIN), "x": (LETTER, LATIN), "-": (OTHER,), "1": (NUMBER,)},
    "others": {"\u200d": (CF,), "\ue000": (CO,), "\u00a0": (ZS,), "\u3000": (ZS,), "٣": (NUMBER,), "€": (OTHER,), "𐍈": (LETTER, 11),
               "\u0301": (NONSPACING,), "\U0010ffff": (OTHER,), "\n": (OTHER,)},
}
VOWEL_ROWS = {"thai": THAI, "coptic": COPTIC, "hiragana": HIRAGANA, "katakana": KATAKANA, "gurmukhi": GURMUKHI, "devanagari": DEVANAGARI,
              "khmer": KHMER, "latin": 12, "others": 11}
# the scripts with most steps of their own come more often
LIKELY = [*ALPHABETS, "thai", "thai", "hiragana", "devanagari", "khmer"]
USUAL_VOWEL = ("gurmukhi", "devanagari", "khmer")

# what stands together in each script, and what its characters usually become
PHRASES = {
    "thai": ["กอน", "เกา", "ากอา", "าก\u0e48อะ", "แกะ", "เกาะ", "ขอก", "ากน"],
    "coptic": ["ⲁ\u0300", "ⲕⲓ\u0300", "ⲓ\u0300"],
    "hiragana": ["っか", "っち", "っきゃ", "きょー", "かー", "ちゃー"],
    "katakana": ["ッチャ", "キュー", "ッカ"],
    "gurmukhi": ["\u0a71ਕ", "\u0a71ਚ", "ਕ\u0a4dਚ"],
    "devanagari": ["क\u093cि", "क\u094dत", "क\u093c\u094dत", "तऋक", "कित", "यऋ"],
    "khmer": ["ងយ", "កយ", "ក\u17d2ង", "កង", "ក\u17c9"],
    "latin": ["x ", " x ", "-x", "a1"],
    "others": ["\u0301 ", "𐍈𐍈"],
}
USUAL = dict(zip("กขนาอเแะⲁⲃⲕⲓかきちゃょんカキャュチਕਚकतयऋកងយ",
                 "k k n a o e ae a a b k i ka ki chi ya yo n ka ki ya yu chi k ch k t y ri k ng y".split()))

TARGETS = """k t n ng ch y w m b d z c h ka ki ku ta na cha chi ya yu kya tya bya dya kyo kyaa byoo tika ga ro ko koo a i o e u aa ao ii ia
    K ZH Zh A Ka Ya KI 1 7 -1 ka- ya- 1ka- k- -ka +n +ng +na +m +ma +g +r +ra +ar +a + ++ +nn y v x q vi xi yi wi tsu ssi
    bcd xyz nn kk ngy ' ~""".split() + ["", "", " ", " k", "k ", " ka ", "  k", "k  ", " a", "a ", " i"]
# what the choice of capitals may change, and what it must leave; more of these in worlds with lower case
CAPITALS = "K ZH Zh A Ka Ya KI KKI KA KYO SHCH A1B 1ZH Z-H 1 N7 +N +NG +A zH".split()
# words of Thai lines, and such as begin with what the walk back behind O ang passes: only over a space it finds a consonant
WORDS = ["ก", "น", "ขน", "กก", "กา", "กอน", "ขอ", "เกา", "แก", "ก\u0e48อก", "อก", "ก\u00a0\u0e48อก", ""]
OPEN_WORDS = ["\u0e48อก", "\u0e48อน", "\u0e34อก", "\u0e48\u0e34อข", "\u0e48ออก", "\u0e48อกอน", "ะอก", "เอน"]
# what the walk passes where there is no rule for it, or one with an empty text
PASSED = "\u0e48\u0e34ะเ "
CODES = ["san", "asm", "ben", "guj", "kas", "pan", "hin", "abc"]

# characters that have decompositions, their usual classes, and what stands together with them
FORMS = {"①": (NUMBER,), "②": (NUMBER,), "½": (NUMBER,), "Ａ": (LETTER,), "ⓩ": (OTHER,), "㌔": (LETTER, KATAKANA), "\u2075": (NUMBER,)}
FORM_PHRASES = ["①②", "1①", "①1", "1½", "½①1", "Ａⓩ", "①x", "½ ", " ①"]
# with its rule three of these are 192 bytes, or 600; the other has none
LONG, FILLER = "\u3007", "="
# what a row may hold besides the characters of its world
HELD = "1122xkZq" + SLASH * 3 + "  é€\u0301"
USUAL_FORMS = {"①": "1", "②": "2", "½": "1" + SLASH + "2", "Ａ": "A", "ⓩ": "z", "㌔": "キロ", "\u2075": "5"}


# far more than most of these calls need; a long output would only make the definition slow
MANY_SLOTS, MUCH_ROOM = 104448, 101376
MANY_EDGES = 750


class World:
    """the tables and texts of one case"""
    MODES = (0, 1, 2, 2, 3, 3)
    FORMED = 0.6      # how often there are decompositions
    LONG_TARGET = "ka" * 32
    FULL = 0.1        # how often a row holds about as many bytes as a text may have

    def __init__(self, rng):
        self.rng = rng
        self.lined = self.chance(0.4)
        names = list(dict.fromkeys(["thai"] * self.lined + [rng.choice(LIKELY) for _ in range(rng.choice((1, 1, 2, 2, 3)))]))
        self.kinds = {}
        for name in names:
            part = list(ALPHABETS[name].items())
            self.kinds.update(rng.sample(part, rng.randint(min(3, len(part)), len(part))))
        self.phrases = [phrase for name in names for phrase in rng.sample(PHRASES[name], 2)]
        self.formed = self.chance(self.FORMED)
        if self.formed:
            self.kinds.update(rng.sample(list(FORMS.items()), rng.randint(1, 4)))
            self.kinds.update({"1": (NUMBER,)} if self.chance(0.5) else {})       # numbers beside numbers
            self.phrases += rng.sample(FORM_PHRASES, 2)
        self.vowels = self.vowel_rows(names)
        self.code = rng.choice(["", "", "", *CODES])
        self.text = self.some_text()
        for name in names:
            self.kinds.update((c, kind) for c, kind in ALPHABETS[name].items() if c in self.text)
        self.bend()
        self.cased = self.odd(0.5)
        self.lower = [c for c in self.kinds if c != " " and self.chance(0.7 if self.cased else 0.03)]
        self.forms = self.some_forms() if self.formed else {}
        self.rules = self.some_rules() + self.long_rules()

    def chance(self, p):
        return self.rng.random() < p

    def odd(self, p):
        """what is odd is rare in lines, where most of it keeps the walk from a consonant"""
        return self.chance(p / 4 if self.lined else p)

    def vowel_rows(self, names):
        rows = {}
        for name in names:
            if self.chance(0.95 if name in USUAL_VOWEL else 0.2):
                letters = self.rng.choice(["a", "a", "o", "aa", "an", "n", "aeio", "u"])
                rows[VOWEL_ROWS[name]] = (VOWEL_ROWS[name], self.rng.choice((A, A, AO)), letters)
        return list(rows.values())

    def some_words(self, least, most):
        return [self.rng.choice(OPEN_WORDS if self.chance(0.5) else WORDS) for _ in range(self.rng.randint(least, most))]

    def some_text(self):
        """words of a line; or letters of the alphabets, phrases, a few spaces, now and then a repeated stretch"""
        if self.lined and self.chance(0.9):
            words = self.some_words(2, 6)
            if self.formed and self.chance(0.5):
                words.insert(self.rng.randrange(len(words)), self.rng.choice([c for c in FORMS if c in self.kinds]))
            return " ".join(words)
        length = self.rng.choice((0, 1, 1, 2, 2, 3, 3, 4, 4, 5, 6, 7, 8, 10, 12, 16, 20))
        if self.chance(0.01):
            length = self.rng.randint(21, 60)
        letters = list(self.kinds) * 3 + [" "] * self.rng.choice((0, 0, 1, 3)) + ["q"] * self.chance(0.2)
        text = [self.rng.choice(letters) for _ in range(length)]
        while length > 1 and self.chance(0.5):
            phrase = self.rng.choice(self.phrases)
            at = self.rng.randrange(length)
            text[at:at + len(phrase)] = phrase
        if length > 4 and self.chance(0.3):
            text[length // 2:] = text[:length - length // 2]
        return "".join(text)[:60]

    def bend(self):
        """some characters get another class or none, so that every test meets its unlikely side"""
        rng = self.rng
        if self.chance(0.7):
            self.kinds[" "] = (ZS,)
        strange = self.odd(0.4)
        scripts = [0] + [kind[1] for kind in self.kinds.values() if len(kind) > 1]
        for c in [c for c in self.kinds if c != " "]:
            category, script, flags = (*self.kinds[c], 0, 0)[:3]
            if strange and self.chance(0.3):
                category = category if c.isascii() and c.isalpha() else rng.randrange(8)
            if strange and self.chance(0.3):
                script = rng.choice(scripts)
            if strange and self.chance(0.3):
                flags = rng.choice((0, 1 << rng.randrange(7), rng.randrange(128)))
            self.kinds[c] = (category, script, flags)
            if self.chance(0.05):
                del self.kinds[c]
        for c in "1-y":               # characters of targets may be classed too
            if self.chance(0.1):
                self.kinds[c] = (LETTER if c == "y" else rng.randrange(8), rng.choice(scripts), 0)

    def target(self, source=""):
        if self.lined and source and (source in PASSED or " " in source) and self.chance(0.6):
            return ""
        if source in USUAL and not self.odd(0.5):
            return USUAL[source].upper() if self.cased and self.chance(0.5) else USUAL[source]
        if self.cased and self.chance(0.6):
            return self.rng.choice(CAPITALS)
        if self.chance(0.03):
            return "".join(self.rng.choice("kgnyaio+- KA1") for _ in range(self.rng.choice((3, 5, 9, 64))))
        chosen = self.rng.choice(TARGETS)
        if chosen and self.chance(0.15):      # some other letter
            at = self.rng.randrange(len(chosen))
            chosen = chosen[:at] + self.rng.choice(string.ascii_lowercase) + chosen[at + 1:]
        return chosen

    def some_forms(self):
        """rows for most of the characters that usually have one, and for some others; none holds a character with a row"""
        has = [c for c in dict.fromkeys([*FORMS, *self.text]) if c != " " and (self.chance(0.8) if c in FORMS else self.odd(0.06))]
        free = [c for c in [*self.kinds, *self.text, *HELD] if c not in has]
        return {c: (self.held(c, free), self.rng.choice((FORM, FORM, FORM, FORM, FORM, FORM, self.rng.randrange(5)))) for c in has}

    def held(self, char, free):
        """what a row holds: a line, the usual, a phrase, a few characters, many, or about as many bytes as a text may have"""
        rng = self.rng
        line = "".join(c for c in " ".join(self.some_words(2, 4)) if c in free)[:MOST_FORM] if self.lined and self.chance(0.6) else ""
        if line:
            return line
        usual = USUAL_FORMS.get(char, "")
        if usual and self.chance(0.4) and set(usual) <= set(free):
            return usual
        if self.chance(self.FULL):
            return LONG * 3 + rng.choice((FILLER, FILLER, rng.choice(free))) * rng.randint(4, 8)
        if self.chance(0.2):
            phrase = [c for c in rng.choice(self.phrases) if c in free]
            if phrase:
                return "".join(phrase)
        return "".join(rng.choice(free) for _ in range(rng.choice((1, 1, 1, 2, 2, 3, 3, 4, 6, MOST_FORM))))

    def long_rules(self):
        return [Rule(LONG, self.LONG_TARGET)] if any(LONG in held for held, _ in self.forms.values()) else []

    def sources(self):
        """characters of the text, stretches of it, patterns around a character, and strangers; and the same of what rows hold"""
        rng, text = self.rng, self.text
        passed = [*self.forms, *PASSED] if self.lined else self.forms
        sources = [c for c in dict.fromkeys(text) if (self.chance(0.25) if c in passed else not self.odd(0.15))]
        for held in (held for held, _ in self.forms.values() if LONG not in held):
            sources += [c for c in dict.fromkeys(held) if c not in text and self.chance(0.5)]
            if len(held) > 1 and self.chance(0.3):
                at = rng.randrange(len(held) - 1)
                sources.append(held[at:at + rng.choice((2, 2, 3))])
        for _ in range(rng.choice((0, 0, 1, 2, 4))):
            if len(text) > 1:
                at = rng.randrange(len(text) - 1)
                sources.append(text[at:at + rng.choice((2, 2, 2, 3, 3, 4, 6, 16))])
        for at in range(1, len(text) - 1):
            if self.lined and text[at] == " " and self.chance(0.1):
                sources.append(text[at - rng.randint(0, 1):at + rng.randint(1, 3)])
            if self.kinds.get(text[at - 1], (0, 0, 0))[-1] & PRE and self.chance(0.4):
                sources.append(text[at - 1] + EN_DASH + text[at + 1:at + 1 + rng.randint(1, 3)])
        if self.chance(0.3):
            sources.append(rng.choice(list(self.kinds)) + rng.choice(list(self.kinds)))
        return [s[:16] for s in sources]

    def rule(self, source):
        rng = self.rng
        plain = not self.odd(0.45)
        flags = 0 if plain else rng.choice((0, 1 << rng.randrange(5), rng.randrange(32)))
        count = 0 if plain else rng.choice((0, 1, 1, 2, 255, 256, 65535))
        codes = rng.sample(CODES, rng.randint(1, 3)) if self.odd(0.15) else []
        if codes and self.code and self.chance(0.5):
            codes[0] = self.code
        target, end, others = self.texts(source)
        return Rule(source, target, flags, count, list(dict.fromkeys(codes)), end, others)

    def texts(self, source):
        """target, end-of-syllable target and alternatives of a rule"""
        target = None if self.odd(0.08) else self.target(source)
        end = self.target() if self.odd(0.25) else None
        return target, end, [self.target() for _ in range(self.rng.choice((0, 0, 0, 1, 2, 3)))]

    def some_rules(self):
        made = []
        for source in self.sources():
            made += [self.rule(source) for _ in range(self.rng.choice((1, 1, 1, 1, 2, 2, 3)))]
            if self.chance(0.1):      # the same target by another rule, with alternatives of its own
                made.append(Rule(source, "k", others=["x", "k"]))
        return made

    def choice(self):
        return self.rng.randint(2, 255) if self.chance(0.01) else self.rng.choice((0, 1))

    def readings(self):
        return 0

    def given(self):
        return Given(self.rng.choice(self.MODES), self.choice(), self.choice(), self.readings(), rules(*self.rules), lowered(classes(self.kinds), self.lower),
                     vowels(*self.vowels), forms(self.forms), self.code.encode(), self.text.encode())


class ReadWorld(World):
    """a world with readings: short texts, and a source has few texts for its rules' targets, end-of-syllable targets and alternatives, so
    that these are often equal, in one rule and in different ones"""
    MODES = (0, 1, 2, 2, 2, 2, 2, 2, 2, 3)
    FORMED = 0.2

    def some_text(self):
        return super().some_text()[:8]

    def some_rules(self):
        made = []
        for source in self.sources():
            self.few = [self.target(source), self.target(), self.target(), ""]
            made += [self.rule(source) for _ in range(self.rng.choice((1, 1, 2, 2, 3)))]
        return made

    def texts(self, source):
        rng = self.rng
        target = None if self.chance(0.05) else rng.choice([self.few[0]] * 3 + self.few)
        end = None if self.chance(0.2) else rng.choice(self.few)
        return target, end, [rng.choice(self.few) for _ in range(rng.choice((0, 0, 0, 1, 2)))]

    def readings(self):
        return self.choice()


class LongWorld(World):
    """a world with texts of rules about 64 bytes, which were the most once, about 200, and between; or now and then with a text of more
    than 512 characters, which the definition takes its time for"""
    LONG_TARGET = "ka" * (MOST_TARGET // 2)
    FORMED, FULL = 0.8, 0.5
    LENGTHS = 63, 64, 65, 66, 127, 128, MOST_TARGET - 1, MOST_TARGET, MOST_TARGET

    def some_text(self):
        text = super().some_text()
        self.stretched = bool(text) and self.chance(0.08)
        return (text * 640)[:self.rng.choice((512, 513, 514, 540))] if self.stretched else text

    def target(self, source=""):
        """its first or its last bytes are those of a usual one"""
        chosen = super().target(source)
        if self.stretched or self.chance(0.7):
            return chosen
        length = self.rng.choice((*self.LENGTHS, self.rng.randint(65, MOST_TARGET)))
        more = (self.rng.choice(TARGETS) or "k") * length
        return (chosen + more)[:length] if self.chance(0.5) else (more + chosen)[-length:]


def lent(rng, built):
    """what is lent: enough, exactly enough, or short of slots, of room or of output"""
    slots, room, output = exact = built.lent()
    way = rng.random()
    if way < 0.2:
        return exact
    if way < 0.75:
        return Lent(rng.choice((slots + rng.randrange(30), max(slots, MANY_SLOTS))), rng.choice((room + rng.randrange(9), max(room, MUCH_ROOM))), output + rng.randrange(9))
    less = [rng.randrange(n) if n else 0 for n in exact]
    if way < 0.84:
        return Lent(less[0], room, output)
    if way < 0.93:
        return Lent(slots, less[1], output)
    return Lent(rng.choice((slots, less[0])), rng.choice((room, less[1])), less[2])


def made(rng, case, built):
    """the call; it is refused where a choice is, and only there"""
    number = next((number for choice, number in ((case.capitals, 12), (case.o_ang, 15), (case.readings, 17)) if choice > 1), None)
    assert (built is None) == (number is not None), case
    return call(case, built, lent(rng, built)) if built else Call(case, Lent(12, 9, 9), refused(number, 0))


def cut(case, built):
    """the case, its text cut where it has more edges, those of decompositions' strings with them, than the prover's steps are enough for"""
    if not built or sum(1 + len(edge.inner) for edge in built.added) <= MANY_EDGES:
        return case
    return case._replace(text=case.text.decode()[:100].encode())


def generated(program, world, seed, count):
    rng = random.Random(seed)
    cases = [world(rng).given() for _ in range(count)]
    cases = [cut(case, built) for case, built in zip(cases, ask(program, cases))]
    return [made(rng, case, built) for case, built in zip(cases, ask(program, cases))]


def main(program, seed, count, path):
    seed, count = int(seed), int(count)
    worlds = (World, count - count // 4), (ReadWorld, count // 4), (LongWorld, count // 20)
    calls = [call for world, n in worlds for call in generated(program, world, seed, n)]
    callfile.write(path, calls)
    numbers = [c.answer.number for c in calls]
    print("%d calls: %s" % (len(calls), ", ".join("%d of %d" % (numbers.count(n), n) for n in sorted(set(numbers)))))


if __name__ == "__main__":
    main(*sys.argv[1:])
