"""What Debian's unicode-data and python3-unidecode say of characters. A package that is missing is installed when it is first
asked, and that is said."""
import bz2
import functools
import importlib
import pathlib
import re
import subprocess
import sys

from tables import *

CATEGORIES = {"L": LETTER, "Mn": NONSPACING, "Mc": MARK, "Me": MARK, "N": NUMBER, "Cf": CF, "Co": CO, "Zs": ZS}
# the five scripts that the format names, and numbers of our own
SCRIPTS = {"Thai": THAI, "Coptic": COPTIC, "Hiragana": HIRAGANA, "Katakana": KATAKANA, "Devanagari": DEVANAGARI, "Khmer": 6,
           "Cyrillic": 7, "Han": 8, "Gurmukhi": 9}
# tags of decompositions that give no edge; every other is a form: circle, wide, square and so on
TAGS = {"super": SUPER, "sub": SUB, "noBreak": NO_BREAK, "compat": COMPAT}
BASIC = 0xFFFF      # the last character of Unicode's first plane


def run(*command):
    try:
        return subprocess.run(command, capture_output=True, text=True)
    except FileNotFoundError:
        sys.exit("%s is missing; Debian's unicode-data and python3-unidecode are needed" % command[0])


@functools.cache
def folder(package, file):
    """where a Debian package keeps a file"""
    if run("dpkg", "-s", package).returncode:
        print("installing Debian's", package, file=sys.stderr)
        for step in (["apt-get", "update", "-q"], ["apt-get", "install", "-y", "-q", package]):
            done = run(*step)
            if done.returncode:
                sys.exit("%s failed:\n%s" % (" ".join(step), done.stderr))
    files = run("dpkg", "-L", package).stdout.split()
    return pathlib.Path(next(f for f in files if f.endswith("/" + file))).parent


def unicode_data(file):
    return folder("unicode-data", "UnicodeData.txt") / file


@functools.cache
def unidecoder():
    sys.path.append(str(folder("python3-unidecode", "unidecode/__init__.py").parent))
    return importlib.import_module("unidecode").unidecode


def unidecode(text):
    """the text in ASCII"""
    return unidecoder()(text)


def told(file):
    """what a file of ranges tells first of each character: its number, and the words"""
    for line in unicode_data(file).open(encoding="utf-8"):
        span, *words = (part.strip() for part in line.split("#")[0].split(";"))
        if words:
            first, _, last = span.partition("..")
            yield from ((number, words[0]) for number in range(int(first, 16), int(last or first, 16) + 1))


def scripts():
    """from each character's number to its script's name"""
    return dict(told("Scripts.txt"))


@functools.cache
def lower_case():
    """the numbers of Unicode's Lowercase: small letters, and what is written like them, as ª and ⅰ"""
    return {number for number, name in told("DerivedCoreProperties.txt") if name == "Lowercase"}


def lines():
    """the fields of each line of UnicodeData.txt whose number is a character's, with that one in place of the number"""
    for line in unicode_data("UnicodeData.txt").open(encoding="utf-8"):
        number, *fields = line.split(";")
        if scalar(int(number, 16)):
            yield chr(int(number, 16)), *fields


def characters(last=BASIC):
    """each character that has a line in UnicodeData.txt, up to the last, with name, general category and script's name"""
    script_of = scripts()
    for c, name, category, *_ in lines():
        if ord(c) <= last:
            yield c, name, category, script_of.get(ord(c))


def decomposed():
    """from each character with a decomposition to that one, Held"""
    found = {}
    for c, _, _, _, _, field, *_ in lines():
        if field:
            *tag, numbers = re.fullmatch(r"(?:<(\w+)> )?([0-9A-F ]+)", field).groups()
            found[c] = Held("".join(chr(int(number, 16)) for number in numbers.split()), TAGS.get(tag[0], FORM) if tag[0] else UNTAGGED)
    return found


def spelled(c, rows):
    """a character as those of its row, each of them likewise"""
    return "".join(spelled(x, rows) for x in rows[c]) if c in rows else c


def forms():
    """rows of a decomposition table, and the characters that get none: those whose row would hold too many characters, or one that
    no text may have"""
    rows = {c: held.characters for c, held in decomposed().items() if held.tag == FORM}
    made = {c: spelled(c, rows) for c in rows}
    unfit = [c for c, text in made.items() if len(text) > MOST_HELD or any(left_out(ord(x)) for x in text)]
    return {c: text for c, text in made.items() if c not in unfit}, unfit


def unihan(file, field):
    """from Han characters to a field of the Unihan database"""
    with bz2.open(unicode_data(file + ".txt.bz2"), "rt", encoding="utf-8") as lines:
        parts = (line.rstrip("\n").split("\t") for line in lines if "\t" + field + "\t" in line)
        return {chr(int(number[2:], 16)): value for number, _, value in parts}


def category_of(category):
    """the class table's category of a general category, such as Lo"""
    return CATEGORIES.get(category) or CATEGORIES.get(category[0], OTHER)


def flags_of(c, name, script):
    """a class row's flags, which the character's name tells, its place among the Thai, or Unicode's Lowercase"""
    thai = ord(c) if script == "Thai" else 0
    return (SIGN * ("VOWEL SIGN" in name) | VIRAMA * ("VIRAMA" in name or "COENG" in name) | VOCALIC * ("VOCALIC" in name)
            | TONE * (0x0E48 <= thai <= 0x0E4B) | PRE * (0x0E40 <= thai <= 0x0E44) | LOWER * (ord(c) in lower_case()))


def latin(c):
    """what unidecode makes of a character, as a target; empty where it knows nothing"""
    made = "".join(x for x in unidecode(c).strip() if " " <= x <= "~")[:MOST_TARGET]
    return "" if made == "[?]" else made
