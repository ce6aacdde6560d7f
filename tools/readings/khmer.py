"""Khmer by the system of UNGEGN, without marks: a vowel sign is read by the series of its consonant, and a consonant that closes
a syllable has no vowel."""
from tables import NOT_START, Rule

# consonants of the first series and of the second, with their readings
FIRST = dict(zip("កខចឆដឋណតថបផសហឡ", "k kh ch chh d th n t th b ph s h l".split()))
SECOND = dict(zip("គឃងជឈញឌឍទធនពភមយរលវ", "k kh ng ch chh nh d th t th n p ph m y r l v".split()))
# what a sign becomes after a consonant of the first series, and of the second
SIGNS = {
    "ា": ("a", "ea"), "ិ": ("e", "i"), "ី": ("ei", "i"), "ឹ": ("oe", "oe"), "ឺ": ("eu", "eu"), "ុ": ("o", "u"), "ូ": ("ou", "u"),
    "ួ": ("uo", "uo"), "ើ": ("aeu", "eu"), "ឿ": ("oea", "oea"), "ៀ": ("ie", "ie"), "េ": ("e", "e"), "ែ": ("ae", "e"),
    "ៃ": ("ai", "ey"), "ោ": ("ao", "ou"), "ៅ": ("au", "ov"), "ុំ": ("om", "um"), "ំ": ("am", "um"), "ាំ": ("am", "oam"),
    "ះ": ("ah", "eah"), "ុះ": ("oh", "uh"), "េះ": ("eh", "eh"), "ោះ": ("aoh", "uoh")}
# the vowel that is not written, and a letter that only carries vowels
INHERENT = ("a", "o")
BEARER = "អ"
# these take the series of a consonant that they stand under
WEAK = "ងញនមយរលវ"
# what closes a syllable; a plus marks it as a tail, which takes no vowel
CLOSING = {"kh": "k", "th": "t", "d": "t", "b": "p", "ph": "p"}
COENG, BANTOC = "\u17d2", "\u17cb"
INDEPENDENT = {"ឥ": "e", "ឦ": "ei", "ឧ": "o", "ឩ": "ou", "ឪ": "au", "ឫ": "rue", "ឬ": "rue", "ឭ": "lue", "ឮ": "lue", "ឯ": "ae",
               "ឰ": "ai", "ឱ": "ao", "ឲ": "ao", "ឳ": "au"}
WORDS = {"ភ្នំពេញ": "phnompenh", "រាជធានី": "reachtheani", "ខណ្ឌ": "khan", "ខេត្ត": "khet", "ភូមិ": "phum",
         "បាត់ដំបង": "battambang", "នគរ": "nokor", "អង្គរ": "angkor"}


def closing(reading):
    """the reading as a tail, where it can be one: one letter, or two that begin with n"""
    last = CLOSING.get(reading, reading)
    return "+" + last if len(last) == 1 or last.startswith("n") else None


def marks():
    """what is read by itself: digits, punctuation, silent marks, letters that are vowels, and a sign that follows two consonants"""
    made = [*INDEPENDENT.items(), (BEARER, INHERENT[0])]
    made += [(sign, first) for sign, (first, _) in SIGNS.items()]
    made += [(BEARER + sign, first) for sign, (first, _) in SIGNS.items()]
    made += [(chr(0x17E0 + n), str(n)) for n in range(10)]
    made += [(mark, "") for mark in (COENG, BANTOC, "៉", "៊", "៌", "៍", "៎", "៏", "័", "៑")]
    return made + [("។", "."), ("៕", "."), ("៖", ":"), ("ៗ", "")]


def rules():
    letters = FIRST | SECOND
    made = [*WORDS.items(), *letters.items(), *marks()]
    tails = {c: closing(reading) for c, reading in letters.items() if closing(reading)}
    for series, consonants in enumerate((FIRST, SECOND)):
        made += [(c + sign, reading + readings[series]) for c, reading in consonants.items() for sign, readings in SIGNS.items()]
        # a bantoc closes a syllable, and where no sign is written shortens its vowel
        made += [(c + last + BANTOC, reading + INHERENT[series] + tail[1:])
                 for c, reading in consonants.items() for last, tail in tails.items()]
    # two consonants of the first series; where the lower decides for the second, its own rules with a sign do
    pairs = [(c, under) for c in letters for under in letters if under in FIRST or under in WEAK and c in FIRST]
    made += [(c + COENG + under, letters[c] + letters[under]) for c, under in pairs]
    for c, tail in tails.items():
        made += [Rule(c, tail, NOT_START, 1), Rule(c + BANTOC, tail)]
    return made
