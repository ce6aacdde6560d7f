"""Hindi in the manner of Hunter, without marks over long vowels. Vowels that are written but not spoken within a word are kept,
as the engine keeps them; at a word's end they fall."""
from tables import END, Rule

CONSONANTS = dict(zip("कखगघङचछजझञटठडढणतथदधनपफबभमयरलळवशषसह",
                      "k kh g gh n ch chh j jh n t th d dh n t th d dh n p ph b bh m y r l l v sh sh s h".split()))
# independent vowels, and the signs of vowels
VOWELS = dict(zip("अआइईउऊऋएऐओऔऑऍ", "a a i i u u ri e ai o au o e".split()))
SIGNS = dict(zip("ािीुूृेैोौॉॅ", "a i i u u ri e ai o au o e".split()))
# letters with a dot below
DOTTED = {"क": "q", "ख": "kh", "ग": "g", "ज": "z", "ड": "r", "ढ": "rh", "फ": "f", "य": "y"}
NUKTA, VIRAMA, ANUSVARA = "\u093c", "\u094d", "\u0902"
# a plus marks a tail, which takes no vowel
OTHERS = {"ँ": "+n", ANUSVARA: "+n", "ः": "+h", NUKTA: "", VIRAMA: "", "ऽ": "'", "।": ".", "॥": ".", "ॐ": "om"}
# a word's last vowel falls after these and a stop under them too, as in मार्ग
BEFORE_STOP = "रनमलसशषङञण"
STOPS = "कखगघचछजझटठडढतथदधपफबभ"


def rules():
    made = [*CONSONANTS.items(), *VOWELS.items(), *SIGNS.items(), *OTHERS.items()]
    made += [(chr(0x0966 + n), str(n)) for n in range(10)]
    made += [(c + NUKTA, reading) for c, reading in DOTTED.items()]
    # the same letters, each as one character
    made += [(chr(0x0958 + n), reading) for n, reading in enumerate(DOTTED.values())]
    made += [(ANUSVARA + c, "m" + CONSONANTS[c]) for c in "पफबभ"]
    made += [("ज" + VIRAMA + "ञ", "gy")]
    made += [Rule(c + VIRAMA + stop, CONSONANTS[c] + CONSONANTS[stop], END, 1) for c in BEFORE_STOP for stop in STOPS]
    return made
