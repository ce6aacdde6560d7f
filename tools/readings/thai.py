"""Thai by the Royal Thai General System, without marks: consonants with another reading at the end of a syllable, vowels
around their consonant. Vowels that are not written are not guessed, except in the words below."""
from tables import END, Rule

# reading, consonants, and what they become at the end of a syllable where that differs
CONSONANTS = [
    ("k", "ก", None), ("kh", "ขฃคฅฆ", "k"), ("ng", "ง", None), ("ch", "จฉชฌ", "t"), ("s", "ซศษส", "t"), ("y", "ญ", "n"),
    ("d", "ฎด", "t"), ("t", "ฏต", None), ("th", "ฐฑฒถทธ", "t"), ("n", "ณน", None), ("b", "บ", "p"), ("p", "ป", None),
    ("ph", "ผพภ", "p"), ("f", "ฝฟ", "p"), ("m", "ม", None), ("y", "ย", None), ("r", "ร", "n"), ("l", "ลฬ", "n"), ("w", "ว", None),
    ("h", "หฮ", None)]
VOWELS = {"ะ": "a", "ั": "a", "า": "a", "ำ": "am", "ิ": "i", "ี": "i", "ึ": "ue", "ื": "ue", "ุ": "u", "ู": "u", "เ": "e", "แ": "ae",
          "โ": "o", "ใ": "ai", "ไ": "ai", "อ": "o", "ฤ": "rue", "ฦ": "lue", "็": "", "์": "", "ๆ": "", "ฯ": "",
          "ัว": "ua", "ัย": "ai", "าย": "ai", "าว": "ao", "ิว": "io", "ุย": "ui", "อย": "oi", "วย": "uai", "รร": "an", "รรม": "am"}
# a vowel written before its consonant, what is written after it, and the reading
AROUND = [
    ("เ", "า", "ao"), ("เ", "าะ", "o"), ("เ", "ะ", "e"), ("เ", "็", "e"), ("เ", "็ว", "eo"), ("เ", "ว", "eo"), ("เ", "ย", "oei"),
    ("เ", "ิ", "oe"), ("เ", "อ", "oe"), ("เ", "อะ", "oe"), ("เ", "ีย", "ia"), ("เ", "ียะ", "ia"), ("เ", "ียว", "iao"),
    ("เ", "ือ", "uea"), ("เ", "ือย", "ueai"), ("แ", "ะ", "ae"), ("แ", "็", "ae"), ("แ", "ว", "aeo"), ("โ", "ะ", "o"),
    ("โ", "ย", "oi"), ("ไ", "ย", "ai")]
TONES = "่้๊๋"
ABOVE = "ิีึื"
# two consonants with one vowel: these first, then one of ร and ล
CLUSTERS = {"ก": "k", "ข": "kh", "ค": "kh", "ต": "t", "ป": "p", "ผ": "ph", "พ": "ph"}
# a silent ห before these
LED = {"ง": "ng", "ญ": "y", "น": "n", "ม": "m", "ย": "y", "ร": "r", "ล": "l", "ว": "w"}
WORDS = {
    "ถนน": "thanon", "ตำบล": "tambon", "จังหวัด": "changwat", "แขวง": "khwaeng", "สวน": "suan", "หลวง": "luang", "ตลาด": "talat",
    "สนาม": "sanam", "นคร": "nakhon", "มหานคร": "mahanakhon", "กรุงเทพ": "krungthep", "กรุงเทพฯ": "krungthep",
    "กรุงเทพมหานคร": "krungthepmahanakhon", "พหลโยธิน": "phahonyothin", "เพชรบุรี": "phetchaburi", "เพชร": "phet",
    "รัชดาภิเษก": "ratchadaphisek", "สีลม": "silom", "สาทร": "sathon", "ปทุมวัน": "pathumwan", "จตุจักร": "chatuchak",
    "ราชเทวี": "ratchathewi", "ราชบุรี": "ratchaburi", "นนทบุรี": "nonthaburi", "ปทุมธานี": "pathumthani", "ชลบุรี": "chonburi",
    "นครราชสีมา": "nakhonratchasima", "สมุทรปราการ": "samutprakan", "อยุธยา": "ayutthaya", "อยู่": "yu", "ประเทศ": "prathet",
    "เหนือ": "nuea", "เจริญ": "charoen", "เมตร": "met", "ศรี": "si", "สระ": "sa", "ทราย": "sai"}


def around():
    """a pattern is the vowel before, an en dash for the consonant, and what follows, three characters at most; a tone mark
    stands on the consonant, or on the sign above it"""
    for before, after, reading in AROUND:
        signs = 1 if after[0] in ABOVE else 0
        toned = [after[:signs] + tone + after[signs:] for tone in TONES] if after[0] != "็" else []
        for suffix in [after, *toned]:
            if len(suffix) <= 3:
                yield Rule(before + "\u2013" + suffix, reading)


def rules():
    made = [Rule(c, reading, end=last) for reading, letters, last in CONSONANTS for c in letters]
    made += [Rule(*row) for row in (VOWELS | WORDS).items()]
    made += [Rule(chr(0x0E50 + n), str(n)) for n in range(10)]
    made += around()
    # a consonant under a silencing mark
    made += [Rule(c + sign + "์", "") for _, letters, _ in CONSONANTS for c in letters for sign in ("", "ิ", "ุ")]
    made += [Rule(c + "ร์", "") for c in "ดตท"]
    made += [Rule(c + second, reading + last) for c, reading in CLUSTERS.items() for second, last in (("ร", "r"), ("ล", "l"))]
    made += [Rule(c + "ร", last, END, 1) for c, last in (("ก", "k"), ("ค", "k"), ("ต", "t"), ("ท", "t"))]
    made += [Rule("ห" + c, reading) for c, reading in LED.items()]
    return made
