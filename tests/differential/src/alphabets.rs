//! The characters, phrases and targets of the random calls: those of tests/generate/random_calls.py.

use crate::rows::Class;

const OTHER: u8 = 0;
pub const LETTER: u8 = 1;
const NONSPACING: u8 = 2;
const MARK: u8 = 3;
pub const NUMBER: u8 = 4;
const CF: u8 = 5;
const CO: u8 = 6;
pub const ZS: u8 = 7;

const THAI: u8 = 1;
const COPTIC: u8 = 2;
const HIRAGANA: u8 = 3;
const KATAKANA: u8 = 4;
const DEVANAGARI: u8 = 5;
const KHMER: u8 = 6;
const GURMUKHI: u8 = 9;

const SIGN: u8 = 1;
const MEDIAL: u8 = 2;
const SUBJOINED: u8 = 4;
const VIRAMA: u8 = 8;
const VOCALIC: u8 = 16;
const TONE: u8 = 32;
/// written before its consonant
pub const PRE: u8 = 64;
pub const LOWER: u8 = 128;

pub const EN_DASH: char = '\u{2013}';

pub struct Alphabet {
    pub kinds: &'static [(char, Class)],
    pub phrases: &'static [&'static str],
    /// the script of its vowel row, and whether it usually has one
    pub vowels: (u8, bool),
}

const fn letter(c: char, script: u8) -> (char, Class) {
    (c, (LETTER, script, 0))
}
const fn mark(c: char, category: u8, script: u8, flags: u8) -> (char, Class) {
    (c, (category, script, flags))
}

pub static THAI_ALPHABET: Alphabet = Alphabet {
    kinds: &[
        letter('ก', THAI),
        letter('ข', THAI),
        letter('น', THAI),
        letter('า', THAI),
        letter('อ', THAI),
        mark('เ', LETTER, THAI, PRE),
        mark('แ', LETTER, THAI, PRE),
        letter('ะ', THAI),
        mark('\u{0e48}', NONSPACING, THAI, TONE),
        mark('\u{0e34}', NONSPACING, THAI, 0),
    ],
    phrases: &["กอน", "เกา", "ากอา", "าก\u{0e48}อะ", "แกะ", "เกาะ", "ขอก", "ากน"],
    vowels: (THAI, false),
};
pub static COPTIC_ALPHABET: Alphabet = Alphabet {
    kinds: &[
        letter('ⲁ', COPTIC),
        letter('ⲃ', COPTIC),
        letter('ⲕ', COPTIC),
        mark('\u{0300}', NONSPACING, 0, 0),
        letter('ⲓ', COPTIC),
    ],
    phrases: &["ⲁ\u{0300}", "ⲕⲓ\u{0300}", "ⲓ\u{0300}"],
    vowels: (COPTIC, false),
};
pub static HIRAGANA_ALPHABET: Alphabet = Alphabet {
    kinds: &[
        letter('っ', HIRAGANA),
        letter('か', HIRAGANA),
        letter('き', HIRAGANA),
        letter('ち', HIRAGANA),
        letter('ゃ', HIRAGANA),
        letter('ょ', HIRAGANA),
        letter('ー', 0),
        letter('ん', HIRAGANA),
    ],
    phrases: &["っか", "っち", "っきゃ", "きょー", "かー", "ちゃー"],
    vowels: (HIRAGANA, false),
};
pub static KATAKANA_ALPHABET: Alphabet = Alphabet {
    kinds: &[
        letter('ッ', KATAKANA),
        letter('カ', KATAKANA),
        letter('キ', KATAKANA),
        letter('ャ', KATAKANA),
        letter('ュ', KATAKANA),
        letter('ー', KATAKANA),
        letter('チ', KATAKANA),
    ],
    phrases: &["ッチャ", "キュー", "ッカ"],
    vowels: (KATAKANA, false),
};
pub static GURMUKHI_ALPHABET: Alphabet = Alphabet {
    kinds: &[
        mark('\u{0a71}', NONSPACING, GURMUKHI, 0),
        letter('ਕ', GURMUKHI),
        letter('ਚ', GURMUKHI),
        mark('\u{0a3e}', MARK, GURMUKHI, SIGN),
        mark('\u{0a4d}', NONSPACING, GURMUKHI, VIRAMA),
    ],
    phrases: &["\u{0a71}ਕ", "\u{0a71}ਚ", "ਕ\u{0a4d}ਚ"],
    vowels: (GURMUKHI, true),
};
pub static DEVANAGARI_ALPHABET: Alphabet = Alphabet {
    kinds: &[
        letter('क', DEVANAGARI),
        letter('त', DEVANAGARI),
        letter('य', DEVANAGARI),
        mark('ऋ', LETTER, DEVANAGARI, VOCALIC),
        mark('\u{093f}', MARK, DEVANAGARI, SIGN),
        mark('\u{094d}', NONSPACING, DEVANAGARI, VIRAMA),
        mark('\u{093c}', NONSPACING, DEVANAGARI, 0),
        mark('\u{0903}', MARK, DEVANAGARI, 0),
    ],
    phrases: &["क\u{093c}\u{093f}", "क\u{094d}त", "क\u{093c}\u{094d}त", "तऋक", "क\u{093f}त", "यऋ"],
    vowels: (DEVANAGARI, true),
};
pub static KHMER_ALPHABET: Alphabet = Alphabet {
    kinds: &[
        letter('ក', KHMER),
        letter('ង', KHMER),
        letter('យ', KHMER),
        mark('\u{17d2}', NONSPACING, KHMER, VIRAMA),
        mark('\u{17b6}', MARK, KHMER, SIGN),
        mark('\u{17be}', MARK, KHMER, MEDIAL),
        mark('\u{17c9}', NONSPACING, KHMER, SUBJOINED),
    ],
    phrases: &["ងយ", "កយ", "ក\u{17d2}ង", "កង", "ក\u{17c9}"],
    vowels: (KHMER, true),
};
pub static LATIN_ALPHABET: Alphabet = Alphabet {
    kinds: &[
        letter('a', 0),
        letter('b', 0),
        letter('Z', 0),
        letter('x', 0),
        mark('-', OTHER, 0, 0),
        mark('1', NUMBER, 0, 0),
    ],
    phrases: &["x ", " x ", "-x", "a1"],
    vowels: (12, false),
};
pub static OTHERS_ALPHABET: Alphabet = Alphabet {
    kinds: &[
        mark('\u{200d}', CF, 0, 0),
        mark('\u{e000}', CO, 0, 0),
        mark('\u{00a0}', ZS, 0, 0),
        mark('\u{3000}', ZS, 0, 0),
        mark('٣', NUMBER, 0, 0),
        mark('€', OTHER, 0, 0),
        letter('𐍈', 11),
        mark('\u{0301}', NONSPACING, 0, 0),
        mark('\u{10ffff}', OTHER, 0, 0),
        mark('\n', OTHER, 0, 0),
    ],
    phrases: &["\u{0301} ", "𐍈𐍈"],
    vowels: (11, false),
};

/// the scripts with most steps of their own come more often
pub static LIKELY: [&Alphabet; 14] = [
    &THAI_ALPHABET,
    &COPTIC_ALPHABET,
    &HIRAGANA_ALPHABET,
    &KATAKANA_ALPHABET,
    &GURMUKHI_ALPHABET,
    &DEVANAGARI_ALPHABET,
    &KHMER_ALPHABET,
    &LATIN_ALPHABET,
    &OTHERS_ALPHABET,
    &THAI_ALPHABET,
    &THAI_ALPHABET,
    &HIRAGANA_ALPHABET,
    &DEVANAGARI_ALPHABET,
    &KHMER_ALPHABET,
];

/// what characters usually become
pub const USUAL: [(char, &str); 32] = [
    ('ก', "k"),
    ('ข', "k"),
    ('น', "n"),
    ('า', "a"),
    ('อ', "o"),
    ('เ', "e"),
    ('แ', "ae"),
    ('ะ', "a"),
    ('ⲁ', "a"),
    ('ⲃ', "b"),
    ('ⲕ', "k"),
    ('ⲓ', "i"),
    ('か', "ka"),
    ('き', "ki"),
    ('ち', "chi"),
    ('ゃ', "ya"),
    ('ょ', "yo"),
    ('ん', "n"),
    ('カ', "ka"),
    ('キ', "ki"),
    ('ャ', "ya"),
    ('ュ', "yu"),
    ('チ', "chi"),
    ('ਕ', "k"),
    ('ਚ', "ch"),
    ('क', "k"),
    ('त', "t"),
    ('य', "y"),
    ('ऋ', "ri"),
    ('ក', "k"),
    ('ង', "ng"),
    ('យ', "y"),
];

pub const TARGETS: [&str; 113] = [
    "k", "t", "n", "ng", "ch", "y", "w", "m", "b", "d", "z", "c", "h", "ka", "ki", "ku", "ta", "na", "cha", "chi",
    "ya", "yu", "kya", "tya", "bya", "dya", "kyo", "kyaa", "byoo", "tika", "ga", "ro", "ko", "koo", "a", "i", "o", "e",
    "u", "aa", "ao", "ii", "ia", "K", "ZH", "Zh", "A", "Ka", "Ya", "KI", "1", "7", "-1", "ka-", "ya-", "1ka-", "k-",
    "-ka", "+n", "+ng", "+na", "+m", "+ma", "+g", "+r", "+ra", "+ar", "+a", "+", "++", "+nn", "y", "v", "x", "q", "vi",
    "xi", "yi", "wi", "tsu", "ssi", "bcd", "xyz", "nn", "kk", "ngy", "'", "~", "", "", " ", " k", "k ", " ka ", "  k",
    "k  ", " a", "a ", " i", "kh", "kha", "sha", "tt", "ngo", "yo", "oo", "ae", "iu", "kyi", "gya", "+k", "n-", "K1",
];

/// characters that have decompositions, and their usual classes
pub static FORM_KINDS: [(char, Class); 7] = [
    mark('①', NUMBER, 0, 0),
    mark('②', NUMBER, 0, 0),
    mark('½', NUMBER, 0, 0),
    letter('Ａ', 0),
    mark('ⓩ', OTHER, 0, 0),
    letter('㌔', KATAKANA),
    mark('\u{2075}', NUMBER, 0, 0),
];
pub static FORM_PHRASES: [&str; 9] = ["①②", "1①", "①1", "1½", "½①1", "Ａⓩ", "①x", "½ ", " ①"];
pub const USUAL_FORMS: [(char, &str); 7] =
    [('①', "1"), ('②', "2"), ('½', "1\u{2044}2"), ('Ａ', "A"), ('ⓩ', "z"), ('㌔', "キロ"), ('\u{2075}', "5")];
/// what a row may hold besides the characters of its world
pub const HELD: [char; 16] =
    ['1', '1', '2', '2', 'x', 'k', 'Z', 'q', '\u{2044}', '\u{2044}', '\u{2044}', ' ', ' ', 'é', '€', '\u{0301}'];
/// with its rule three of these are 192 bytes; the other has none
pub const LONG: char = '\u{3007}';
pub const FILLER: char = '=';

/// what the choice of capitals may change, and what it must leave; more of these in worlds with lower case
pub const CAPITALS: [&str; 24] = [
    "K", "ZH", "Zh", "A", "Ka", "Ya", "KI", "KKI", "KA", "KYO", "SHCH", "A1B", "1ZH", "Z-H", "1", "N7", "+N", "+NG",
    "+A", "zH", "CHI", " ZH", "ZH ", "AK",
];
/// words of Thai lines, and such as begin with what the walk back behind O ang passes: only over a space it finds a consonant
pub const WORDS: [&str; 13] =
    ["ก", "น", "ขน", "กก", "กา", "กอน", "ขอ", "เกา", "แก", "ก\u{0e48}อก", "อก", "ก\u{00a0}\u{0e48}อก", ""];
pub const OPEN_WORDS: [&str; 8] =
    ["\u{0e48}อก", "\u{0e48}อน", "\u{0e34}อก", "\u{0e48}\u{0e34}อข", "\u{0e48}ออก", "\u{0e48}อกอน", "ะอก", "เอน"];
/// what the walk passes where there is no rule for it, or one with an empty text
pub const PASSED: [char; 5] = ['\u{0e48}', '\u{0e34}', 'ะ', 'เ', ' '];
pub const CODES: [&str; 8] = ["san", "asm", "ben", "guj", "kas", "pan", "hin", "abc"];
pub const VOWELS: [&str; 8] = ["a", "a", "o", "aa", "an", "n", "aeio", "u"];
