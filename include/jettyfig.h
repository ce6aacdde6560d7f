/* Jettyfig: a text in Thai, Khmer, Hindi, Japanese or another script, romanized by tables that the caller lends.
 *
 * There is one call. It takes any bytes: tables, code and text are checked in it, and it ends with the romanization or with
 * one numbered refusal. It allocates nothing, and of the C library it calls memcpy, memmove and memset alone. Link
 * target/staticlib/libjettyfig.a.
 *
 * Threads: the library has no state. Any number of calls may run at once, in any threads, and may share what they only read,
 * tables, code and text; each needs slots, room and output of its own.
 *
 * Copyright: see NOTICE. */
#ifndef JETTYFIG_H
#define JETTYFIG_H

#include <stddef.h>
#include <stdint.h>

#ifdef __cplusplus
extern "C" {
#endif

/* The version of this header and its library: as text, and as a number that rises. */
#define JETTYFIG_VERSION "7.0.0"
#define JETTYFIG_VERSION_NUMBER 70000 /* 10000 for the first part, 100 for the second, 1 for the third */

/* What a call shows: its argument `mode`. */
enum jettyfig_show {
    JETTYFIG_SHOW_STRING = 0,       /* the path's string, in UTF-8, with no zero byte behind it */
    JETTYFIG_SHOW_PATH = 1,         /* a listing of the path's edges */
    JETTYFIG_SHOW_ALTERNATIVES = 2, /* a listing of the path's edges, then its alternatives */
    JETTYFIG_SHOW_ALL_EDGES = 3     /* a listing of all edges: by start, longer first, then as added */
};

/* Choices: arguments of their own behind the mode, each off by default. */

/* `capitals`: what becomes of a romanization in upper case, with a letter A-Z and none a-z, of one character before another of
 * lower case (class flag 7). U+0416 by the rule "ZH" and U+0436 by "zh" are an example. */
enum jettyfig_capitals {
    JETTYFIG_CAPITALS_OFF = 0, /* it stays: "ZHzh" */
    JETTYFIG_CAPITALS_ON = 1   /* its first byte stays, and its later letters become small: "Zhzh" */
};

/* `o_ang`: how far back a consonant is looked for before U+0E2D, which is silent unless it stands between two. Off, as the
 * published Rust has it, U+0E2D inside a word may become "o" because of a consonant at the end of an earlier word of the line: a
 * word can read otherwise in its line than alone. On, every word reads in its line as alone, under rules with no space in a source
 * or target. So whoever fills a search index with words, or looks a label's words up in one, should turn it on, for the index and
 * the labels alike. U+0E01, a space, U+0E48, U+0E2D, U+0E01 are an example. */
enum jettyfig_o_ang {
    JETTYFIG_O_ANG_OFF = 0, /* to the text's start: "k ok" */
    JETTYFIG_O_ANG_ON = 1   /* to the nearest space, U+0020 and no other: "k k" */
};

/* `readings`: whether a rule's end-of-syllable target is an alternative. A rule may have such a target besides its own: U+0E08 is
 * "ch", and "t" where a syllable ends. Off, as the published Rust has it, only the first is one: "ch" where "t" was taken. On, "t"
 * is one too where "ch" was taken. So whoever fills a search index that should find a word by its end-of-syllable reading too should
 * turn it on. It changes JETTYFIG_SHOW_ALTERNATIVES alone. U+0E08 by itself is an example. */
enum jettyfig_readings {
    JETTYFIG_READINGS_OFF = 0, /* "ch" alone */
    JETTYFIG_READINGS_ON = 1   /* "ch", and "t" as JETTYFIG_EDGE_ALT2, unless that text is listed for these characters already */
};

/* A listing is a version byte 1, a 4-byte length of all that follows, and a row for each edge: the length of the rest of the
 * row (2 bytes), start, end (2 each, in characters of the text), annotation, core length (1 each), and the edge's text in
 * UTF-8. All numbers are big-endian. */

/* What an edge is: the annotation of its row in a listing. The core length is 0 except under JETTYFIG_EDGE_CORE, where the
 * core is the text's first bytes and an inherent vowel follows it. */
enum jettyfig_edge {
    JETTYFIG_EDGE_ROM = 1,      /* a rule's text */
    JETTYFIG_EDGE_CORE = 2,     /* a rule's text and an inherent vowel */
    JETTYFIG_EDGE_TAIL = 3,     /* a rule's text that began with a plus: a tail of what stands before */
    JETTYFIG_EDGE_EXPANDED = 4, /* a text that special characters have changed */
    JETTYFIG_EDGE_DELETED = 5,  /* a silent character */
    JETTYFIG_EDGE_SINGLE = 6,   /* a fallback: the rule's text of a single character */
    JETTYFIG_EDGE_MN = 7,       /* a fallback with no text: a nonspacing mark, */
    JETTYFIG_EDGE_CF = 8,       /* a format character, */
    JETTYFIG_EDGE_CO = 9,       /* a private one */
    JETTYFIG_EDGE_ZS = 10,      /* a fallback: a space */
    JETTYFIG_EDGE_ORIG = 11,    /* a fallback: the character itself */
    JETTYFIG_EDGE_ALT = 12,     /* an alternative: one of a rule, with the edge's vowel where it has one */
    JETTYFIG_EDGE_ALT2 = 13,    /* an alternative, with JETTYFIG_READINGS_ON alone: a rule's end-of-syllable target, as its table has
                                 * it, where its target was taken */
    JETTYFIG_EDGE_ALT3 = 14,    /* an alternative: a rule's target where its end-of-syllable target was taken */
    JETTYFIG_EDGE_DECOMP = 15   /* the string of the characters that a row of the decomposition table holds */
};

/* The answer's number: done, or a refusal. Refusals in the order in which they are looked for, with what `place` says. 20 to 25
 * are those of the rule table: its first faulty row is named, and in it the earliest faulty field, a number, a character, a code
 * or a byte of a text. An offset counts from the table's first byte. */
enum jettyfig_number {
    JETTYFIG_DONE = 0,
    JETTYFIG_REFUSED_MODE = 1,      /* the mode is above 3; 0 */
    JETTYFIG_REFUSED_CAPITALS = 12, /* the choice of capitals is above 1; 0 */
    JETTYFIG_REFUSED_O_ANG = 15,    /* the choice of O ang is above 1; 0 */
    JETTYFIG_REFUSED_READINGS = 17, /* the choice of readings is above 1; 0 */
    JETTYFIG_REFUSED_LENGTH = 20,   /* the rule table's header; 0. A row that the table ends in; its offset. A field that its row
                                     * ends before or in; the field's offset. Bytes that a row has left over; the first's */
    JETTYFIG_REFUSED_RANGE = 21,    /* a rule's flag bit 7, or a count or a text's length out of its range; its offset */
    JETTYFIG_REFUSED_LETTER = 22,   /* a character of a source that is no scalar value, or a language code of a rule that is not
                                     * three letters a to z; its offset */
    JETTYFIG_REFUSED_BYTE = 23,     /* a byte of a rule's target or alternative outside 0x20 to 0x7E; its offset */
    JETTYFIG_REFUSED_ORDER = 24,    /* a rule whose source is below that of the row before; the row's offset */
    JETTYFIG_REFUSED_ROWS = 25,     /* over 8,192 rules; the offset of the first that is too many */
    JETTYFIG_REFUSED_CLASSES = 3,   /* the class table is faulty; the offset of its first faulty row, 0 for the header */
    JETTYFIG_REFUSED_VOWELS = 4,    /* the vowel table is faulty; likewise */
    JETTYFIG_REFUSED_DECOMPOSITIONS = 13, /* the decomposition table is faulty; likewise. A row is, too, that holds a character with
                                     * a row of its own */
    JETTYFIG_REFUSED_CODE = 5,      /* the language code is neither empty nor three letters a to z; 0 */
    JETTYFIG_REFUSED_UTF8 = 6,      /* the text is not UTF-8 (RFC 3629); the offset of the first bad sequence */
    JETTYFIG_REFUSED_TOO_LONG = 7,  /* the text has over 4,096 characters; 4,096 */
    JETTYFIG_REFUSED_LEFT_OUT = 8,  /* a Tibetan, Braille or Hangul character; its position in characters */
    JETTYFIG_REFUSED_SLOTS = 9,     /* an edge finds no slot; the edge's start. The edges of a decomposition's string take slots and
                                     * room for a while: of these it is the decomposed character */
    JETTYFIG_REFUSED_ROOM = 10,     /* an edge finds a slot, but too little text room; likewise */
    JETTYFIG_REFUSED_EDGE_TEXT = 14, /* a decomposition's text would pass 606 bytes; its character's position. This is looked for
                                     * with 9 and 10, after those of the string's edges and before the edge's own */
    JETTYFIG_REFUSED_LISTING = 19,  /* a listing's rows pass 4,294,967,295 bytes; 0. Only JETTYFIG_SHOW_ALTERNATIVES can have so
                                     * many */
    JETTYFIG_REFUSED_OUTPUT = 11    /* the output is too short; the bytes that it needs */
};

/* What a call returns. After a refusal length and edges are 0. */
typedef struct {
    uint64_t number; /* 0, or the refusal */
    uint64_t place;  /* 0, or where */
    uint64_t length; /* bytes of the output that are written */
    uint64_t edges;  /* edges of the whole lattice */
} jettyfig_answer;

/* The most characters of a text. */
#define JETTYFIG_MOST_CHARACTERS 4096

/* How many bytes are always enough for a text of n characters, whatever the tables: with slots and room of these sizes 9 and
 * 10 never come, and with an output of its mode's size 11 never comes. A lattice has at most 17 edges for each character, each
 * of a slot of 12 bytes and a text of at most 606; while a decomposition's string is made, the edges of its 18 characters at most
 * stand behind those of the text; a path has at most one edge for each character; a listing has 5 bytes before its rows, and a row
 * 8 before its text. A text of b bytes has at most b characters, and one of more than
 * JETTYFIG_MOST_CHARACTERS is refused before it needs any room: so the smaller of the two may stand for n. These are constants
 * where n is one. For the longest text the room is 42,382,428 bytes and the listing of all edges 42,754,053: take them from the heap,
 * and as large as the text asks for, since a call clears all that it is lent. */
#define JETTYFIG_SLOTS_FOR(n) ((size_t)17 * 12 * ((n) + 18))
#define JETTYFIG_ROOM_FOR(n) ((size_t)17 * 606 * ((n) + 18))
/* and the output of JETTYFIG_SHOW_STRING, JETTYFIG_SHOW_PATH and JETTYFIG_SHOW_ALL_EDGES */
#define JETTYFIG_STRING_FOR(n) ((size_t)606 * (n))
#define JETTYFIG_PATH_FOR(n) ((size_t)5 + (size_t)(8 + 606) * (n))
#define JETTYFIG_ALL_EDGES_FOR(n) ((size_t)5 + (size_t)17 * (8 + 606) * (n))

/* Alternatives have no such size: a text can have many thousands for each character, as the rules are. Call with as much as
 * most texts need; where it is refused with JETTYFIG_REFUSED_OUTPUT, `place` is what it needs, up to 4,294,967,300: call again with so
 * much. Where it is refused with JETTYFIG_REFUSED_LISTING no output is enough: call with parts of the text. */

/* Bytes of stack that are enough for a call, on x86-64 as the library is built there, whatever text and tables: nothing in it is
 * recursive. They have room for the dynamic linker, which may run at the first call of memcpy, memmove or memset. A text of
 * JETTYFIG_SHORT_CHARACTERS at most needs JETTYFIG_SHORT_STACK, and no more is touched for it. What is kept of a longer text are
 * 16 bytes for each of the most characters, 65,536 in all; the rest is the same for every text. */
#define JETTYFIG_SHORT_CHARACTERS 512
#define JETTYFIG_SHORT_STACK 26624
#define JETTYFIG_STACK 83968

/* The call. Each slice is a pointer and a length in bytes. Rules, classes, vowels, decompositions, code and text are read only.
 * Slots and room are working rooms: what stands in them before is of no matter, and both are all zeros afterwards, whatever
 * happened. All of the output is written: `length` bytes, and zeros behind them; after a refusal it is all zeros. A caller without
 * decompositions lends a table with no row, the five bytes 1, 0, 0, 0, 0: a slice of no bytes is a faulty table.
 *
 * This is asked of the caller, and can't be checked: no pointer is null, also where its length is 0; so many bytes as the
 * length says can be read there, and in slots, room and output written; these three overlap no other slice, nor each other;
 * no other thread writes any of the nine, or reads these three, before the call returns; and there are JETTYFIG_STACK bytes of
 * stack, or as many as the text needs. */
jettyfig_answer jettyfig_romanize(uint8_t mode, uint8_t capitals, uint8_t o_ang, uint8_t readings,
                                  const uint8_t *rules, size_t rules_length,
                                  const uint8_t *classes, size_t classes_length,
                                  const uint8_t *vowels, size_t vowels_length,
                                  const uint8_t *decompositions, size_t decompositions_length,
                                  const uint8_t *code, size_t code_length,
                                  const uint8_t *text, size_t text_length,
                                  uint8_t *slots, size_t slots_length,
                                  uint8_t *room, size_t room_length,
                                  uint8_t *out, size_t out_length);

#ifdef __cplusplus
}
#endif

#endif
