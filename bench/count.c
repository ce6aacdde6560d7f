/* Calls whose instructions are to be counted:
 *
 *     count FOLDER LENGTH ROOMS MODE CAPITALS O_ANG READINGS TIMES
 *
 * FOLDER holds rules.bin, classes.bin, vowels.bin, decompositions.bin and labels.txt. The texts are so many labels, or with another
 * LENGTH than 0 so many texts of LENGTH characters, which are labels joined by spaces; `empty` in its place makes them empty. Rooms
 * are ROOMS bytes for slots, as many for texts, and four times as many for the output. All is read and laid out before the first
 * call, for the most texts that may be asked for, 400 labels, 32 texts, or 4 of more than 512 characters: so two runs differ in
 * their calls alone. */
#include <stdio.h>
#include <stdlib.h>
#include <string.h>

#include "jettyfig.h"

enum { MOST_LABELS = 400, MOST_TEXTS = 32, MOST_LONG_TEXTS = 4, LONG_TEXT = 512, MOST_BYTES = 1 << 20, WORDS = 9 };

typedef struct {
    uint8_t bytes[MOST_BYTES];
    size_t length;
} file;

typedef struct {
    const uint8_t *bytes;
    size_t length;
} slice;

static file rules, classes, vowels, decompositions, labels;
static slice text[MOST_LABELS];
static size_t most_texts;

static void quit(const char *why) {
    fprintf(stderr, "count: %s\n", why);
    exit(2);
}

static void read_file(const char *folder, const char *name, file *f) {
    char path[4096];
    FILE *from;
    snprintf(path, sizeof path, "%s/%s", folder, name);
    from = fopen(path, "rb");
    if (!from) quit(path);
    f->length = fread(f->bytes, 1, sizeof f->bytes, from);
    if (f->length == sizeof f->bytes) quit("a file is too long");
    fclose(from);
}

/* where a text ends that begins at `at`: before the line's end, or behind so many characters */
static size_t end_of(size_t at, size_t characters) {
    size_t n = 0;
    for (; at < labels.length; at++) {
        if (!characters && labels.bytes[at] == '\n') return at;
        n += (labels.bytes[at] & 0xC0) != 0x80;
        if (characters && n > characters) return at;
    }
    quit("there are too few labels");
    return at;
}

static void lay_out(size_t characters) {
    size_t k, at = 0;
    most_texts = !characters ? MOST_LABELS : characters > LONG_TEXT ? MOST_LONG_TEXTS : MOST_TEXTS;
    for (k = 0; k < most_texts; k++) {
        size_t end = end_of(at, characters);
        text[k].bytes = labels.bytes + at;
        text[k].length = end - at;
        at = characters ? end : end + 1;
    }
    for (at = 0; characters && at < labels.length; at++) {
        if (labels.bytes[at] == '\n') labels.bytes[at] = ' ';
    }
}

static uint8_t *lend(size_t n) {
    uint8_t *bytes = malloc(n ? n : 1);
    if (!bytes) quit("no memory");
    memset(bytes, 0, n);
    return bytes;
}

int main(int argc, char **argv) {
    size_t k, room_length, times;
    uint8_t *slots, *room, *out, mode, capitals, o_ang, readings;
    int empty;
    if (argc != WORDS) quit("usage: count FOLDER LENGTH ROOMS MODE CAPITALS O_ANG READINGS TIMES");
    read_file(argv[1], "rules.bin", &rules);
    read_file(argv[1], "classes.bin", &classes);
    read_file(argv[1], "vowels.bin", &vowels);
    read_file(argv[1], "decompositions.bin", &decompositions);
    read_file(argv[1], "labels.txt", &labels);
    empty = !strcmp(argv[2], "empty");
    lay_out(strtoul(argv[2], NULL, 10));
    room_length = strtoul(argv[3], NULL, 10);
    mode = (uint8_t)strtoul(argv[4], NULL, 10);
    capitals = (uint8_t)strtoul(argv[5], NULL, 10);
    o_ang = (uint8_t)strtoul(argv[6], NULL, 10);
    readings = (uint8_t)strtoul(argv[7], NULL, 10);
    times = strtoul(argv[8], NULL, 10);
    if (times > most_texts) quit("too many texts");
    slots = lend(room_length), room = lend(room_length), out = lend(4 * room_length);
    for (k = 0; k < times; k++) {
        jettyfig_answer a = jettyfig_romanize(mode, capitals, o_ang, readings, rules.bytes, rules.length, classes.bytes,
                                              classes.length, vowels.bytes, vowels.length, decompositions.bytes,
                                              decompositions.length, (const uint8_t *)"", 0, text[k].bytes,
                                              empty ? 0 : text[k].length, slots, room_length, room, room_length, out,
                                              4 * room_length);
        if (a.number != JETTYFIG_DONE) quit("a call was refused");
    }
    return 0;
}
