/* Romanizes standard input by the tables of four files, and prints the string, or the refusal.
 *
 *     tools/build jettyfig
 *     cc -Iinclude examples/romanize.c target/staticlib/libjettyfig.a -o romanize
 *     cd crates/romanize/data
 *     printf 'कत ①' | ../../../romanize rules.bin classes.bin vowels.bin decompositions.bin
 *
 * prints kat 1. */
#include <stdio.h>
#include <stdlib.h>

#include "jettyfig.h"

typedef struct {
    uint8_t *bytes;
    size_t length;
} slice;

static uint8_t *grown(uint8_t *bytes, size_t size) {
    bytes = realloc(bytes, size ? size : 1);
    if (!bytes) {
        fprintf(stderr, "no memory\n");
        exit(2);
    }
    return bytes;
}

static slice read_all(FILE *f, const char *name) {
    slice s = {NULL, 0};
    size_t size = 0;
    if (!f) {
        perror(name);
        exit(2);
    }
    while (s.length == size) {
        size = size ? 2 * size : 65536;
        s.bytes = grown(s.bytes, size);
        s.length += fread(s.bytes + s.length, 1, size - s.length, f);
    }
    fclose(f);
    return s;
}

static slice read_file(const char *path) { return read_all(fopen(path, "rb"), path); }

/* a room of a call, which clears it */
static slice lend(size_t length) {
    slice s = {grown(NULL, length), length};
    return s;
}

int main(int argc, char **argv) {
    slice rules, classes, vowels, decompositions, text, slots, room, out;
    jettyfig_answer a;
    size_t n;
    if (argc != 5) {
        fprintf(stderr, "usage: romanize RULES CLASSES VOWELS DECOMPOSITIONS < TEXT\n");
        return 2;
    }
    rules = read_file(argv[1]);
    classes = read_file(argv[2]);
    vowels = read_file(argv[3]);
    decompositions = read_file(argv[4]);
    text = read_all(stdin, "standard input");
    /* each character has a byte at least; a text of more than these is refused before it needs any room */
    n = text.length < JETTYFIG_MOST_CHARACTERS ? text.length : JETTYFIG_MOST_CHARACTERS;
    slots = lend(JETTYFIG_SLOTS_FOR(n));
    room = lend(JETTYFIG_ROOM_FOR(n));
    out = lend(JETTYFIG_STRING_FOR(n));
    a = jettyfig_romanize(JETTYFIG_SHOW_STRING, JETTYFIG_CAPITALS_OFF, JETTYFIG_O_ANG_OFF, JETTYFIG_READINGS_OFF,
                          rules.bytes, rules.length, classes.bytes, classes.length, vowels.bytes, vowels.length,
                          decompositions.bytes, decompositions.length, (const uint8_t *)"", 0, text.bytes, text.length,
                          slots.bytes, slots.length, room.bytes, room.length, out.bytes, out.length);
    if (a.number != JETTYFIG_DONE) {
        fprintf(stderr, "refused with %llu at %llu\n", (unsigned long long)a.number, (unsigned long long)a.place);
        return 1;
    }
    fwrite(out.bytes, 1, a.length, stdout);
    putchar('\n');
    return 0;
}
