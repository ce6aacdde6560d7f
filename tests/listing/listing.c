/* Calls that are lent no output: number and place are compared, and slots and room must be zero behind them.
 *
 * Standard input holds cases, all numbers big-endian: mode, readings (1 byte each), bytes of slots and of room (4 each), the number (1)
 * and the place (8) that are wanted, a name, then rules, classes, vowels, decompositions, code and text, each of these seven a length of
 * four bytes and its bytes. */
#include <stdio.h>
#include <stdlib.h>
#include <string.h>
#include <time.h>

#include "jettyfig.h"

enum { RULES, CLASSES, VOWELS, DECOMPOSITIONS, CODE, TEXT, PARTS };

typedef struct {
    uint8_t *bytes;
    size_t length;
} slice;

static unsigned runs, differ;

static void cut_short(void) {
    fprintf(stderr, "case %u is cut short\n", runs + 1);
    exit(2);
}

/* a number of so many bytes; where there is none at all the cases are over */
static int number(unsigned size, uint64_t *n) {
    unsigned k;
    for (k = 0, *n = 0; k < size; k++) {
        int c = getchar();
        if (c == EOF && k == 0) return 0;
        if (c == EOF) cut_short();
        *n = *n << 8 | (uint64_t)c;
    }
    return 1;
}

static uint64_t must(unsigned size) {
    uint64_t n;
    if (!number(size, &n)) cut_short();
    return n;
}

static slice lend(size_t length) {
    slice s = {malloc(length + 1), length};
    if (!s.bytes) exit(2);
    memset(s.bytes, 0xA5, length + 1);
    return s;
}

static slice part(void) {
    slice s = lend((size_t)must(4));
    if (fread(s.bytes, 1, s.length, stdin) != s.length) cut_short();
    s.bytes[s.length] = 0;
    return s;
}

/* zeros to its end, and not a byte further */
static int is_cleared(slice s) {
    size_t k;
    for (k = 0; k < s.length; k++) {
        if (s.bytes[k]) return 0;
    }
    return s.bytes[s.length] == 0xA5;
}

int main(void) {
    uint64_t mode;
    while (number(1, &mode)) {
        uint8_t readings = (uint8_t)must(1);
        slice slots = lend((size_t)must(4)), room = lend((size_t)must(4)), out = lend(0);
        uint64_t wanted = must(1), place = must(8);
        slice name = part(), p[PARTS];
        jettyfig_answer a;
        clock_t began;
        int k, right;
        for (k = 0; k < PARTS; k++) p[k] = part();
        began = clock();
        a = jettyfig_romanize((uint8_t)mode, JETTYFIG_CAPITALS_OFF, JETTYFIG_O_ANG_OFF, readings, p[RULES].bytes, p[RULES].length,
                              p[CLASSES].bytes, p[CLASSES].length, p[VOWELS].bytes, p[VOWELS].length, p[DECOMPOSITIONS].bytes,
                              p[DECOMPOSITIONS].length, p[CODE].bytes, p[CODE].length, p[TEXT].bytes, p[TEXT].length, slots.bytes,
                              slots.length, room.bytes, room.length, out.bytes, out.length);
        right = a.number == wanted && a.place == place && !a.length && !a.edges && is_cleared(slots) && is_cleared(room) && is_cleared(out);
        runs++, differ += !right;
        printf("%s%s, mode %u, readings %u: %llu at %llu, %.1f s\n", right ? "" : "differs: ", (char *)name.bytes, (unsigned)mode, readings,
               (unsigned long long)a.number, (unsigned long long)a.place, (double)(clock() - began) / CLOCKS_PER_SEC);
        fflush(stdout);
        free(slots.bytes), free(room.bytes), free(out.bytes), free(name.bytes);
        for (k = 0; k < PARTS; k++) free(p[k].bytes);
    }
    printf("%u runs, %u differ\n", runs, differ);
    return differ > 0 || runs == 0;
}
