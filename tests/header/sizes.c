/* The header's sizes are enough: calls of standard input with slots, room and output of exactly these sizes.
 *
 * Each case is rules, classes, vowels, decompositions, code and text: a length of four bytes, big-endian, and the bytes. With
 * each choice off and on, and where the text has over 512 characters with all of them off or on, the string, the path and all
 * edges must be done, unless a decomposition's text is too long, which no size helps; so must alternatives, when they are called
 * again with what a refusal says they need. And a lattice must be refused with one slot less than it has edges, so that it is
 * seen that the sizes are what decides. */
#include <stdio.h>
#include <stdlib.h>

#include "jettyfig.h"

enum { PARTS = 6, MANY = 512 };

typedef struct {
    uint8_t *bytes;
    size_t length;
} slice;

static slice part[PARTS];
static uint8_t capitals, o_ang, readings;
static unsigned long cases, calls, too_long, differ;
static double most_edges;

/* a slice with no byte more than is lent, so that a tool like valgrind sees each that is overstepped */
static slice lend(size_t length) {
    slice s = {malloc(length ? length : 1), length};
    if (!s.bytes) exit(2);
    return s;
}

static int read_part(slice *s) {
    uint8_t head[4];
    if (fread(head, 1, 4, stdin) != 4) return 0;
    *s = lend((size_t)head[0] << 24 | (size_t)head[1] << 16 | (size_t)head[2] << 8 | head[3]);
    return fread(s->bytes, 1, s->length, stdin) == s->length;
}

static size_t characters(const slice *s) {
    size_t k, n = 0;
    for (k = 0; k < s->length; k++) n += (s->bytes[k] & 0xC0) != 0x80;
    return n;
}

static jettyfig_answer romanize(uint8_t mode, size_t slots_length, size_t room_length, size_t out_length) {
    slice slots = lend(slots_length), room = lend(room_length), out = lend(out_length);
    jettyfig_answer a = jettyfig_romanize(mode, capitals, o_ang, readings, part[0].bytes, part[0].length, part[1].bytes,
                                          part[1].length, part[2].bytes, part[2].length, part[3].bytes, part[3].length,
                                          part[4].bytes, part[4].length, part[5].bytes, part[5].length, slots.bytes,
                                          slots.length, room.bytes, room.length, out.bytes, out.length);
    free(slots.bytes);
    free(room.bytes);
    free(out.bytes);
    calls++;
    return a;
}

static void expect(jettyfig_answer a, uint64_t number, uint8_t mode) {
    if (a.number == number) return;
    differ++;
    printf("differs: case %lu, mode %u, capitals %u, O ang %u, readings %u: %llu at %llu\n", cases, mode, capitals, o_ang, readings,
           (unsigned long long)a.number, (unsigned long long)a.place);
}

static void run(void) {
    size_t n = characters(&part[PARTS - 1]), slots = JETTYFIG_SLOTS_FOR(n), room = JETTYFIG_ROOM_FOR(n);
    jettyfig_answer a = romanize(JETTYFIG_SHOW_STRING, slots, room, JETTYFIG_STRING_FOR(n));
    if (a.number == JETTYFIG_REFUSED_EDGE_TEXT) {
        too_long++;
        return;
    }
    expect(a, JETTYFIG_DONE, JETTYFIG_SHOW_STRING);
    if (n && (double)a.edges / (double)n > most_edges) most_edges = (double)a.edges / (double)n;
    if (a.edges) {
        expect(romanize(JETTYFIG_SHOW_STRING, 12 * a.edges - 1, room, JETTYFIG_STRING_FOR(n)), JETTYFIG_REFUSED_SLOTS,
               JETTYFIG_SHOW_STRING);
    }
    expect(romanize(JETTYFIG_SHOW_PATH, slots, room, JETTYFIG_PATH_FOR(n)), JETTYFIG_DONE, JETTYFIG_SHOW_PATH);
    expect(romanize(JETTYFIG_SHOW_ALL_EDGES, slots, room, JETTYFIG_ALL_EDGES_FOR(n)), JETTYFIG_DONE, JETTYFIG_SHOW_ALL_EDGES);
    a = romanize(JETTYFIG_SHOW_ALTERNATIVES, slots, room, JETTYFIG_PATH_FOR(n));
    if (a.number == JETTYFIG_REFUSED_OUTPUT) a = romanize(JETTYFIG_SHOW_ALTERNATIVES, slots, room, a.place);
    expect(a, JETTYFIG_DONE, JETTYFIG_SHOW_ALTERNATIVES);
}

int main(void) {
    while (read_part(&part[0])) {
        int k;
        for (k = 1; k < PARTS; k++) {
            if (!read_part(&part[k])) {
                fprintf(stderr, "case %lu is cut short\n", cases);
                return 2;
            }
        }
        for (capitals = JETTYFIG_CAPITALS_OFF; capitals <= JETTYFIG_CAPITALS_ON; capitals++) {
            for (o_ang = JETTYFIG_O_ANG_OFF; o_ang <= JETTYFIG_O_ANG_ON; o_ang++) {
                for (readings = JETTYFIG_READINGS_OFF; readings <= JETTYFIG_READINGS_ON; readings++) {
                    if (characters(&part[PARTS - 1]) <= MANY || (capitals == o_ang && o_ang == readings)) run();
                }
            }
        }
        cases++;
        for (k = 0; k < PARTS; k++) free(part[k].bytes);
    }
    printf("%lu texts, %lu calls, %lu with too long a text, %.2f edges a character at most, %lu differ\n", cases, calls, too_long,
           most_edges, differ);
    return differ > 0 || cases == 0;
}
