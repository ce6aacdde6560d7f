/* Each refusal once, through the header: number and place are compared, and output, slots and room must be zero.
 *
 *     refusals RULES CLASSES VOWELS        document 01's sample tables */
#include <stdio.h>
#include <stdlib.h>
#include <string.h>

#include "jettyfig.h"

/* one rule more than is allowed, each of one character and nothing else */
static const uint8_t SMALL_RULE[] = {0, 9, 0, 0, 0, 1, 0, 0, 'b', 0, 0};
#define MOST_RULES 8192
#define MANY_RULES ((MOST_RULES + 1) * sizeof SMALL_RULE)

typedef struct {
    uint8_t bytes[5 + MANY_RULES];
    size_t length;
} slice;

/* what a call is given: all of it is right, and a case spoils one part */
typedef struct {
    uint8_t mode, capitals, o_ang, readings;
    slice rules, classes, vowels, decompositions, code, text;
    size_t slots, room, out;
} call;

static uint8_t slots[4096], room[4096], out[4096];
static unsigned runs, differ;

static void read_file(const char *path, slice *s) {
    FILE *f = fopen(path, "rb");
    if (!f) {
        perror(path);
        exit(2);
    }
    s->length = fread(s->bytes, 1, sizeof s->bytes, f);
    fclose(f);
}

static void put(slice *s, const char *bytes) {
    s->length = strlen(bytes);
    memcpy(s->bytes, bytes, s->length);
}

static void put_bytes(slice *s, const uint8_t *bytes, size_t length) {
    s->length = length;
    memcpy(s->bytes, bytes, length);
}

static void put_many_rules(slice *s) {
    const uint8_t header[] = {1, 0, MANY_RULES >> 16, MANY_RULES >> 8 & 0xFF, MANY_RULES & 0xFF};
    size_t k;
    memcpy(s->bytes, header, 5);
    for (k = 0; k <= MOST_RULES; k++) memcpy(s->bytes + 5 + k * sizeof SMALL_RULE, SMALL_RULE, sizeof SMALL_RULE);
    s->length = 5 + MANY_RULES;
}

/* U+2460 holds 12, and U+2461 four times x */
static const uint8_t FORMS[] = {1, 0, 0, 0, 28, 0, 0x24, 0x60, 5, 2, 0, 0, '1', 0, 0, '2',
                                0, 0x24, 0x61, 5, 4, 0, 0, 'x', 0, 0, 'x', 0, 0, 'x', 0, 0, 'x'};
enum { SECOND_FORM = 16 };

/* the only rule is that of x, whose target has so many bytes, at most 201 */
enum { MOST_TARGET = 200, TARGET_LENGTH = 15 };
static void put_long_rule(slice *s, uint8_t target) {
    const uint8_t front[] = {1, 0, 0, 0, (uint8_t)(target + 12), 0, (uint8_t)(target + 10), 0x20, 0, 0, 1, 0, 0, 'x', 0, target};
    put_bytes(s, front, sizeof front);
    memset(s->bytes + s->length, 'k', target);
    s->bytes[s->length + target] = 0;
    s->length += target + 1u;
}

static int is_zero(const uint8_t *bytes, size_t n) {
    size_t k;
    for (k = 0; k < n; k++) {
        if (bytes[k]) return 0;
    }
    return 1;
}

static void expect(const char *name, const call *c, uint64_t number, uint64_t place) {
    jettyfig_answer a;
    memset(slots, 0xA5, sizeof slots);
    memset(room, 0xA5, sizeof room);
    memset(out, 0xA5, sizeof out);
    a = jettyfig_romanize(c->mode, c->capitals, c->o_ang, c->readings, c->rules.bytes, c->rules.length, c->classes.bytes,
                          c->classes.length, c->vowels.bytes, c->vowels.length, c->decompositions.bytes,
                          c->decompositions.length, c->code.bytes, c->code.length, c->text.bytes, c->text.length, slots,
                          c->slots, room, c->room, out, c->out);
    runs++;
    if (a.number != number || a.place != place || (number && (a.length || a.edges)) || !is_zero(slots, c->slots) ||
        !is_zero(room, c->room) || !is_zero(out + a.length, c->out - a.length)) {
        differ++;
        printf("differs: %s: %llu at %llu\n", name, (unsigned long long)a.number, (unsigned long long)a.place);
    }
}

int main(int argc, char **argv) {
    static call good, c;
    if (argc != 4) {
        fprintf(stderr, "usage: refusals RULES CLASSES VOWELS\n");
        return 2;
    }
    read_file(argv[1], &good.rules);
    read_file(argv[2], &good.classes);
    read_file(argv[3], &good.vowels);
    put_bytes(&good.decompositions, FORMS, sizeof FORMS);
    /* two edges, "ka" and "t": 24 bytes of slots, 3 of room */
    put(&good.text, "\xe0\xa4\x95\xe0\xa4\xa4");
    good.slots = 24;
    good.room = 3;
    good.out = 3;
    expect("done", &good, JETTYFIG_DONE, 0);
    c = good, c.capitals = JETTYFIG_CAPITALS_ON;
    expect("done, with capitals", &c, JETTYFIG_DONE, 0);
    c = good, c.o_ang = JETTYFIG_O_ANG_ON;
    expect("done, with O ang", &c, JETTYFIG_DONE, 0);
    c = good, c.readings = JETTYFIG_READINGS_ON;
    expect("done, with readings", &c, JETTYFIG_DONE, 0);
    c.capitals = JETTYFIG_CAPITALS_ON, c.o_ang = JETTYFIG_O_ANG_ON;
    expect("done, with all choices", &c, JETTYFIG_DONE, 0);

    c = good, c.mode = JETTYFIG_SHOW_ALL_EDGES + 1, c.capitals = JETTYFIG_CAPITALS_ON + 1;
    expect("mode before capitals", &c, JETTYFIG_REFUSED_MODE, 0);
    c = good, c.mode = JETTYFIG_SHOW_ALL_EDGES + 1, c.o_ang = JETTYFIG_O_ANG_ON + 1;
    expect("mode before O ang", &c, JETTYFIG_REFUSED_MODE, 0);
    c = good, c.capitals = JETTYFIG_CAPITALS_ON + 1, c.rules.length--;
    expect("capitals before rules", &c, JETTYFIG_REFUSED_CAPITALS, 0);
    c = good, c.capitals = JETTYFIG_CAPITALS_ON + 1, c.o_ang = JETTYFIG_O_ANG_ON + 1;
    expect("capitals before O ang", &c, JETTYFIG_REFUSED_CAPITALS, 0);
    c = good, c.o_ang = JETTYFIG_O_ANG_ON + 1, c.rules.length--;
    expect("O ang before rules", &c, JETTYFIG_REFUSED_O_ANG, 0);
    c = good, c.o_ang = JETTYFIG_O_ANG_ON + 1, c.readings = JETTYFIG_READINGS_ON + 1;
    expect("O ang before readings", &c, JETTYFIG_REFUSED_O_ANG, 0);
    c = good, c.readings = JETTYFIG_READINGS_ON + 1, c.rules.length--;
    expect("readings before rules", &c, JETTYFIG_REFUSED_READINGS, 0);
    c = good, c.rules.length--;
    expect("rules, header", &c, JETTYFIG_REFUSED_LENGTH, 0);
    /* the second row, at 19: length at 19, flags at 21, source at 25, target at 29, count of alternatives at 32 */
    c = good, c.rules.bytes[19] = 0xFF;
    expect("rules, a row past the end", &c, JETTYFIG_REFUSED_LENGTH, 19);
    c = good, c.rules.bytes[20]--;
    expect("rules, a field past its row", &c, JETTYFIG_REFUSED_LENGTH, 32);
    c = good, c.rules.bytes[20]++;
    expect("rules, a byte left over", &c, JETTYFIG_REFUSED_LENGTH, 33);
    c = good, c.rules.bytes[21] |= 0x80, c.rules.bytes[25] = 0xFF;
    expect("rules, flags before source", &c, JETTYFIG_REFUSED_RANGE, 21);
    c = good, c.rules.bytes[25] = 0x11;
    expect("rules, source", &c, JETTYFIG_REFUSED_LETTER, 25);
    c = good, c.rules.bytes[31] = 0x7F;
    expect("rules, target", &c, JETTYFIG_REFUSED_BYTE, 31);
    c = good, c.rules.bytes[26] = 0;
    expect("rules, order", &c, JETTYFIG_REFUSED_ORDER, 19);
    c = good, put_many_rules(&c.rules);
    expect("rules, too many", &c, JETTYFIG_REFUSED_ROWS, 5 + MOST_RULES * sizeof SMALL_RULE);
    c = good, c.classes.bytes[5 + 6 + 3] = 8;
    expect("classes, second row", &c, JETTYFIG_REFUSED_CLASSES, 11);
    /* the first class row is the space's, which has no flag; any other may have all */
    c = good, c.classes.bytes[5 + 5] = 0x80;
    expect("classes, lower case of the space", &c, JETTYFIG_REFUSED_CLASSES, 5);
    c = good, c.classes.bytes[c.classes.length - 1] |= 0x80;
    expect("classes, lower case of another", &c, JETTYFIG_DONE, 0);
    c = good, c.vowels.bytes[9 + 1] = 2;
    expect("vowels, second row", &c, JETTYFIG_REFUSED_VOWELS, 9);
    c = good, c.vowels.length--, c.decompositions.length--;
    expect("vowels before decompositions", &c, JETTYFIG_REFUSED_VOWELS, 0);
    c = good, c.decompositions.length--, put(&c.code, "hi");
    expect("decompositions before code", &c, JETTYFIG_REFUSED_DECOMPOSITIONS, 0);
    c = good, c.decompositions.bytes[SECOND_FORM + 3] = 6;
    expect("decompositions, the second row's tag", &c, JETTYFIG_REFUSED_DECOMPOSITIONS, SECOND_FORM);
    c = good, memcpy(c.decompositions.bytes + SECOND_FORM + 5, "\0\x24\x60", 3);
    expect("decompositions, a character with a row", &c, JETTYFIG_REFUSED_DECOMPOSITIONS, SECOND_FORM);
    c = good, memcpy(c.decompositions.bytes + SECOND_FORM + 5, "\0\x0f\x40", 3);
    expect("decompositions, Tibetan", &c, JETTYFIG_REFUSED_DECOMPOSITIONS, SECOND_FORM);
    c = good, put(&c.code, "hi");
    expect("code", &c, JETTYFIG_REFUSED_CODE, 0);
    c = good, put(&c.text, "ab\xc0");
    expect("text", &c, JETTYFIG_REFUSED_UTF8, 2);
    c = good, memset(c.text.bytes, 'a', JETTYFIG_MOST_CHARACTERS + 1), c.text.length = JETTYFIG_MOST_CHARACTERS + 1;
    expect("long text", &c, JETTYFIG_REFUSED_TOO_LONG, JETTYFIG_MOST_CHARACTERS);
    c = good, put(&c.text, "a\xe0\xbd\x80");
    expect("Tibetan", &c, JETTYFIG_REFUSED_LEFT_OUT, 1);
    c = good, c.slots--;
    expect("slots", &c, JETTYFIG_REFUSED_SLOTS, 1);
    c = good, c.room--;
    expect("room", &c, JETTYFIG_REFUSED_ROOM, 1);
    c = good, c.out--;
    expect("output", &c, JETTYFIG_REFUSED_OUTPUT, 3);
    /* "12" by two edges, which are gone before its own */
    c = good, put(&c.text, "\xe2\x91\xa0"), c.room = 2, c.out = 2;
    expect("done, with a decomposition", &c, JETTYFIG_DONE, 0);
    c.slots--;
    expect("slots of a decomposition", &c, JETTYFIG_REFUSED_SLOTS, 0);
    c.slots++, c.room--;
    expect("room of a decomposition", &c, JETTYFIG_REFUSED_ROOM, 0);
    /* texts of 200 bytes are taken, and no longer ones */
    c = good, put(&c.text, "x"), put_long_rule(&c.rules, MOST_TARGET), c.room = MOST_TARGET, c.out = MOST_TARGET;
    expect("done, with a long target", &c, JETTYFIG_DONE, 0);
    c = good, put_long_rule(&c.rules, MOST_TARGET + 1);
    expect("rules, too long a target", &c, JETTYFIG_REFUSED_RANGE, TARGET_LENGTH);
    c = good, memset(c.text.bytes, 'a', JETTYFIG_MOST_CHARACTERS), c.text.length = JETTYFIG_MOST_CHARACTERS;
    expect("slots of the longest text", &c, JETTYFIG_REFUSED_SLOTS, 2);
    /* four times 200 bytes; three are enough for no refusal */
    c = good, put(&c.text, "a\xe2\x91\xa1"), put_long_rule(&c.rules, MOST_TARGET), c.slots = 48, c.room = 800, c.out = 800;
    expect("a decomposition's text", &c, JETTYFIG_REFUSED_EDGE_TEXT, 1);
    c.room--;
    expect("room before a decomposition's text", &c, JETTYFIG_REFUSED_ROOM, 1);
    c.decompositions.bytes[SECOND_FORM + 4]--, c.decompositions.bytes[4] -= 3, c.decompositions.length -= 3;
    expect("done, with a long decomposition", &c, JETTYFIG_DONE, 0);
    printf("%u runs, %u differ\n", runs, differ);
    return differ > 0;
}
