/* The stack that a call takes: stack FOLDER, which holds rules.bin, classes.bin, vowels.bin, decompositions.bin and labels.txt.
 *
 * The calls run on a stack of their own, which is painted before; the deepest byte that has changed tells how far they went. */
#include <stdio.h>
#include <stdlib.h>
#include <string.h>
#include <ucontext.h>

#include "jettyfig.h"

enum { STACK = 1 << 20, PAINT = 0xA5 };

static uint8_t stack[STACK];
static ucontext_t caller, callee;
static uint8_t slots[JETTYFIG_SLOTS_FOR(JETTYFIG_MOST_CHARACTERS)];
static uint8_t room[JETTYFIG_ROOM_FOR(JETTYFIG_MOST_CHARACTERS)];
static uint8_t out[JETTYFIG_ALL_EDGES_FOR(JETTYFIG_MOST_CHARACTERS)];

typedef struct {
    uint8_t *bytes;
    size_t length;
} file;

static file rules, classes, vowels, decompositions, text;
static uint8_t mode;
static jettyfig_answer answer;
/* the most of texts of at most 512 bytes, and of the longest */
static size_t most, most_of_longest, calls;
enum { SHORT_TEXT = 512, LABELS = 200, LONGEST = 4 };
/* a call works deeper on a decomposition */
static uint8_t forms[] = "①ＡＢＣ②";
static uint8_t longest[4 * JETTYFIG_MOST_CHARACTERS];

static file read_file(const char *folder, const char *name) {
    char path[4096];
    snprintf(path, sizeof path, "%s/%s", folder, name);
    FILE *f = fopen(path, "rb");
    if (!f) {
        perror(path);
        exit(2);
    }
    file r = {malloc(1 << 24), 0};
    r.length = fread(r.bytes, 1, 1 << 24, f);
    fclose(f);
    return r;
}

/* with readings, for which mode 2 has one step more */
static void call(void) {
    size_t n = text.length < JETTYFIG_MOST_CHARACTERS ? text.length : JETTYFIG_MOST_CHARACTERS;
    answer = jettyfig_romanize(mode, JETTYFIG_CAPITALS_OFF, JETTYFIG_O_ANG_OFF, JETTYFIG_READINGS_ON, rules.bytes,
                               rules.length, classes.bytes, classes.length, vowels.bytes, vowels.length, decompositions.bytes,
                               decompositions.length, (const uint8_t *)"", 0, text.bytes, text.length, slots, JETTYFIG_SLOTS_FOR(n),
                               room, JETTYFIG_ROOM_FOR(n), out, JETTYFIG_ALL_EDGES_FOR(n));
}

/* Bytes of the stack that one call on its own touches. */
static size_t used(void) {
    memset(stack, PAINT, STACK);
    getcontext(&callee);
    callee.uc_stack.ss_sp = stack;
    callee.uc_stack.ss_size = STACK;
    callee.uc_link = &caller;
    makecontext(&callee, call, 0);
    swapcontext(&caller, &callee);
    size_t k = 0;
    while (k < STACK && stack[k] == PAINT) k++;
    return STACK - k;
}

/* So many characters as a text may have, decompositions and then labels one behind the other, from a place on that is moved on. */
static size_t lay_out(file labels, size_t *at) {
    size_t length = sizeof forms - 1, n = 0;
    memcpy(longest, forms, length);
    for (size_t k = 0; k < length; k++) n += (longest[k] & 0xC0) != 0x80;
    for (; *at < labels.length; ++*at) {
        n += (labels.bytes[*at] & 0xC0) != 0x80;
        if (n > JETTYFIG_MOST_CHARACTERS) return length;
        longest[length++] = labels.bytes[*at];
    }
    fprintf(stderr, "there are too few labels\n");
    exit(2);
}

/* A text in each mode; what it takes is in `deepest` where that is more. */
static void run(uint8_t *bytes, size_t length, size_t *deepest) {
    text = (file){bytes, length};
    for (mode = 0; mode < 4; mode++, calls++) {
        size_t n = used();
        if (answer.number != JETTYFIG_DONE) {
            fprintf(stderr, "refused with %llu\n", (unsigned long long)answer.number);
            exit(1);
        }
        if (n > *deepest) *deepest = n;
    }
}

int main(int argc, char **argv) {
    if (argc != 2) {
        fprintf(stderr, "usage: stack FOLDER\n");
        return 2;
    }
    rules = read_file(argv[1], "rules.bin");
    classes = read_file(argv[1], "classes.bin");
    vowels = read_file(argv[1], "vowels.bin");
    decompositions = read_file(argv[1], "decompositions.bin");
    file labels = read_file(argv[1], "labels.txt");
    run(forms, sizeof forms - 1, &most);
    size_t at = 0;
    for (int k = 0; k < LABELS && at < labels.length; k++) {
        uint8_t *end = memchr(labels.bytes + at, '\n', labels.length - at);
        size_t length = end ? (size_t)(end - labels.bytes) - at : labels.length - at;
        if (length <= SHORT_TEXT) run(labels.bytes + at, length, &most);
        at += length + 1;
    }
    printf("stack: %zu bytes at most in %zu calls with texts of at most %d bytes\n", most, calls, SHORT_TEXT);
    calls = at = 0;
    for (int k = 0; k < LONGEST; k++) run(longest, lay_out(labels, &at), &most_of_longest);
    printf("stack: %zu bytes at most in %zu calls with texts of %d characters\n", most_of_longest, calls, JETTYFIG_MOST_CHARACTERS);
    return 0;
}
