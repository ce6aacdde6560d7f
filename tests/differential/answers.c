/* Answers calls with the library, for a program of another processor than the library's: an emulator runs this one.
 *
 * Standard input holds calls: mode, capitals, O ang, readings, the lengths of the nine slices, each a 4-byte number, then the slices, each
 * with its guard behind it. Standard output gets for each the library's answer, four 8-byte numbers, then the slices and guards as
 * the call has left them: whoever asks compares them. All numbers are little-endian, as this processor has them. */
#include "jettyfig.h"
#include <stdlib.h>
#include <string.h>
#include <unistd.h>

#define SLICES 9
#define GUARD 16

struct asked {
    uint32_t mode;
    uint32_t capitals;
    uint32_t o_ang;
    uint32_t readings;
    uint32_t length[SLICES];
};

static void quit_unless(int right) {
    if (!right) exit(1);
}

/* so many bytes of standard input; 0 where it ends before the first */
static int take(void *to, size_t n) {
    for (size_t had = 0; had < n;) {
        ssize_t more = read(0, (char *)to + had, n - had);
        if (more == 0 && had == 0) return 0;
        quit_unless(more > 0);
        had += (size_t)more;
    }
    return 1;
}

static void give(const char *from, size_t n) {
    while (n > 0) {
        ssize_t more = write(1, from, n);
        quit_unless(more > 0);
        from += more;
        n -= (size_t)more;
    }
}

static jettyfig_answer call(const struct asked *asked, uint8_t *s[SLICES]) {
    const uint32_t *n = asked->length;
    return jettyfig_romanize((uint8_t)asked->mode, (uint8_t)asked->capitals, (uint8_t)asked->o_ang, (uint8_t)asked->readings,
                             s[0], n[0], s[1], n[1], s[2], n[2], s[3], n[3], s[4], n[4], s[5], n[5], s[6], n[6], s[7], n[7],
                             s[8], n[8]);
}

int main(void) {
    char *given = NULL; /* the answer's place, and the slices behind it */
    for (struct asked asked; take(&asked, sizeof asked);) {
        jettyfig_answer answer;
        size_t start[SLICES], size = sizeof answer;
        for (int k = 0; k < SLICES; k++) {
            start[k] = size;
            size += asked.length[k] + GUARD;
        }
        given = realloc(given, size);
        quit_unless(given != NULL && take(given + sizeof answer, size - sizeof answer));
        uint8_t *slice[SLICES];
        for (int k = 0; k < SLICES; k++) slice[k] = (uint8_t *)given + start[k];
        answer = call(&asked, slice);
        memcpy(given, &answer, sizeof answer);
        give(given, size);
    }
    return 0;
}
