/* What counted.c, find.c, frames.c and past.c share: the initial state of a recording in the memory that the library's calls take, and the processor's clock. */
#include "galluspa.h"
#include <stdio.h>
#include <stdlib.h>
#include <time.h>

static uint8_t text[GALLUSPA_LONGEST + 1];
static uint32_t words[GALLUSPA_WORDS];
static galluspa_state state;
static const galluspa_input none; /* no pointer may be null */

static double seconds(void) {
    struct timespec now;
    clock_gettime(CLOCK_PROCESS_CPUTIME_ID, &now);
    return (double)now.tv_sec + 1e-9 * (double)now.tv_nsec;
}

/* Puts the initial state of the recording in a file into `state` and `words`. Returns the length of the file, which is in `text`. */
static size_t begin(const char *path) {
    FILE *file = fopen(path, "rb");
    if (!file) { perror(path); exit(3); }
    size_t length = fread(text, 1, sizeof text, file);
    fclose(file);
    if (galluspa_claim(text, length, 0, &state, words, GALLUSPA_WORDS)) {
        fprintf(stderr, "%s has no initial state\n", path);
        exit(2);
    }
    return length;
}
