/* frames FILE FRAMES STEPS: prints the microseconds that galluspa_advance takes for a frame of STEPS steps, from the initial state of a
 * recording and without its inputs: the least, and the mean. With 0 steps, that is what a call takes to start a machine and to end it.
 * By the processor's time. */
#include "library.h"

static uint8_t sent[1 << 16];

/* The seconds of one frame. */
static double frame(uint64_t steps) {
    size_t sent_count;
    double start = seconds();
    uint8_t answer = galluspa_advance(&state, words, GALLUSPA_WORDS, &none, 0, state.count + steps, sent, sizeof sent, &sent_count);
    if (answer != GALLUSPA_DONE) {
        fprintf(stderr, "a frame answers %u\n", answer);
        exit(3);
    }
    return seconds() - start;
}

int main(int argc, char **argv) {
    if (argc != 4) return 4;
    begin(argv[1]);
    int frames = atoi(argv[2]);
    uint64_t steps = strtoull(argv[3], NULL, 10);
    double least = 1e9, all = 0;
    for (int i = 0; i < frames; i++) {
        double took = frame(steps);
        all += took;
        if (took < least) least = took;
    }
    printf(" %9.1f %9.1f", 1e6 * least, 1e6 * all / frames);
    return 0;
}
