/* past FILE COUNTS: prints what the past of a recording costs, in milliseconds of the processor's time: to open it; to run to its end the
 * first time, which adds the keyframes; to go to a random count from the last one, of COUNTS such questions the median, the 95th in a
 * hundred and the most; to find the last hit of a condition that never holds; the megabytes of keyframes and pages; and a frame of 400,000 instructions of a live machine, by
 * galluspa_past_run and by galluspa_advance. */
#include "library.h"

enum { FRAME = 400000, FRAMES = 250 };

static galluspa_past past; /* closed at first */
static uint16_t slots[1024];
static galluspa_page changed[1024];
static uint8_t sent[1 << 16];

/* Ends if a call answers something else than it is to. */
static void expect(const char *what, uint8_t answer, uint8_t wanted) {
    if (answer == wanted) return;
    fprintf(stderr, "%s answers %u in place of %u\n", what, answer, wanted);
    exit(3);
}

/* The milliseconds since a moment. */
static double since(double start) { return 1e3 * (seconds() - start); }

/* The milliseconds until the past is at a count, for a caller that has the memory of another. */
static double go_to(uint64_t at, uint64_t from) {
    galluspa_state there;
    size_t count;
    double start = seconds();
    expect("at", galluspa_past_at(&past, at, from, UINT64_MAX, &there, slots, changed, 1024, &count), GALLUSPA_DONE);
    return since(start);
}

static int by_size(const void *one, const void *other) {
    double a = *(const double *)one, b = *(const double *)other;
    return (a > b) - (a < b);
}

/* Prints the median, the 95th in a hundred and the most of random questions about a run that ends at a count. */
static void ask(uint64_t end, size_t counts) {
    double *took = calloc(counts, sizeof *took);
    uint64_t random = 1, from = GALLUSPA_NO_COUNT;
    for (size_t i = 0; i < counts; i++) {
        random = random * 6364136223846793005u + 1442695040888963407u;
        uint64_t at = (random >> 20) % (end + 1);
        took[i] = go_to(at, from);
        from = at;
    }
    qsort(took, counts, sizeof *took, by_size);
    printf(" %8.2f %8.2f %8.2f", took[counts / 2], took[counts * 95 / 100], took[counts - 1]);
    free(took);
}

/* The milliseconds of a search for the last hit of a condition that never holds. */
static double search(uint64_t end) {
    const galluspa_condition never = {.kind = GALLUSPA_STORE, .from = 0xFFF00, .end = 0xFFF04};
    galluspa_hit hit;
    uint64_t progress;
    double start = seconds();
    expect("find", galluspa_past_find(&past, 0, end, &never, 1, GALLUSPA_LAST, UINT64_MAX, &hit, &progress), GALLUSPA_NOT_FOUND);
    return since(start);
}

/* The milliseconds of a frame of a live machine that keeps its past. */
static double frame_of_past(void) {
    size_t count;
    expect("begin", galluspa_past_begin(&past, &state, words, GALLUSPA_WORDS, 0), GALLUSPA_DONE);
    double start = seconds();
    for (uint64_t to = state.count + FRAME, end = state.count + FRAMES * FRAME; to <= end; to += FRAME) {
        uint8_t answer;
        do answer = galluspa_past_run(&past, to, UINT64_MAX, sent, sizeof sent, &count);
        while (answer == GALLUSPA_MORE); /* at a keyframe */
        expect("run", answer, GALLUSPA_DONE);
    }
    return since(start) / FRAMES;
}

/* The milliseconds of a frame by a call that takes the machine and gives it back. */
static double frame_alone(void) {
    size_t count;
    double start = seconds();
    for (int i = 0; i < FRAMES; i++)
        expect("advance", galluspa_advance(&state, words, GALLUSPA_WORDS, &none, 0, state.count + FRAME, sent, sizeof sent, &count), GALLUSPA_DONE);
    return since(start) / FRAMES;
}

int main(int argc, char **argv) {
    if (argc != 3) return 4;
    size_t length = begin(argv[1]);
    double start = seconds();
    expect("open", galluspa_past_open(&past, text, length, 0), GALLUSPA_DONE);
    double opened = since(start);
    galluspa_extent extent;
    expect("extent", galluspa_past_extent(&past, &extent), GALLUSPA_DONE);
    printf(" %8.2f %8.0f", opened, go_to(extent.end, GALLUSPA_NO_COUNT));
    ask(extent.end, strtoull(argv[2], NULL, 10));
    printf(" %8.0f", search(extent.end));
    expect("extent", galluspa_past_extent(&past, &extent), GALLUSPA_DONE);
    printf(" %8.1f", 1e-6 * (4400.0 * (double)extent.keyframes + 1024.0 * (double)extent.pages));
    printf(" %8.2f", frame_of_past());
    printf(" %8.2f\n", frame_alone());
    galluspa_past_close(&past);
    return 0;
}
