/* The longest text of a recording of a version, written from docs/formats.md: 65,536 pages, 1,000,000 events, 4,097 checkpoints
 * and 1,048,576 bytes of output; in version 2 each checkpoint changes all places of its table. Its numbers are random within their
 * ranges, so that it has no fault. It claims no real run.
 *
 *   longest FILE 1|2      writes the text to the file, and prints the time of one pass over it and of one copy of it
 */
#include "recording.h"
#include <time.h>

enum {
    SENT = MOST_SENT / (MOST_CHECKPOINTS - 1), /* by each checkpoint but the first */
    TURNS = 5
};

static uint64_t seed = 0x123456789ABCDEF;

static uint32_t any(void) {
    seed ^= seed << 13;
    seed ^= seed >> 7;
    seed ^= seed << 17;
    return (uint32_t)(seed >> 32);
}

static Event any_event(uint64_t count) {
    static const uint32_t mask[] = {0, 0xFFFFFFFF, 0xFFF, 0x073FF3FF, 0xFF, 0xFF};
    uint32_t kind = 1 + any() % 5;
    return (Event){count, kind, any() & mask[kind]};
}

/* A checkpoint that has another page than the one before it at each place. */
static void any_checkpoint(Checkpoint *c, int version, int k, const uint32_t *before) {
    static const uint32_t mask[] = {0xFFF, 0xFF, 0x073FF3FF, 0x1FF}; /* of the switches to the serial byte */
    uint32_t *parts = c->parts, keys = any() % (KEYS + 1);
    c->count = 1000000 * (uint64_t)k;
    for (int i = 0; i < 17; i++) parts[i] = any(); /* R0 to R15 and H */
    parts[17] = any() & 0x3FFFFF;
    parts[18] = any() & 15;
    parts[19] = any() % 5;
    parts[20] = any();
    for (int i = 0; i < 4; i++) parts[PHASE + 1 + i] = any() & mask[i];
    parts[PARTS - 1] = keys;
    for (uint32_t i = 0; i < KEYS; i++) c->keys[i] = (uint8_t)(i < keys ? any() : 0);
    c->sent = k == 0 ? 0 : SENT;
    parts[RATE] = 1000;
    if (version == 2) parts[PHASE] = any() % 1000;
    for (uint32_t p = 0; p < PAGES; p++)
        do c->table[p] = any() % (MOST_PAGES + 1);
        while (version == 2 && c->table[p] == before[p]);
}

static void fill(uint8_t *text, int version, size_t length) {
    static Checkpoint before, now;
    uint8_t *to = write_header(text, (uint32_t)version, MOST_PAGES, MOST_EVENTS, MOST_CHECKPOINTS);
    for (int i = 0; i < PAGE * MOST_PAGES; i++) to = write_number(to, any(), 4);
    for (int i = 0; i < MOST_EVENTS; i++) {
        Event event = any_event(4096 * (uint64_t)i);
        to = write_event(to, &event);
    }
    for (int k = 0; k < MOST_CHECKPOINTS; k++, before = now) {
        any_checkpoint(&now, version, k, before.table);
        to = write_checkpoint(to, (uint32_t)version, &now, before.table);
    }
    for (int i = 0; i < MOST_SENT; i++) to = write_number(to, any(), 1);
    if (to != text + length) abort();
}

static double now(void) {
    struct timespec t;
    clock_gettime(CLOCK_MONOTONIC, &t);
    return t.tv_sec * 1e3 + t.tv_nsec / 1e6;
}

/* The milliseconds of one pass: each four bytes are read once. */
static double pass(const uint8_t *text, size_t length) {
    uint32_t sum = 0, word;
    double from = now();
    for (size_t i = 0; i < length; i += 4) {
        memcpy(&word, text + i, 4);
        sum += word;
    }
    double took = now() - from;
    if (sum == 1) putchar(' '); /* uses the sum, so the compiler keeps the pass */
    return took;
}

/* The milliseconds of one copy into room that was just taken. */
static double copy(const uint8_t *text, size_t length) {
    double from = now();
    uint8_t *to = malloc(length);
    if (!to) abort();
    memcpy(to, text, length);
    double took = now() - from;
    if (memcmp(to, text, length)) abort();
    free(to);
    return took;
}

static double best(double (*measure)(const uint8_t *, size_t), const uint8_t *text, size_t length) {
    double least = measure(text, length);
    for (int i = 1; i < TURNS; i++) {
        double took = measure(text, length);
        if (took < least) least = took;
    }
    return least;
}

int main(int argc, char **argv) {
    if (argc != 3) return 1;
    int version = atoi(argv[2]);
    size_t length = most_bytes((uint32_t)version, MOST_PAGES, MOST_EVENTS, MOST_CHECKPOINTS, MOST_SENT);
    uint8_t *text = malloc(length);
    if (!text) return 1;
    fill(text, version, length);
    FILE *file = fopen(argv[1], "wb");
    if (!file || fwrite(text, 1, length, file) != length || fclose(file)) return 1;
    printf("%-22s %11zu bytes\n", "text", length);
    printf("%-22s %11.1f ms\n", "a pass in C", best(pass, text, length));
    printf("%-22s %11.1f ms\n", "a copy in C", best(copy, text, length));
    return 0;
}
