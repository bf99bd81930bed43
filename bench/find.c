/* find FILE STEPS TURNS [hits]: prints how many million steps a second galluspa_find does from the initial state of a recording, without its
 * inputs, with conditions that never hold: a word that the program counter never comes to; a word that is never stored to as well;
 * a value that R11 never becomes as well, which few programs write; and one that R0 never becomes, which most write all the time. With
 * `hits`, also how many million hits a second galluspa_hits writes, each a store. The best of TURNS turns, by the processor's time. */
#include "library.h"
#include <string.h>

/* The seconds of one search with the first of the conditions, of which the last one is on a register. */
static double search(uint64_t steps, size_t conditions, uint32_t number) {
    const galluspa_condition never[] = {
        {.kind = GALLUSPA_COUNTER, .from = 0x3FFFFF, .end = 0x400000},
        {.kind = GALLUSPA_STORE, .from = 0xFFF00, .end = 0xFFF04},
        {.kind = GALLUSPA_BECOMES, .from = number, .value = 0x12345678},
    };
    galluspa_hit hit;
    double start = seconds();
    uint8_t answer = galluspa_find(&state, words, GALLUSPA_WORDS, &none, 0, state.count + steps, never, conditions, GALLUSPA_FIRST, &hit);
    if (answer != GALLUSPA_NOT_FOUND) {
        fprintf(stderr, "the search answers %u\n", answer);
        exit(3);
    }
    return seconds() - start;
}

/* The million hits a second of a list of all stores to memory. */
static double list(uint64_t steps) {
    enum { ROOM = 65536 };
    static uint32_t memory[GALLUSPA_WORDS];
    static galluspa_hit hits[ROOM];
    const galluspa_condition stores = {.kind = GALLUSPA_STORE, .from = 0, .end = 4 * GALLUSPA_WORDS};
    galluspa_state now = state;
    uint64_t all = 0, to = now.count + steps;
    memcpy(memory, words, sizeof words);
    double start = seconds();
    for (size_t many; now.count < to; all += many)
        if (galluspa_hits(&now, memory, GALLUSPA_WORDS, &none, 0, to, &stores, 1, hits, ROOM, &many) != GALLUSPA_DONE) exit(3);
    return (double)all / (seconds() - start) / 1e6;
}

/* Prints the million steps a second of the best search. */
static void measure(uint64_t steps, int turns, size_t conditions, uint32_t number) {
    double best = 1e9;
    for (; turns > 0; turns--) {
        double took = search(steps, conditions, number);
        if (took < best) best = took;
    }
    printf(" %8.1f", (double)steps / best / 1e6);
}

int main(int argc, char **argv) {
    if (argc != 4 && !(argc == 5 && !strcmp(argv[4], "hits"))) return 4;
    begin(argv[1]);
    uint64_t steps = strtoull(argv[2], NULL, 10);
    int turns = atoi(argv[3]);
    for (size_t conditions = 1; conditions <= 3; conditions++) measure(steps, turns, conditions, 11);
    measure(steps, turns, 3, 0);
    double best = 0;
    for (int turn = 0; argc == 5 && turn < turns; turn++) {
        double now = list(steps);
        if (now > best) best = now;
    }
    if (argc == 5) printf(" %8.1f", best);
    printf("\n");
    return 0;
}
