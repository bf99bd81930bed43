/* back FILE COUNT ADDRESS: goes back in the run of a recording from a count. Prints the calls that are open there, and the last three
 * instructions that stored to the word at an address before it, the last one first.
 *
 * start.h reads the file. */
#include "start.h"

enum { CALLS = 1000, TURNS = 4096, BUDGET = 10000000 };
static galluspa_past past; /* closed at first */

/* Ends if a call with the past was refused. */
static void expect(uint8_t result) {
    if (result == GALLUSPA_OUT_OF_RANGE || result == GALLUSPA_LATER) die("no such count, or no word of RAM");
    if (result == GALLUSPA_OUT_OF_MEMORY) die("no memory");
}

/* Prints the calls that are open at a count, the last one first. */
static void print_calls(uint64_t at) {
    static galluspa_call calls[CALLS];
    static galluspa_turn turns[TURNS];
    size_t open = 0, turned;
    uint64_t followed = 0;

    do expect(galluspa_past_calls(&past, &followed, at, UINT32_MAX, BUDGET, calls, CALLS, &open, turns, TURNS, &turned));
    while (followed < at); /* turns are full, or the budget is spent: go on */
    while (open-- > 0) printf("word %" PRIu32 ", called from word %" PRIu32 " at %" PRIu64 "\n", calls[open].to, calls[open].at, calls[open].count);
}

/* Finds the last store to a word before a count. Returns whether there is one, and then moves the count to it. */
static int go_back(uint64_t *at, uint32_t address) {
    galluspa_condition store = {.kind = GALLUSPA_STORE, .from = address, .end = address + 4};
    galluspa_hit hit;
    uint8_t result;

    do expect(result = galluspa_past_find(&past, 0, *at, &store, 1, GALLUSPA_LAST, BUDGET, &hit, at));
    while (result == GALLUSPA_MORE); /* *at is now the count before which to search */
    if (result == GALLUSPA_DONE) *at = hit.count;
    return result == GALLUSPA_DONE;
}

/* Prints what the instruction of a count stores. */
static void print_store(uint64_t at) {
    galluspa_trace_record it;
    uint64_t next = at;
    size_t count = 0;

    while (!count) expect(galluspa_past_records(&past, &next, at + 1, BUDGET, &it, 1, &count));
    printf("%" PRIu64 ": %08" PRIX32 " at word %" PRIu32 " stores %" PRIX32 " over %" PRIX32 "\n", at, it.word, it.state.pc, it.new_value, it.old_value);
}

int main(int argc, char **argv) {
    if (argc != 4) die("back FILE COUNT ADDRESS");
    size_t length;
    uint8_t *text = read_recording(argv[1], &length);
    if (galluspa_past_open(&past, text, length, 0)) die("refused");
    free(text);
    uint64_t at = strtoull(argv[2], 0, 10);
    print_calls(at);
    for (int i = 0; i < 3 && go_back(&at, (uint32_t)strtoul(argv[3], 0, 16)); i++) print_store(at);
    galluspa_past_close(&past);
    return 0;
}
