/* find FILE ADDRESS TO: prints the count of the first store to the word at an address, and that of the last one, before the count
 * TO in the run of a recording, with the instruction that stores. An address is a hexadecimal number of bytes.
 *
 * The recording is taken to be true: check it first. start.h reads its inputs. */
#include "start.h"

enum { AT_ONCE = 4000000 }; /* the steps of a call, which takes about a tenth of a second */

static galluspa_state start, state;
static uint32_t start_words[GALLUSPA_WORDS], words[GALLUSPA_WORDS];
static uint8_t sent[1 << 20];

/* Advances the machine to a count. */
static void advance(const galluspa_input *inputs, size_t many, uint64_t to) {
    size_t count;
    if (galluspa_advance(&state, words, GALLUSPA_WORDS, inputs, many, to, sent, sizeof sent, &count)) die("not advanced");
}

/* Finds the first store to a word before a count, or the last one, piece by piece. Returns 0 if there is none. If there is one, the
 * machine is at its count. */
static int find(const galluspa_input *inputs, size_t many, uint32_t address, uint64_t to, uint32_t wanted) {
    galluspa_condition store = {.kind = GALLUSPA_STORE, .from = address & ~3u, .end = (address & ~3u) + 4};
    galluspa_hit hit = {0, 0};
    int found = 0;
    state = start;
    memcpy(words, start_words, sizeof words);
    while (state.count < to && !(found && wanted == GALLUSPA_FIRST)) {
        uint64_t end = to - state.count < AT_ONCE ? to : state.count + AT_ONCE;
        uint8_t answer = galluspa_find(&state, words, GALLUSPA_WORDS, inputs, many, end, &store, 1, wanted, &hit);
        if (answer != GALLUSPA_DONE && answer != GALLUSPA_NOT_FOUND) die("refused");
        found |= answer == GALLUSPA_DONE;
        advance(inputs, many, end);
    }
    if (!found) return 0;
    state = start;
    memcpy(words, start_words, sizeof words);
    advance(inputs, many, hit.count);
    return 1;
}

int main(int argc, char **argv) {
    galluspa_input *inputs;
    if (argc != 4) die("find FILE ADDRESS TO");
    size_t many = read_start(argv[1], &start, start_words, &inputs);
    uint32_t address = (uint32_t)strtoul(argv[2], 0, 16);
    uint64_t to = strtoull(argv[3], 0, 10);
    for (uint32_t wanted = GALLUSPA_FIRST; wanted <= GALLUSPA_LAST; wanted++) {
        const char *which = wanted == GALLUSPA_FIRST ? "first" : "last";
        if (!find(inputs, many, address, to, wanted)) { printf("no store\n"); break; }
        printf("%s store at %" PRIu64 ": %08" PRIX32 " at word %" PRIu32 "\n", which, state.count, words[state.pc], state.pc);
    }
    free(inputs);
    return 0;
}
