/* goto FILE COUNT ..: goes to each of these counts of the run of a recording, one after the other, and prints the instruction there, its word
 * number, and how many pages of memory differ from those at the count before.
 *
 * No checkpoint is believed: the run is that from the initial state. start.h reads the file. */
#include "start.h"

static uint32_t words[GALLUSPA_WORDS]; /* zeros at first */
static galluspa_past past;             /* closed at first */
static galluspa_state state;
static uint64_t from = GALLUSPA_NO_COUNT; /* the count whose memory is in words */

/* Goes to a count: the machine there is in `state` and `words`. Returns how many pages differ. */
static size_t go_to(uint64_t at) {
    static galluspa_page changed[1024];
    static uint16_t slots[1024];
    size_t count;
    uint8_t result;

    do result = galluspa_past_at(&past, at, from, 10000000, &state, slots, changed, 1024, &count);
    while (result == GALLUSPA_MORE); /* a program with a window shows its progress here */
    if (result == GALLUSPA_LATER) die("a count after the last checkpoint");
    if (result) die("no memory");
    for (size_t i = 0; i < count; i++) memcpy(words + 256 * slots[i], changed[i].words, sizeof changed[i].words);
    from = at;
    return count;
}

int main(int argc, char **argv) {
    if (argc < 3) die("goto FILE COUNT ..");
    size_t length;
    uint8_t *text = read_recording(argv[1], &length);
    if (galluspa_past_open(&past, text, length, 0)) die("refused");
    free(text);
    for (int i = 2; i < argc; i++) {
        size_t differ = go_to(strtoull(argv[i], 0, 10));
        if (state.pc < GALLUSPA_WORDS) printf("%" PRIu64 ": %08" PRIX32 " at word %" PRIu32 ", %zu pages\n", state.count, words[state.pc], state.pc, differ);
    }
    galluspa_past_close(&past);
    return 0;
}
