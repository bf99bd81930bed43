/* profile FILE TO: prints each word of memory whose instruction the run of a recording does before the count TO, with how often it does it,
 * and how often it branches there: `word visits departures`, the word number in hexadecimal.
 *
 * The recording is taken to be true: check it first. start.h reads its inputs. */
#include "start.h"

static galluspa_state start;
static uint32_t start_words[GALLUSPA_WORDS];
static uint64_t visits[GALLUSPA_WORDS], departures[GALLUSPA_WORDS];

int main(int argc, char **argv) {
    galluspa_input *inputs;
    if (argc != 3) die("profile FILE TO");
    size_t many = read_start(argv[1], &start, start_words, &inputs);
    uint64_t to = strtoull(argv[2], 0, 10);
    if (galluspa_profile(&start, start_words, GALLUSPA_WORDS, inputs, many, to, visits, GALLUSPA_WORDS, departures, GALLUSPA_WORDS)) die("refused");
    for (size_t p = 0; p < GALLUSPA_WORDS; p++)
        if (visits[p]) printf("%05zx %" PRIu64 " %" PRIu64 "\n", p, visits[p], departures[p]);
    free(inputs);
    return 0;
}
