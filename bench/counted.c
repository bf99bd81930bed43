/* counted FILE STEPS TURNS [profile]: prints how many million steps a second galluspa_advance, galluspa_profile, galluspa_calls and
 * galluspa_records do from the initial state of a recording, with its inputs, and how fast the second and the third are as a share of the
 * first. The best of TURNS turns, by the processor's time. The records are of 1,000,000 steps at most. With `profile`, it calls
 * galluspa_profile alone, and prints nothing. */
#include "library.h"
#include "recording.h"

enum { RECORDED = 1000000, OPEN = 4096, TURNED = 65536 };

static galluspa_input *inputs;
static size_t many;
static uint64_t visits[GALLUSPA_WORDS], departures[GALLUSPA_WORDS];
static galluspa_trace_record records[RECORDED];
static galluspa_call open_calls[OPEN];
static galluspa_turn turned[TURNED];
static uint8_t sent[1 << 21];

/* Runs a number of steps in some way, and returns how many there were. */
typedef uint64_t Way(uint64_t steps);

static void done(const char *name, uint8_t answer) {
    if (answer == GALLUSPA_DONE) return;
    fprintf(stderr, "%s answers %u\n", name, answer);
    exit(3);
}

/* What a call that changes its machine runs: a copy. */
static uint32_t memory[GALLUSPA_WORDS];

static uint64_t advance(uint64_t steps) {
    galluspa_state now = state;
    size_t length;
    memcpy(memory, words, sizeof words);
    done("galluspa_advance", galluspa_advance(&now, memory, GALLUSPA_WORDS, inputs, many, now.count + steps, sent, sizeof sent, &length));
    return steps;
}

static uint64_t profile(uint64_t steps) {
    done("galluspa_profile", galluspa_profile(&state, words, GALLUSPA_WORDS, inputs, many, state.count + steps, visits, GALLUSPA_WORDS, departures, GALLUSPA_WORDS));
    return steps;
}

/* A call ends where it has no room for another turn, and the next one goes on from there. */
static uint64_t follow(uint64_t steps) {
    galluspa_state now = state;
    size_t present = 0, turns;
    memcpy(memory, words, sizeof words);
    for (uint64_t to = now.count + steps; now.count < to;)
        done("galluspa_calls", galluspa_calls(&now, memory, GALLUSPA_WORDS, inputs, many, to, 0, open_calls, OPEN, &present, turned, TURNED, &turns));
    return steps;
}

static uint64_t record(uint64_t steps) {
    galluspa_state now = state;
    if (steps > RECORDED) steps = RECORDED;
    memcpy(memory, words, sizeof words);
    done("galluspa_records", galluspa_records(&now, memory, GALLUSPA_WORDS, inputs, many, records, steps));
    return steps;
}

/* The million steps a second of a way. */
static double speed(Way *way, uint64_t steps) {
    double start = seconds();
    return (double)way(steps) / (seconds() - start) / 1e6;
}

static void read_inputs(void) {
    Event *events = read_events(text, &many);
    if (!(inputs = malloc((many + 1) * sizeof *inputs))) die("no memory");
    for (size_t i = 0; i < many; i++) inputs[i] = (galluspa_input){events[i].count, events[i].kind, events[i].value};
    free(events);
}

int main(int argc, char **argv) {
    if (argc != 4 && !(argc == 5 && !strcmp(argv[4], "profile"))) return 4;
    begin(argv[1]);
    read_inputs();
    uint64_t steps = strtoull(argv[2], NULL, 10);
    int turns = atoi(argv[3]);
    if (argc == 5) {
        for (; turns > 0; turns--) profile(steps);
        return 0;
    }
    /* The ways take turns, since a virtual machine's speed changes from second to second; each number is the best of its turns. */
    Way *ways[] = {advance, profile, follow, record};
    double best[4] = {0};
    for (; turns > 0; turns--)
        for (int i = 0; i < 4; i++) {
            double now = speed(ways[i], steps);
            if (now > best[i]) best[i] = now;
        }
    printf(" %10.1f %10.1f %7.2f %10.1f %7.2f %8.1f\n", best[0], best[1], best[1] / best[0], best[2], best[2] / best[0], best[3]);
    return 0;
}
