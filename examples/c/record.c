/* record FILE STEPS EVERY: runs an emulator written in C from the first state of a recording, with its inputs, and records it while it
 * runs: a checkpoint every EVERY instructions, up to STEPS. Writes the recording to standard output.
 *
 * The emulator is reference/machine.h, and start.h reads the inputs. To record another one, replace load, seen and advance,
 * which are all that knows of it. */
#include "machine.h"
#include "start.h" /* after the emulator, which may be another than the one beside recording.h */

static Machine machine;
static galluspa_state state;
static uint32_t words[GALLUSPA_WORDS];

/* The C emulator gets the state. Its memory is the words. */
static void load(void) {
    machine.h = state.h; machine.pc = state.pc; machine.stop = (uint8_t)state.stop;
    machine.n = state.flags >> 3 & 1; machine.z = state.flags >> 2 & 1; machine.c = state.flags >> 1 & 1; machine.v = state.flags & 1;
    machine.timer = state.timer; machine.rate = state.rate; machine.phase = state.phase; machine.switches = state.switches;
    machine.leds = state.leds; machine.mouse = state.mouse; machine.serial = state.serial; machine.waiting = state.key_count;
    machine.disk = state.disk;
    memcpy(machine.r, state.r, sizeof machine.r);
    memcpy(machine.keys, state.keys, sizeof machine.keys);
    machine.memory = words;
}

/* The state of the C emulator at a count. */
static void seen(uint64_t count) {
    state = (galluspa_state){.count = count, .h = machine.h, .pc = machine.pc, .stop = machine.stop, .timer = machine.timer,
        .flags = (uint32_t)(machine.n << 3 | machine.z << 2 | machine.c << 1 | machine.v), .rate = machine.rate,
        .phase = machine.phase, .switches = machine.switches, .leds = machine.leds, .mouse = machine.mouse,
        .serial = machine.serial, .key_count = machine.waiting, .disk = machine.disk};
    memcpy(state.r, machine.r, sizeof state.r);
    memcpy(state.keys, machine.keys, machine.waiting);
}

/* Advances the C emulator to a count. What it sends is in machine.sent from then on. */
static void advance(const galluspa_input *inputs, size_t many, uint64_t to) {
    Event *events = calloc(many + 1, sizeof *events);
    if (!events) die("no memory");
    for (size_t i = 0; i < many; i++) events[i] = (Event){inputs[i].count, inputs[i].kind, inputs[i].value};
    size_t next = 0;
    machine.sent_length = 0;
    run(&machine, events, many, &next, state.count, to);
    free(events);
    seen(to);
}

/* A recording that grows: its bytes, and room for the next one. */
typedef struct { uint8_t *bytes; size_t length, room; } Text;

static void reserve(Text *text, size_t room) {
    if (room <= text->room) return;
    if (!(text->bytes = realloc(text->bytes, room))) die("no memory");
    text->room = room;
}

/* Begins the recording with the state, or extends it by the state, its inputs and what was sent. */
static void checkpoint(Text *text, const galluspa_input *inputs, size_t many) {
    static Text next;
    uint8_t refusal;
    reserve(&next, 1);
    do {
        refusal = text->length
            ? galluspa_extend(text->bytes, text->length, inputs, many, &state, words, GALLUSPA_WORDS,
                              machine.sent, machine.sent_length, next.bytes, next.room, &next.length)
            : galluspa_begin(&state, words, GALLUSPA_WORDS, next.bytes, next.room, &next.length);
        if (refusal == GALLUSPA_NO_ROOM) reserve(&next, 2 * next.length);
    } while (refusal == GALLUSPA_NO_ROOM);
    if (refusal) { fprintf(stderr, "the recording is refused: %u\n", refusal); exit(3); }
    Text old = *text;
    *text = next;
    next = old;
}

int main(int argc, char **argv) {
    static Text text;
    galluspa_input *inputs;
    if (argc != 4) die("record FILE STEPS EVERY");
    uint64_t steps = strtoull(argv[2], 0, 10), every = strtoull(argv[3], 0, 10);
    size_t many = read_start(argv[1], &state, words, &inputs), next = 0;
    if (!every) die("a checkpoint every 0 instructions");
    if (!(machine.sent = malloc(machine.sent_room = 4096))) die("no memory");
    load();
    checkpoint(&text, inputs, 0);
    while (state.count < steps) {
        uint64_t to = steps - state.count < every ? steps : state.count + every;
        size_t due = next;
        while (due < many && inputs[due].count < to) due++;
        advance(inputs + next, due - next, to);
        checkpoint(&text, inputs + next, due - next);
        next = due;
    }
    fwrite(text.bytes, 1, text.length, stdout);
    free(inputs);
    return ferror(stdout) ? 3 : 0;
}
