/* lockstep [-f FRAME] [-n STEPS] FILE..: runs an emulator written in C beside the proved machine, and prints the first instruction
 * after which they differ, with both states. A FILE is a recording: both begin with its first state, take its inputs, and run to
 * its last checkpoint. A FILE that is a number is a seed: both run a random program with random inputs for STEPS instructions.
 *
 * The two are compared every FRAME instructions; a frame at whose end they differ is run again in frames of a tenth, down to a
 * single instruction. With -f 1 each instruction is compared. Ends with status 0 if they never differ, and 1 if they do.
 *
 * The emulator is reference/machine.h, and start.h reads the inputs. To test another one, replace load, seen and advance,
 * which are all that knows of it. */
#include "machine.h"
#include "start.h" /* after the emulator, which may be another than the one beside recording.h */

enum { SENT = 1 << 20 };

/* A machine of either kind: a state, its words, and what it sent in the last frame. */
typedef struct {
    galluspa_state state;
    uint32_t words[GALLUSPA_WORDS];
    uint8_t sent[SENT];
    size_t sent_count;
} Side;

static Machine machine;

/* The C emulator gets a state. Its words are those of the side. */
static void load(Side *side) {
    const galluspa_state *s = &side->state;
    machine.h = s->h; machine.pc = s->pc; machine.stop = (uint8_t)s->stop;
    machine.n = s->flags >> 3 & 1; machine.z = s->flags >> 2 & 1; machine.c = s->flags >> 1 & 1; machine.v = s->flags & 1;
    machine.timer = s->timer; machine.rate = s->rate; machine.phase = s->phase; machine.switches = s->switches;
    machine.leds = s->leds; machine.mouse = s->mouse; machine.serial = s->serial; machine.waiting = s->key_count;
    machine.disk = s->disk;
    memcpy(machine.r, s->r, sizeof machine.r);
    memcpy(machine.keys, s->keys, sizeof machine.keys);
    machine.memory = side->words; machine.sent = side->sent; machine.sent_room = SENT; machine.sent_length = 0;
}

/* The state of the C emulator. */
static void seen(Side *side, uint64_t count) {
    galluspa_state s = {.count = count, .h = machine.h, .pc = machine.pc, .stop = machine.stop, .timer = machine.timer,
        .flags = (uint32_t)(machine.n << 3 | machine.z << 2 | machine.c << 1 | machine.v), .rate = machine.rate,
        .phase = machine.phase, .switches = machine.switches, .leds = machine.leds, .mouse = machine.mouse,
        .serial = machine.serial, .key_count = machine.waiting, .disk = machine.disk};
    memcpy(s.r, machine.r, sizeof s.r);
    memcpy(s.keys, machine.keys, machine.waiting);
    side->state = s;
    side->sent_count = machine.sent_length;
}

/* Advances the C emulator to a count. */
static void advance(Side *side, const galluspa_input *inputs, size_t many, uint64_t to) {
    static Event events[1 << 20];
    for (size_t i = 0; i < many; i++) events[i] = (Event){inputs[i].count, inputs[i].kind, inputs[i].value};
    size_t next = 0;
    load(side);
    run(&machine, events, many, &next, side->state.count, to);
    seen(side, to);
}

/* Advances the proved machine to a count. */
static void advance_proved(Side *side, const galluspa_input *inputs, size_t many, uint64_t to) {
    uint8_t code = galluspa_advance(&side->state, side->words, GALLUSPA_WORDS, inputs, many, to, side->sent, SENT, &side->sent_count);
    if (code) { fprintf(stderr, "the proved machine is not advanced: %u\n", code); exit(3); }
}

static int same(const Side *a, const Side *b) {
    return !memcmp(&a->state, &b->state, sizeof a->state) && !memcmp(a->words, b->words, sizeof a->words)
        && a->sent_count == b->sent_count && !memcmp(a->sent, b->sent, a->sent_count);
}

static void row(const char *name, uint64_t before, uint64_t c, uint64_t proved) {
    printf("  %-10s %10" PRIX64 "  %10" PRIX64 "  %10" PRIX64 "%s\n", name, before, c, proved, c == proved ? "" : "  <--");
}

/* Prints both states after an instruction, and the one before it. */
static void print(const char *name, const Side *before, const Side *c, const Side *proved) {
    const galluspa_state *o = &before->state, *a = &c->state, *b = &proved->state;
    char label[24];
    printf("%s: differs after instruction %" PRIu64 ", ", name, o->count);
    if (o->pc < GALLUSPA_WORDS) printf("%08" PRIX32 " at word %" PRIu32 "\n", before->words[o->pc], o->pc);
    else printf("no word at %" PRIu32 "\n", o->pc);
    printf("  %-10s %10s  %10s  %10s\n", "", "before", "in C", "proved");
    for (int i = 0; i < 16; i++) {
        snprintf(label, sizeof label, "R%d", i);
        row(label, o->r[i], a->r[i], b->r[i]);
    }
    row("H", o->h, a->h, b->h); row("PC", o->pc, a->pc, b->pc); row("flags", o->flags, a->flags, b->flags);
    row("stop", o->stop, a->stop, b->stop); row("timer", o->timer, a->timer, b->timer); row("phase", o->phase, a->phase, b->phase);
    row("switches", o->switches, a->switches, b->switches); row("LEDs", o->leds, a->leds, b->leds);
    row("mouse", o->mouse, a->mouse, b->mouse); row("serial", o->serial, a->serial, b->serial);
    row("keys", o->key_count, a->key_count, b->key_count);
    row("sent bytes", 0, c->sent_count, proved->sent_count);
    for (int i = 0; i < GALLUSPA_WORDS; i++)
        if (c->words[i] != proved->words[i]) {
            snprintf(label, sizeof label, "word %d", i);
            row(label, before->words[i], c->words[i], proved->words[i]);
        }
}

/* Runs both from the state of `c` to a count, and returns whether they differ. */
static int compare(const char *name, Side *c, const galluspa_input *inputs, size_t many, uint64_t to, uint64_t frame) {
    static Side proved, before;
    proved = *c;
    while (c->state.count < to) {
        uint64_t end = to - c->state.count < frame ? to : c->state.count + frame;
        while (many && inputs->count < c->state.count) { inputs++; many--; }
        size_t due = 0;
        while (due < many && inputs[due].count < end) due++;
        before = *c;
        advance(c, inputs, due, end);
        advance_proved(&proved, inputs, due, end);
        if (same(c, &proved)) continue;
        if (frame == 1) { print(name, &before, c, &proved); return 1; }
        *c = before;
        proved = before;
        frame = (frame + 9) / 10;
    }
    printf("%s: the same at %" PRIu64 ", stop %" PRIu32 "\n", name, to, c->state.stop);
    return 0;
}

static uint64_t seed;
static uint32_t any(void) { seed ^= seed << 13; seed ^= seed >> 7; seed ^= seed << 17; return (uint32_t)(seed >> 32); }

/* A random program. Operations and loads write R0 to R11; loads and stores are at R12 (memory, sometimes the program's own) and at
 * R13 and R14 (devices), and loads also at R15, which links write; branches go forward. One word in 4,096 is any word, so that most
 * programs run for long before they stop. */
static void fill(Side *c) {
    memset(c, 0, sizeof *c);
    c->state.rate = any() % 9;
    for (int i = 0; i < 12; i++) c->state.r[i] = any() % 4 ? any() : any() % 4096;
    c->state.r[12] = any() % 4 ? 65536 + any() % 32768 : any() % 16384;
    c->state.r[13] = c->state.r[14] = 0xffffc0;
    for (int i = 0; i < 4095; i++) {
        uint32_t word = any(), kind = any() % 8, a = any() % 12 << 24, b = any() % 16 << 20, op = any() % 12 << 16;
        uint32_t base = 12 + any() % 4;
        if (kind < 4) word = a | b | op | (op == 11 << 16 ? 0x40000000 | (word & 0x20007fff) | 1 : word & 0x7000ffff);
        else if (kind < 6) word = 0x80000000 | (word & (base == 15 ? 0x10000000 : 0x30000000)) | a | base << 20 | (base % 3 ? word & 63 : word & 4095);
        else if (kind < 7 || any() % 512) word = 0xe0000000 | (word & 0x1f000000) | any() % 8;
        c->words[i] = word;
    }
    c->words[4095] = 0xe7000000 | ((0u - 4096) & 0x3fffff);
}

static size_t inputs_at_random(galluspa_input *inputs, size_t many, uint64_t steps) {
    static const uint32_t mask[] = {0, 0xffffffff, 0xfff, 0x073ff3ff, 0xff, 0xff};
    for (size_t i = 0; i < many; i++) {
        uint32_t kind = 1 + any() % 5;
        inputs[i] = (galluspa_input){i * steps / many, kind, any() & mask[kind]};
    }
    return many;
}

/* The inputs of a recording, whose first state goes to the side; its last count goes to `to`. */
static size_t inputs_of(const char *name, Side *c, galluspa_input **inputs, uint64_t *to) {
    static Side last;
    size_t length;
    uint8_t *text = read_recording(name, &length);
    read_claim(name, text, length, 0, &c->state, c->words);
    read_claim(name, text, length, (uint32_t)number(text + 16, 4) - 1, &last.state, last.words);
    *to = last.state.count;
    size_t many = read_inputs(text, inputs);
    free(text);
    return many;
}

int main(int argc, char **argv) {
    static Side c;
    uint64_t frame = 100000, steps = 20000;
    int differ = 0, first = 1;
    for (; first + 1 < argc && argv[first][0] == '-'; first += 2) {
        if (argv[first][1] == 'f') frame = strtoull(argv[first + 1], 0, 10);
        if (argv[first][1] == 'n') steps = strtoull(argv[first + 1], 0, 10);
    }
    if (!frame) frame = 1;
    for (int i = first; i < argc; i++) {
        galluspa_input *inputs;
        size_t many;
        uint64_t to = steps;
        char *end;
        seed = strtoull(argv[i], &end, 10) * 0x9E3779B97F4A7C15u + 1;
        if (*end) many = inputs_of(argv[i], &c, &inputs, &to);
        else {
            fill(&c);
            if (!(inputs = malloc(100 * sizeof *inputs))) die("no memory");
            many = inputs_at_random(inputs, 100, steps);
        }
        differ |= compare(argv[i], &c, inputs, many, to, frame);
        free(inputs);
    }
    return differ;
}
