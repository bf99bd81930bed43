/* Follows the calls of random programs by their definition, naively: at each count all open calls are looked at. The machine is the
 * plain one of reference/machine.h. galluspa_calls has to say the same, however its runs are cut: by the count up to which they go, and by
 * the room for calls and turns.
 *
 *   cc -Ireference followed.c -lgalluspa && ./a.out SEED PROGRAMS
 *
 * It prints how much was compared, or the first difference, with status 1. */
#include "galluspa.h"
#include "machine.h"

/* The counts of each program, and the number of its words: some of the first are drawn, and the others jump to the first. */
enum { COUNTS = 400, CODE = 64, MOST_CODE = 32, EVENTS = 6 };
/* What a turn says where no call is made. */
#define NO_CALL 0xFFFFFFFFu

static uint64_t seed;
/* The open calls at each count, and what changed them. */
static galluspa_call stacks[COUNTS + 1][COUNTS];
static size_t heights[COUNTS + 1];
static galluspa_turn turns[COUNTS];
static size_t turned[COUNTS + 1];
static uint64_t made, ended, cuts, steps, most;

static uint32_t draw(uint32_t below) {
    seed = seed * 6364136223846793005u + 1442695040888963407u;
    return (uint32_t)(seed >> 33) % below;
}

static _Noreturn void differ(const char *what, uint64_t count) {
    printf("%s differ at count %" PRIu64 "\n", what, count);
    exit(1);
}

/* ---- the definition */

/* A branch with this word, which is taken, led from the word pc to where the machine is now. R14 is what it was before. */
static void follow(const Machine *m, uint32_t pc, uint32_t w, uint32_t limit, uint64_t n) {
    size_t height = heights[n], stay = height;
    const galluspa_call *open = stacks[n];
    galluspa_call call = {n, pc, m->pc, pc + 1, m->r[14]};
    int links = w >> 28 & 1, returns = 0;
    for (size_t i = height; i-- > 0;) {
        int back = open[i].sp == call.sp && open[i].back == m->pc, again = links && open[i].sp == call.sp && open[i].at == pc;
        if (back) returns = 1;
        if (back || again || (call.sp > open[i].sp && call.sp <= limit)) stay = i;
    }
    int calls = links && !returns;
    memcpy(stacks[n + 1], open, stay * sizeof *open);
    heights[n + 1] = stay;
    if (calls) stacks[n + 1][heights[n + 1]++] = call;
    if (heights[n + 1] > most) most = heights[n + 1];
    made += (uint64_t)calls, ended += height - stay;
    if (stay == height && !calls) return;
    turns[turned[n + 1]++] = calls ? (galluspa_turn){n, stay, call.at, call.to, call.back, call.sp} : (galluspa_turn){n, stay, NO_CALL, 0, 0, 0};
}

/* Does the step of a count, after its inputs. A branch to the next word, a stop and what a stopped machine does change nothing. */
static void step_naively(Machine *m, const galluspa_input *inputs, uint64_t n, uint32_t limit) {
    memcpy(stacks[n + 1], stacks[n], heights[n] * sizeof **stacks);
    heights[n + 1] = heights[n];
    turned[n + 1] = turned[n];
    for (int i = 0; i < EVENTS; i++)
        if (inputs[i].count == n) take(m, &(Event){n, inputs[i].kind, inputs[i].value});
    if (m->stop) return;
    uint32_t pc = m->pc, w = pc < WORDS ? m->memory[pc] : 0;
    int taken = pc < WORDS && w >> 30 == 3 && holds(m, w >> 24 & 15);
    step(m);
    if (m->stop) return;
    if (m->rate) tick(m);
    if (taken && m->pc != pc + 1) follow(m, pc, w, limit, n);
}

/* ---- programs */

#define MOVI(a, n) (0x40000000u | (uint32_t)(a) << 24 | ((n) & 0xffff))
#define MOVR(a, c) (0x00000000u | (uint32_t)(a) << 24 | (c))
#define ADDI(a, n) (0x40080000u | (uint32_t)(a) << 24 | (uint32_t)(a) << 20 | ((n) & 0xffff))
#define SUBI(a, n) (0x40090000u | (uint32_t)(a) << 24 | (uint32_t)(a) << 20 | ((n) & 0xffff))
#define LDR(a, b, n) (0x80000000u | (uint32_t)(a) << 24 | (uint32_t)(b) << 20 | ((n) & 0xfffff))
#define STR(a, b, n) (0xa0000000u | (uint32_t)(a) << 24 | (uint32_t)(b) << 20 | ((n) & 0xfffff))
#define JUMP(kind, from, to) ((uint32_t)(kind) << 24 | (((to) - (from) - 1) & 0x3fffff))
enum { B = 0xe7, BEQ = 0xe1, BL = 0xf7, BLNE = 0xf9 };
#define BR(c) (0xc7000000u | (c))
#define BLR(c) (0xd7000000u | (c))

/* Words that call, return, jump, move R14, write code, wait for keys, send, and sometimes stop. */
static uint32_t word_at(uint32_t i, uint32_t length) {
    uint32_t to = draw(length), r = 4 * draw(3);
    const uint32_t of[] = {JUMP(BL, i, to), JUMP(BL, i, to), JUMP(BL, i, to), JUMP(BLNE, i, to), BR(15), BR(15), BR(15), BLR(15), JUMP(B, i, to),
        JUMP(BEQ, i, to), SUBI(14, r), SUBI(14, r), ADDI(14, r), STR(15, 14, 0), LDR(15, 14, 0), MOVI(14, 0x400), MOVI(1, to), STR(1, 2, 4 * to),
        BLR(3), MOVI(3, 4 * to), SUBI(0, 1), MOVR(12, 14), MOVR(14, 12), LDR(4, 5, 24), STR(0, 5, 8), JUMP(B, i, i), JUMP(B, i, i + 1), LDR(4, 6, 0)};
    uint32_t kinds = sizeof of / sizeof *of - (draw(8) != 0);
    return of[draw(kinds)];
}

static void draw_program(galluspa_state *state, uint32_t *words, galluspa_input *inputs) {
    uint32_t length = 4 + draw(MOST_CODE - 4), count = 0;
    for (uint32_t i = 0; i < CODE; i++) words[i] = i < length ? word_at(i, length) : JUMP(B, i, 0);
    *state = (galluspa_state){.rate = draw(4), .disk = 255};
    state->r[0] = 5, state->r[12] = state->r[14] = 0x400, state->r[5] = 0xffffffc0, state->r[6] = 0x800000;
    if (state->rate) state->phase = draw(state->rate);
    for (int i = 0; i < EVENTS; i++) {
        count += draw(COUNTS / EVENTS);
        inputs[i] = draw(2) ? (galluspa_input){count, 4, 32 + draw(95)} : (galluspa_input){count, 2, draw(4096)};
    }
}

/* ---- the library */

static void compare_calls(const galluspa_call *found, size_t length, uint64_t count) {
    if (length != heights[count]) differ("the numbers of open calls", count);
    for (size_t i = 0; i < length; i++) {
        const galluspa_call *a = &found[i], *b = &stacks[count][i];
        if (a->count != b->count || a->at != b->at || a->to != b->to || a->back != b->back || a->sp != b->sp) differ("the open calls", count);
    }
}

static void compare_turns(const galluspa_turn *found, size_t length, uint64_t from, uint64_t to) {
    if (length != turned[to] - turned[from]) differ("the numbers of turns", to);
    for (size_t i = 0; i < length; i++) {
        const galluspa_turn *a = &found[i], *b = &turns[turned[from] + i];
        if (a->count != b->count || a->stay != b->stay || a->at != b->at || a->to != b->to || a->back != b->back || a->sp != b->sp)
            differ("the turns", b->count);
    }
}

/* Where a run from a count has to end: at the first count at which a list is full. */
static uint64_t end_of(uint64_t from, uint64_t to, size_t height, size_t room) {
    for (uint64_t n = from + 1; n < to; n++)
        if (turned[n] - turned[from] == room || heights[n] == height) return n;
    return to;
}

static void run_library(galluspa_state *state, uint32_t *words, const galluspa_input *inputs, uint32_t limit) {
    static galluspa_call open[COUNTS + 64];
    static galluspa_turn found[COUNTS];
    size_t height = 0;
    while (state->count < COUNTS) {
        uint64_t from = state->count, to = from + 1 + draw(draw(2) ? 8 : COUNTS);
        size_t room = 1 + draw(draw(2) ? 4 : COUNTS), most_calls = height + 1 + draw(draw(2) ? 3 : 60), written = 0;
        if (to > COUNTS) to = COUNTS;
        if (room > COUNTS) room = COUNTS;
        uint8_t code = galluspa_calls(state, words, GALLUSPA_WORDS, inputs, EVENTS, to, limit, open, most_calls, &height, found, room, &written);
        if (code) printf("refused with %d\n", code), differ("answers", from);
        if (state->count != end_of(from, to, most_calls, room)) differ("the ends", state->count);
        compare_calls(open, height, state->count);
        compare_turns(found, written, from, state->count);
        cuts++;
    }
}

int main(int argc, char **argv) {
    static uint32_t first[WORDS], words[WORDS];
    galluspa_input inputs[EVENTS];
    galluspa_state state;
    if (argc != 3) die("followed SEED PROGRAMS");
    seed = strtoull(argv[1], NULL, 10);
    uint64_t programs = strtoull(argv[2], NULL, 10);
    for (uint64_t p = 0; p < programs; p++) {
        const uint32_t limits[] = {0xffffffff, 0x400, 0x3fc, 0x3f0, 0};
        uint32_t limit = limits[draw(5)];
        draw_program(&state, first, inputs);
        memcpy(words, first, CODE * sizeof *words);
        memset(words + CODE, 0, (0x500 / 4 - CODE) * sizeof *words);
        memset(first + CODE, 0, (0x500 / 4 - CODE) * sizeof *first);
        Machine m = {.memory = first, .rate = state.rate, .phase = state.phase};
        memcpy(m.r, state.r, sizeof m.r);
        heights[0] = turned[0] = 0;
        for (uint64_t n = 0; n < COUNTS; n++, steps++) step_naively(&m, inputs, n, limit);
        run_library(&state, words, inputs, limit);
        if (memcmp(m.r, state.r, sizeof m.r) || m.pc != state.pc || m.stop != state.stop) differ("the machines", COUNTS);
        if (memcmp(first, words, 0x500)) differ("the words", COUNTS);
        free(m.sent);
    }
    printf("%" PRIu64 " steps in %" PRIu64 " runs: %" PRIu64 " calls, most open %" PRIu64 ", %" PRIu64 " ended\n", steps, cuts, made, most, ended);
    return 0;
}
