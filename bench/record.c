/* Makes recordings to measure with, of programs that never end. Their states are those of the plain machine in machine.h.
 *
 *   record PROGRAM STEPS CHECKPOINTS [RATE]    writes a recording of STEPS steps, with CHECKPOINTS checkpoints after the first, and
 *                                              with a timer that counts each RATE instructions; without it, or with 0, none
 *
 *   sort      fills an array with random numbers, makes one pass of a bubble sort through a procedure with a frame, and sieves
 *             primes in bytes
 *   calls     computes Fibonacci numbers by two calls for each, one of them through a procedure variable, with parameters and
 *             results in frames
 *   poll      asks for keys, serial bytes, switches and the time, over and over, and counts its turns; a key comes each ten
 *             thousand counts
 *   display   fills the screen word by word, and then inverts it word by word
 *   inputs    jumps to itself while a switch moves at each count: at most 1,000,000 steps
 *   sends     sends a byte with nearly each instruction: at most 1,000,000 steps
 *   small, medium, large   call 30, 200 and 2,500 procedures as a compiler makes them: 1,300, 8,400 and 105,000 words of code
 *   division  the same with 200, and each fourth statement divides and reads the remainder
 *   modules   calls a procedure in each of 200 modules, which change variables that lie beside their code
 *   mouse     waits for the mouse, and counts its changes; it moves each 8,000,000 counts
 *   oberon    the main loop of Oberon: waits for the mouse and the keyboard, and does the tasks that are due; the mouse moves as often
 *   far       branches over more than a page of code: one that is taken each other time, and one that always is
 *   carries   adds and subtracts, with C in four of eight instructions
 *   lamps     writes to the LEDs in one of eight instructions
 *   loader    writes 64 procedures over older ones, and calls each of them once
 *   patched   changes two neighbouring words of its own loop in each turn, right before it comes to them
 *   spaced    does what sort does while a switch moves at each 100th count: at most 100,000,000 steps
 */
#include "recording.h"

/* ---- a small assembler ---- */

static uint32_t imm(uint32_t op, uint32_t a, uint32_t b, int32_t im) {
    return 0x40000000u | (im < 0) << 28 | a << 24 | b << 20 | op << 16 | (im & 0xffff);
}
static uint32_t reg(uint32_t op, uint32_t a, uint32_t b, uint32_t c) { return a << 24 | b << 20 | op << 16 | c; }
static uint32_t high(uint32_t a, uint32_t im) { return 0x60000000u | a << 24 | im; }
static uint32_t load(uint32_t a, uint32_t b, int32_t off) { return 0x80000000u | a << 24 | b << 20 | (off & 0xfffff); }
static uint32_t store(uint32_t a, uint32_t b, int32_t off) { return 0x20000000u | load(a, b, off); }
static uint32_t with_carry(uint32_t sum) { return sum | 0x20000000u; }
static uint32_t jump_by_register(uint32_t link, uint32_t c) { return 0xC7000000u | link << 28 | c; }
enum { BYTE = 1 << 28, MOV = 0, LSL, ASR, ROR, AND, ANN, IOR, XOR, ADD, SUB, MUL, DIV };
enum { EQ = 1, LT = 5, LE = 6, ALWAYS = 7, NE = 9, GE = 13, GT = 14 };
enum { STACK = 14, LINK = 15 };
enum { DEVICES = -64, SWITCHES = 4, SERIAL = 8, STATUS = 12, MOUSE = 24, KEYBOARD = 28 };
enum { SCREEN = 0xE7F00, SCREEN_WORDS = 24576 };

typedef struct { uint32_t *words; uint32_t at; } Code;
static void emit(Code *code, uint32_t w) { code->words[code->at++] = w; }
static uint32_t branch_word(uint32_t from, uint32_t condition, uint32_t link, uint32_t to) {
    return 0xE0000000u | link << 28 | condition << 24 | ((to - from - 1) & 0x3fffff);
}
static void jump(Code *code, uint32_t condition, uint32_t to) { emit(code, branch_word(code->at, condition, 0, to)); }
static void call(Code *code, uint32_t to) { emit(code, branch_word(code->at, ALWAYS, 1, to)); }
/* A word that becomes a branch to what follows once `land` is called for it. */
static uint32_t later(Code *code) { return code->at++; }
static void land(Code *code, uint32_t word, uint32_t condition) {
    code->words[word] = branch_word(word, condition, 0, code->at);
}

/* ---- the programs ---- */

/* R13 and R12 point to the array and to the bytes. */
static void sort(uint32_t *memory) {
    Code c = {memory, 0};
    uint32_t pass, sieve, loop, skip, done, inner, outer;
    jump(&c, ALWAYS, 64);
    c.at = 3;
    pass = c.at;
    emit(&c, imm(SUB, STACK, STACK, 8)); emit(&c, store(LINK, STACK, 0)); emit(&c, imm(MOV, 0, 0, 0));
    loop = c.at;
    emit(&c, imm(LSL, 3, 0, 2)); emit(&c, reg(ADD, 3, 3, 13)); emit(&c, load(5, 3, 0)); emit(&c, load(6, 3, 4));
    emit(&c, reg(SUB, 7, 5, 6));
    skip = later(&c);
    emit(&c, store(6, 3, 0)); emit(&c, store(5, 3, 4));
    land(&c, skip, LE);
    emit(&c, imm(ADD, 0, 0, 1)); emit(&c, imm(SUB, 4, 0, 1023)); jump(&c, LT, loop);
    emit(&c, load(LINK, STACK, 0)); emit(&c, imm(ADD, STACK, STACK, 8)); emit(&c, jump_by_register(0, LINK));
    sieve = c.at;
    emit(&c, imm(MOV, 0, 0, 0)); emit(&c, imm(MOV, 1, 0, 1));
    loop = c.at;
    emit(&c, reg(ADD, 2, 12, 0)); emit(&c, store(1, 2, 0) | BYTE); emit(&c, imm(ADD, 0, 0, 1)); emit(&c, imm(SUB, 3, 0, 8192));
    jump(&c, LT, loop);
    emit(&c, imm(MOV, 0, 0, 2));
    outer = c.at;
    emit(&c, reg(ADD, 2, 12, 0)); emit(&c, load(3, 2, 0) | BYTE);
    skip = later(&c);
    emit(&c, reg(ADD, 4, 0, 0)); emit(&c, imm(MOV, 6, 0, 0));
    inner = c.at;
    emit(&c, imm(SUB, 5, 4, 8192));
    done = later(&c);
    emit(&c, reg(ADD, 2, 12, 4)); emit(&c, store(6, 2, 0) | BYTE); emit(&c, reg(ADD, 4, 4, 0));
    jump(&c, ALWAYS, inner);
    land(&c, skip, EQ); land(&c, done, GE);
    emit(&c, imm(ADD, 0, 0, 1)); emit(&c, imm(SUB, 5, 0, 91)); jump(&c, LT, outer);
    emit(&c, jump_by_register(0, LINK));
    c.at = 64;
    emit(&c, high(STACK, 8)); emit(&c, high(13, 1)); emit(&c, high(12, 2));
    emit(&c, high(11, 0x41C6)); emit(&c, imm(IOR, 11, 11, 0x4E6D));
    outer = c.at;
    emit(&c, imm(MOV, 0, 0, 0));
    loop = c.at;
    emit(&c, reg(MUL, 10, 10, 11)); emit(&c, imm(ADD, 10, 10, 12345)); emit(&c, imm(ROR, 9, 10, 7)); emit(&c, reg(XOR, 9, 9, 10));
    emit(&c, imm(LSL, 3, 0, 2)); emit(&c, reg(ADD, 3, 3, 13)); emit(&c, store(9, 3, 0));
    emit(&c, imm(ADD, 0, 0, 1)); emit(&c, imm(SUB, 4, 0, 1024)); jump(&c, LT, loop);
    call(&c, pass);
    call(&c, sieve);
    jump(&c, ALWAYS, outer);
}

/* R13 points to the module's variables: the result, and the procedure variable. */
static void calls(uint32_t *memory) {
    enum { FRAME = 12, RETURN = 0, PARAMETER = 4, FIRST = 8, RESULT = 0, PROCEDURE = 4 };
    Code c = {memory, 0};
    uint32_t fibonacci, further, out, loop;
    jump(&c, ALWAYS, 64);
    fibonacci = c.at;
    emit(&c, imm(SUB, STACK, STACK, FRAME)); emit(&c, store(LINK, STACK, RETURN)); emit(&c, store(0, STACK, PARAMETER));
    emit(&c, load(0, STACK, PARAMETER)); emit(&c, imm(SUB, 1, 0, 2));
    further = later(&c);
    emit(&c, load(0, STACK, PARAMETER));
    out = later(&c);
    land(&c, further, GE);
    emit(&c, load(0, STACK, PARAMETER)); emit(&c, imm(SUB, 0, 0, 1)); call(&c, fibonacci);
    emit(&c, store(0, STACK, FIRST));
    emit(&c, load(0, STACK, PARAMETER)); emit(&c, imm(SUB, 0, 0, 2));
    emit(&c, load(2, 13, PROCEDURE)); emit(&c, jump_by_register(1, 2));
    emit(&c, load(1, STACK, FIRST)); emit(&c, reg(ADD, 0, 1, 0));
    land(&c, out, ALWAYS);
    emit(&c, load(LINK, STACK, RETURN)); emit(&c, imm(ADD, STACK, STACK, FRAME)); emit(&c, jump_by_register(0, LINK));
    c.at = 64;
    emit(&c, high(STACK, 8)); emit(&c, high(13, 1));
    emit(&c, imm(MOV, 0, 0, (int32_t)(4 * fibonacci))); emit(&c, store(0, 13, PROCEDURE));
    loop = c.at;
    emit(&c, imm(MOV, 0, 0, 20)); call(&c, fibonacci); emit(&c, store(0, 13, RESULT));
    jump(&c, ALWAYS, loop);
}

/* R13 points to the variables: keys so far, serial bytes so far, the switches, the time, the turns, and a ring of the last 256 keys. It
 * counts its turns, so that it never comes back to a state. */
static void poll(uint32_t *memory) {
    enum { KEYS_SEEN = 0, BYTES_SEEN = 4, SWITCHES_SEEN = 8, TIME_SEEN = 12, TURNS = 16, RING = 1024 };
    Code c = {memory, 0};
    uint32_t loop, no_key, no_byte, no_time;
    emit(&c, high(13, 1)); emit(&c, imm(MOV, 12, 0, DEVICES)); emit(&c, high(11, 0x1000));
    loop = c.at;
    emit(&c, load(3, 13, TURNS)); emit(&c, imm(ADD, 3, 3, 1)); emit(&c, store(3, 13, TURNS));
    emit(&c, load(0, 12, MOUSE)); emit(&c, reg(AND, 1, 0, 11));
    no_key = later(&c);
    emit(&c, load(2, 12, KEYBOARD));
    emit(&c, load(3, 13, KEYS_SEEN)); emit(&c, imm(AND, 4, 3, 255)); emit(&c, reg(ADD, 4, 4, 13)); emit(&c, store(2, 4, RING) | BYTE);
    emit(&c, imm(ADD, 3, 3, 1)); emit(&c, store(3, 13, KEYS_SEEN));
    land(&c, no_key, EQ);
    emit(&c, load(0, 12, STATUS)); emit(&c, imm(AND, 1, 0, 1));
    no_byte = later(&c);
    emit(&c, load(2, 12, SERIAL)); emit(&c, load(3, 13, BYTES_SEEN)); emit(&c, imm(ADD, 3, 3, 1)); emit(&c, store(3, 13, BYTES_SEEN));
    land(&c, no_byte, EQ);
    emit(&c, load(0, 12, SWITCHES)); emit(&c, imm(AND, 0, 0, 255)); emit(&c, store(0, 13, SWITCHES_SEEN));
    emit(&c, load(0, 12, 0)); emit(&c, load(1, 13, TIME_SEEN)); emit(&c, reg(SUB, 2, 0, 1));
    no_time = later(&c);
    emit(&c, store(0, 13, TIME_SEEN));
    land(&c, no_time, EQ);
    jump(&c, ALWAYS, loop);
}

/* R12 points to the screen, R10 holds what is drawn. */
static void display(uint32_t *memory) {
    Code c = {memory, 0};
    uint32_t outer, fill, invert;
    emit(&c, high(12, SCREEN >> 16)); emit(&c, imm(IOR, 12, 12, SCREEN & 0xffff)); emit(&c, imm(MOV, 11, 0, -1));
    outer = c.at;
    emit(&c, imm(ADD, 10, 10, 0x1357)); emit(&c, reg(MOV, 1, 0, 12)); emit(&c, imm(MOV, 2, 0, SCREEN_WORDS));
    fill = c.at;
    emit(&c, store(10, 1, 0)); emit(&c, imm(ADD, 1, 1, 4)); emit(&c, imm(SUB, 2, 2, 1)); jump(&c, NE, fill);
    emit(&c, reg(MOV, 1, 0, 12)); emit(&c, imm(MOV, 2, 0, SCREEN_WORDS));
    invert = c.at;
    emit(&c, load(3, 1, 0)); emit(&c, reg(XOR, 3, 3, 11)); emit(&c, store(3, 1, 0));
    emit(&c, imm(ADD, 1, 1, 4)); emit(&c, imm(SUB, 2, 2, 1)); jump(&c, NE, invert);
    jump(&c, ALWAYS, outer);
}

/* ---- programs of a system's size: many procedures as a compiler makes them, called one after the other ---- */

/* A sequence of numbers that looks random, and is the same each time. */
typedef struct { uint32_t state; } Choice;
static uint32_t below(Choice *choice, uint32_t limit) {
    choice->state = choice->state * 1664525u + 1013904223u;
    return (choice->state >> 8) % limit;
}

/* A statement over the variables of the frame at R14 and a table at R13. Each `division`th one is DIV, whose remainder is read from H. */
static void statement(Code *c, Choice *choice, uint32_t division) {
    static const int32_t divisors[] = {3, 7, 10, 100};
    uint32_t skip, kind = division && !below(choice, division) ? 7 : below(choice, 7);
    switch (kind) {
    case 0: emit(c, load(0, STACK, 8)); emit(c, load(1, STACK, 12)); emit(c, reg(ADD, 0, 0, 1)); emit(c, store(0, STACK, 16)); break;
    case 1: emit(c, load(0, STACK, 8)); emit(c, imm(LSL, 0, 0, 2)); emit(c, reg(ADD, 0, 13, 0)); emit(c, load(1, 0, 0));
        emit(c, imm(ADD, 1, 1, 1)); emit(c, store(1, 0, 0)); break;
    case 2: emit(c, load(0, STACK, 4)); emit(c, imm(SUB, 2, 0, 5)); skip = later(c);
        emit(c, imm(ADD, 0, 0, 3)); emit(c, store(0, STACK, 4)); land(c, skip, GT); break;
    case 3: emit(c, load(0, STACK, 8)); emit(c, reg(ADD, 1, 13, 0)); emit(c, load(2, 1, 0) | BYTE);
        emit(c, store(2, STACK, 20) | BYTE); break;
    case 4: emit(c, load(0, STACK, 16)); emit(c, imm(AND, 0, 0, 255)); emit(c, imm(XOR, 0, 0, 85)); emit(c, store(0, STACK, 16)); break;
    case 5: emit(c, load(0, STACK, 12)); emit(c, imm(MUL, 0, 0, 10)); emit(c, load(1, STACK, 8)); emit(c, reg(SUB, 0, 0, 1));
        emit(c, store(0, STACK, 12)); break;
    case 6: emit(c, load(0, STACK, 20)); emit(c, imm(SUB, 3, 0, 0)); skip = later(c);
        emit(c, imm(MOV, 0, 0, 1)); emit(c, store(0, STACK, 20)); land(c, skip, NE); break;
    default: emit(c, load(0, STACK, 8)); emit(c, imm(ADD, 0, 0, 12345)); emit(c, imm(DIV, 0, 0, divisors[below(choice, 4)]));
        emit(c, 1u << 29 | reg(MOV, 0, 0, 0)); emit(c, store(0, STACK, 12));
    }
}

/* A procedure with a frame of 32 bytes, whose loop goes over its statements three times. */
static void procedure(Code *c, Choice *choice, uint32_t division) {
    uint32_t loop, many = 4 + below(choice, 5);
    emit(c, imm(SUB, STACK, STACK, 32)); emit(c, store(LINK, STACK, 0)); emit(c, store(0, STACK, 4));
    emit(c, imm(MOV, 1, 0, 0)); emit(c, store(1, STACK, 8));
    loop = c->at;
    while (many--) statement(c, choice, division);
    emit(c, load(1, STACK, 8)); emit(c, imm(ADD, 1, 1, 1)); emit(c, store(1, STACK, 8)); emit(c, imm(SUB, 2, 1, 3)); jump(c, LT, loop);
    emit(c, load(LINK, STACK, 0)); emit(c, imm(ADD, STACK, STACK, 32)); emit(c, jump_by_register(0, LINK));
}

/* A procedure of a module whose 12 variables and 24 words of strings lie right before it. It is too short to have a loop. */
static void module(Code *c, Choice *choice) {
    uint32_t many = 6 + below(choice, 9), data = 4 * c->at, skip;
    c->at += 36;
    emit(c, imm(SUB, STACK, STACK, 16)); emit(c, store(LINK, STACK, 0)); emit(c, high(1, data >> 16));
    emit(c, imm(IOR, 1, 1, (int32_t)(data & 0xffff)));
    while (many--) {
        int32_t one = 4 * (int32_t)below(choice, 12), other = 4 * (int32_t)below(choice, 12);
        emit(c, load(0, 1, one));
        switch (below(choice, 3)) {
        case 0: emit(c, imm(ADD, 0, 0, 1)); break;
        case 1: emit(c, load(2, 1, other)); emit(c, reg(ADD, 0, 0, 2)); break;
        default: emit(c, imm(SUB, 2, 0, 7)); skip = later(c); emit(c, imm(ADD, 0, 0, 3)); land(c, skip, GT);
        }
        emit(c, store(0, 1, one));
    }
    emit(c, load(LINK, STACK, 0)); emit(c, imm(ADD, STACK, STACK, 16)); emit(c, jump_by_register(0, LINK));
}

/* Calls a number of procedures, over and over. The stack is at 80000 hexadecimal and the table at 90000. */
static void system_of(uint32_t *memory, uint32_t many, uint32_t division, int of_modules) {
    Code c = {memory, 0}, body = {memory, 1024};
    Choice choice = {7};
    uint32_t top;
    emit(&c, high(STACK, 8)); emit(&c, high(13, 9));
    top = c.at;
    if (many > 900) body.at = 4096;
    while (many--) {
        if (of_modules) {
            uint32_t to = body.at + 36;
            module(&body, &choice);
            call(&c, to);
            body.at += below(&choice, 40);
        } else {
            call(&c, body.at);
            procedure(&body, &choice, division);
        }
    }
    jump(&c, ALWAYS, top);
}

static void small(uint32_t *memory) { system_of(memory, 30, 0, 0); }
static void medium(uint32_t *memory) { system_of(memory, 200, 0, 0); }
static void large(uint32_t *memory) { system_of(memory, 2500, 0, 0); }
static void division(uint32_t *memory) { system_of(memory, 200, 4, 0); }
static void modules(uint32_t *memory) { system_of(memory, 200, 0, 1); }

/* ---- programs that wait ---- */

/* R11 has the mouse word that was seen last, and R13 points to the number of changes. */
static void mouse(uint32_t *memory) {
    Code c = {memory, 0};
    uint32_t loop;
    emit(&c, high(13, 1)); emit(&c, imm(MOV, 12, 0, DEVICES));
    loop = c.at;
    emit(&c, load(0, 12, MOUSE)); emit(&c, reg(SUB, 1, 0, 11)); jump(&c, EQ, loop);
    emit(&c, reg(MOV, 11, 0, 0)); emit(&c, load(2, 13, 0)); emit(&c, imm(ADD, 2, 2, 1)); emit(&c, store(2, 13, 0));
    jump(&c, ALWAYS, loop);
}

static void enter(Code *c, int32_t frame) { emit(c, imm(SUB, STACK, STACK, frame)); emit(c, store(LINK, STACK, 0)); }
static void leave(Code *c, int32_t frame) {
    emit(c, load(LINK, STACK, 0)); emit(c, imm(ADD, STACK, STACK, frame)); emit(c, jump_by_register(0, LINK));
}

/* The variables of `oberon`, from R13 on: what the mouse says, what it said before, the present task, and the turns that tasks did. A task
 * is four words in a ring: the next task, the time when it is due, its period, and how many turns it does. */
enum { KEYS_DOWN = 0, X = 4, Y = 8, X_BEFORE = 12, Y_BEFORE = 16, TASK = 20, TYPED = 24, TURNS_DONE = 28, TASKS = 256 };
enum { NEXT = 0, DUE = 4, PERIOD = 8, LENGTH = 12 };

/* Stores fields of the mouse word at the addresses in R0, R1 and R2. */
static uint32_t ask_mouse(Code *c) {
    enum { FRAME = 20, WORD = 16 };
    uint32_t from = c->at;
    enter(c, FRAME); emit(c, store(0, STACK, 4)); emit(c, store(1, STACK, 8)); emit(c, store(2, STACK, 12));
    emit(c, imm(MOV, 0, 0, DEVICES + MOUSE)); emit(c, load(0, 0, 0)); emit(c, store(0, STACK, WORD));
    for (int32_t field = 0; field < 3; field++) {
        static const int32_t low[] = {24, 0, 12}, mask[] = {7, 0x3ff, 0x3ff};
        emit(c, load(0, STACK, WORD)); emit(c, imm(ASR, 0, 0, low[field])); emit(c, imm(AND, 0, 0, mask[field]));
        emit(c, load(1, STACK, 4 + 4 * field)); emit(c, store(0, 1, 0));
    }
    leave(c, FRAME);
    return from;
}

/* Returns a field of a device word in R0. */
static uint32_t ask_device(Code *c, int32_t word, int32_t low, int32_t mask) {
    uint32_t from = c->at;
    enter(c, 8); emit(c, imm(MOV, 0, 0, DEVICES + word)); emit(c, load(0, 0, 0)); emit(c, imm(ROR, 0, 0, low));
    if (mask) emit(c, imm(AND, 0, 0, mask));
    emit(c, store(0, STACK, 4)); emit(c, load(0, STACK, 4));
    leave(c, 8);
    return from;
}

/* Does as many turns as R0 says, of a few instructions over a variable. */
static uint32_t work(Code *c) {
    uint32_t loop, from = c->at;
    enter(c, 8); emit(c, imm(MOV, 2, 0, 0));
    loop = c->at;
    emit(c, load(3, 13, TURNS_DONE)); emit(c, reg(ADD, 3, 3, 2)); emit(c, imm(XOR, 3, 3, 85)); emit(c, store(3, 13, TURNS_DONE));
    emit(c, imm(ADD, 2, 2, 1)); emit(c, reg(SUB, 4, 2, 0)); jump(c, LT, loop);
    leave(c, 8);
    return from;
}

static void ring_of_tasks(Code *c) {
    static const int32_t periods[] = {1000, 250, 100}, lengths[] = {2000, 20, 20};
    for (int32_t i = 0; i < 3; i++) {
        int32_t task = TASKS + 16 * i;
        emit(c, imm(ADD, 0, 13, TASKS + 16 * ((i + 1) % 3))); emit(c, store(0, 13, task + NEXT));
        emit(c, imm(MOV, 0, 0, periods[i])); emit(c, store(0, 13, task + DUE)); emit(c, store(0, 13, task + PERIOD));
        emit(c, imm(MOV, 0, 0, lengths[i])); emit(c, store(0, 13, task + LENGTH));
    }
    emit(c, imm(ADD, 0, 13, TASKS)); emit(c, store(0, 13, TASK));
}

static void oberon(uint32_t *memory) {
    Code c = {memory, 0};
    uint32_t start = later(&c), of_mouse = ask_mouse(&c), available = ask_device(&c, MOUSE, 28, 1), time = ask_device(&c, 0, 0, 0);
    uint32_t working = work(&c), again, no_key, moved, still;
    land(&c, start, ALWAYS);
    emit(&c, high(STACK, 8)); emit(&c, high(13, 1)); ring_of_tasks(&c);
    again = c.at;
    emit(&c, imm(ADD, 0, 13, KEYS_DOWN)); emit(&c, imm(ADD, 1, 13, X)); emit(&c, imm(ADD, 2, 13, Y)); call(&c, of_mouse);
    call(&c, available); emit(&c, imm(SUB, 0, 0, 0));
    no_key = later(&c);
    emit(&c, imm(MOV, 0, 0, DEVICES + KEYBOARD)); emit(&c, load(0, 0, 0)); emit(&c, store(0, 13, TYPED));
    land(&c, no_key, EQ);
    emit(&c, load(0, 13, X)); emit(&c, load(1, 13, X_BEFORE)); emit(&c, reg(SUB, 0, 0, 1));
    moved = later(&c);
    emit(&c, load(0, 13, Y)); emit(&c, load(1, 13, Y_BEFORE)); emit(&c, reg(SUB, 0, 0, 1));
    still = later(&c);
    land(&c, moved, NE);
    emit(&c, load(0, 13, X)); emit(&c, store(0, 13, X_BEFORE)); emit(&c, load(0, 13, Y)); emit(&c, store(0, 13, Y_BEFORE));
    emit(&c, imm(MOV, 0, 0, 200)); call(&c, working);
    land(&c, still, EQ);
    emit(&c, load(0, 13, TASK)); emit(&c, load(0, 0, NEXT)); emit(&c, store(0, 13, TASK)); call(&c, time);
    emit(&c, load(1, 13, TASK)); emit(&c, load(2, 1, DUE)); emit(&c, reg(SUB, 2, 0, 2)); jump(&c, LT, again);
    emit(&c, load(2, 1, PERIOD)); emit(&c, reg(ADD, 0, 0, 2)); emit(&c, store(0, 1, DUE)); emit(&c, load(0, 1, LENGTH)); call(&c, working);
    jump(&c, ALWAYS, again);
}

/* ---- programs that leave the loop at each step ---- */

static void inputs(uint32_t *memory) { memory[0] = 0xE7FFFFFFu; }

static void sends(uint32_t *memory) {
    Code c = {memory, 0};
    emit(&c, imm(MOV, 12, 0, DEVICES));
    while (c.at < WORDS - 1) emit(&c, store(12, 12, SERIAL));
    jump(&c, ALWAYS, 1);
}

/* ---- programs that meet one slow spot each ---- */

static void far(uint32_t *memory) {
    enum { FIRST = 16, APART = 300, BLOCKS = 24 };
    Code c = {memory, 0};
    jump(&c, ALWAYS, FIRST);
    for (uint32_t block = 0; block < BLOCKS; block++) {
        uint32_t next = FIRST + APART * ((block + 1) % BLOCKS);
        c.at = FIRST + APART * block;
        emit(&c, imm(ADD, 0, 0, 1)); emit(&c, imm(AND, 1, 0, 1)); jump(&c, EQ, next);
        emit(&c, imm(SUB, 2, 0, 0)); jump(&c, ALWAYS, next);
    }
}

static void carries(uint32_t *memory) {
    Code c = {memory, 0};
    emit(&c, reg(ADD, 0, 0, 1)); emit(&c, with_carry(reg(ADD, 2, 2, 3))); emit(&c, with_carry(imm(ADD, 4, 4, 7)));
    emit(&c, reg(SUB, 5, 5, 0)); emit(&c, with_carry(reg(SUB, 6, 6, 2))); emit(&c, with_carry(imm(SUB, 7, 7, 9)));
    emit(&c, imm(ADD, 1, 1, 77)); jump(&c, ALWAYS, 0);
}

static void lamps(uint32_t *memory) {
    Code c = {memory, 0};
    uint32_t loop;
    emit(&c, imm(MOV, 12, 0, DEVICES));
    loop = c.at;
    emit(&c, store(3, 12, SWITCHES)); emit(&c, reg(SUB, 1, 0, 2)); emit(&c, imm(ADD, 2, 0, 0)); emit(&c, imm(ADD, 3, 3, 1));
    emit(&c, imm(AND, 4, 3, 7)); emit(&c, imm(XOR, 5, 4, 1)); emit(&c, imm(ADD, 6, 6, 1)); jump(&c, ALWAYS, loop);
}

static void loader(uint32_t *memory) {
    enum { KEPT = 0x2000, LOADED = 0x4000, LENGTH = 8, PROCEDURES = 64 };
    Code c = {memory, KEPT};
    uint32_t turn, loop;
    for (int32_t i = 0; i < PROCEDURES; i++) {
        emit(&c, imm(ADD, 4, 4, i)); emit(&c, imm(SUB, 5, 4, 3)); emit(&c, reg(ADD, 6, 5, 4)); emit(&c, reg(XOR, 6, 6, 5));
        emit(&c, imm(AND, 6, 6, 255)); emit(&c, imm(ADD, 7, 7, 1)); emit(&c, reg(SUB, 8, 7, 6)); emit(&c, jump_by_register(0, LINK));
    }
    c.at = 0;
    turn = c.at;
    emit(&c, imm(MOV, 1, 0, 4 * KEPT)); emit(&c, high(2, 4 * LOADED >> 16)); emit(&c, imm(MOV, 3, 0, 0));
    loop = c.at;
    emit(&c, load(0, 1, 0)); emit(&c, store(0, 2, 0)); emit(&c, imm(ADD, 1, 1, 4)); emit(&c, imm(ADD, 2, 2, 4));
    emit(&c, imm(ADD, 3, 3, 1)); emit(&c, imm(SUB, 0, 3, LENGTH * PROCEDURES)); jump(&c, LT, loop);
    for (uint32_t i = 0; i < PROCEDURES; i++) call(&c, LOADED + LENGTH * i);
    jump(&c, ALWAYS, turn);
}

/* R1 and R2 have the two words: an ADD of 0 and one of 1, and the other way round in each second turn. */
static void patched(uint32_t *memory) {
    enum { KEPT = 64 };
    Code c = {memory, KEPT};
    uint32_t loop, patch;
    emit(&c, imm(ADD, 4, 4, 0)); emit(&c, imm(ADD, 5, 5, 1));
    c.at = 0;
    emit(&c, load(1, 13, 4 * KEPT)); emit(&c, load(2, 13, 4 * KEPT + 4));
    loop = c.at;
    patch = loop + 6;
    emit(&c, imm(XOR, 1, 1, 1)); emit(&c, imm(XOR, 2, 2, 1)); emit(&c, imm(ADD, 3, 3, 1));
    emit(&c, store(1, 13, (int32_t)(4 * patch))); emit(&c, store(2, 13, (int32_t)(4 * patch) + 4)); emit(&c, reg(ADD, 6, 3, 4));
    c.at = patch + 2;
    emit(&c, reg(SUB, 7, 6, 5)); emit(&c, imm(AND, 7, 7, 255)); emit(&c, reg(XOR, 8, 8, 7)); emit(&c, imm(ADD, 9, 8, 3));
    emit(&c, reg(ADD, 10, 9, 3)); emit(&c, imm(LSL, 11, 10, 2)); jump(&c, ALWAYS, loop);
}

typedef struct {
    const char *name;
    void (*assemble)(uint32_t *memory);
    uint32_t input_kind; /* of the inputs that come, 0 for none */
    uint64_t apart;      /* how many counts lie between two of them */
} Program;

static const Program programs[] = {
    {"sort", sort, 0, 0}, {"calls", calls, 0, 0}, {"poll", poll, 4, 10000}, {"display", display, 0, 0},
    {"inputs", inputs, 2, 1}, {"sends", sends, 0, 0}, {"small", small, 0, 0}, {"medium", medium, 0, 0}, {"large", large, 0, 0},
    {"division", division, 0, 0}, {"modules", modules, 0, 0}, {"mouse", mouse, 3, 8000000}, {"oberon", oberon, 3, 8000000},
    {"far", far, 0, 0}, {"carries", carries, 0, 0}, {"lamps", lamps, 0, 0}, {"loader", loader, 0, 0}, {"spaced", sort, 2, 100},
    {"patched", patched, 0, 0},
};

/* ---- their recordings ---- */

typedef struct { uint32_t *words, *before, pages; } Pool;

static void *room_for(size_t many, size_t size) {
    void *room = calloc(many + 1, size);
    if (!room) die("no memory");
    return room;
}

/* Adds the pages of memory that changed to the pool, under new numbers in the table. */
static void add_pages(const uint32_t *memory, Pool *pool, uint32_t *table) {
    for (uint32_t p = 0; p < PAGES; p++) {
        const uint32_t *page = memory + PAGE * p;
        if (!memcmp(page, pool->before + PAGE * p, 4 * PAGE)) continue;
        if (pool->pages == MOST_PAGES) die("too many pages");
        memcpy(pool->words + (size_t)PAGE * pool->pages++, page, 4 * PAGE);
        table[p] = pool->pages;
    }
    memcpy(pool->before, memory, 4 * WORDS);
}

static Event *events_of(const Program *program, uint64_t steps, size_t *many) {
    *many = program->apart ? steps / program->apart : 0;
    if (*many > MOST_EVENTS) die("too many inputs");
    Event *events = room_for(*many, sizeof *events);
    for (size_t i = 0; i < *many; i++) events[i] = (Event){program->apart * i, program->input_kind, (uint32_t)(i & 255)};
    return events;
}

static int make(const Program *program, uint64_t steps, uint32_t segments, uint32_t rate) {
    static const uint32_t zeros[PAGES];
    Machine m = {.memory = room_for(WORDS, 4), .rate = rate, .disk = UNANSWERED};
    Pool pool = {room_for((size_t)PAGE * MOST_PAGES, 4), room_for(WORDS, 4), 0};
    Checkpoint *list = room_for(segments + 1, sizeof *list);
    size_t many, next = 0;
    Event *events = events_of(program, steps, &many);
    program->assemble(m.memory);
    uint64_t at = 0, sent = 0;
    for (uint32_t k = 0; k <= segments; k++) {
        list[k].count = steps / segments * k;
        run(&m, events, many, &next, at, list[k].count);
        at = list[k].count;
        parts_of(&m, list[k].parts);
        memcpy(list[k].keys, m.keys, KEYS);
        list[k].sent = (uint32_t)(m.sent_length - sent);
        sent = m.sent_length;
        if (k) memcpy(list[k].table, list[k - 1].table, sizeof list[k].table);
        add_pages(m.memory, &pool, list[k].table);
    }
    if (m.stop || sent > MOST_SENT) die("the program stopped, or sent too much");
    uint8_t *text = room_for(most_bytes(2, pool.pages, many, segments + 1, sent), 1);
    uint8_t *to = write_header(text, 2, pool.pages, (uint32_t)many, segments + 1);
    to = write_words(to, pool.words, (size_t)PAGE * pool.pages);
    for (size_t i = 0; i < many; i++) to = write_event(to, &events[i]);
    for (uint32_t k = 0; k <= segments; k++) to = write_checkpoint(to, 2, &list[k], k ? list[k - 1].table : zeros);
    to = write_bytes(to, m.sent, sent);
    return fwrite(text, 1, (size_t)(to - text), stdout) != (size_t)(to - text);
}

int main(int argc, char **argv) {
    for (size_t i = 0; (argc == 4 || argc == 5) && i < sizeof programs / sizeof *programs; i++)
        if (!strcmp(argv[1], programs[i].name))
            return make(&programs[i], strtoull(argv[2], NULL, 10), (uint32_t)strtoul(argv[3], NULL, 10),
                argc == 5 ? (uint32_t)strtoul(argv[4], NULL, 10) : 0);
    die("usage: record PROGRAM STEPS CHECKPOINTS [RATE]");
}
