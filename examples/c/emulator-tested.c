/* emulator IMAGE FRAMES: emulator.c with the second way in: without arguments it does the sessions that `galluspa fuzz` sends to
 * its standard input, and answers each on its standard output. docs/testing-an-emulator.md has the bytes of both. */
#include "host.h"

static void input(uint32_t kind, uint32_t value) {
    take(&machine, &(Event){.kind = kind, .value = value});
}

static void run_frame(void) {
    for (int at = 0; at < STEPS && !machine.stop; at++) step(&machine);
}

static void show(void) {
    fwrite(machine.sent, 1, machine.sent_length, stdout);
    fflush(stdout);
    machine.sent_length = 0;
}

static void receive(void *bytes, size_t size) {
    if (size && fread(bytes, size, 1, stdin) != 1) die("the session ends early");
}

/* Answers a session: its number, how many bytes were sent, how many pages are not zero; then the state, the bytes and the pages. */
static void answer(uint32_t number) {
    static const uint32_t zeros[PAGE];
    uint32_t words[3 + PARTS] = {number, (uint32_t)machine.sent_length, 0}, slot;
    for (slot = 0; slot < PAGES; slot++) words[2] += memcmp(memory + PAGE * slot, zeros, sizeof zeros) != 0;
    parts_of(&machine, words + 3);
    fwrite(words, sizeof *words, 3 + DISK, stdout);
    fwrite(machine.keys, KEYS, 1, stdout);
    fwrite(machine.sent, 1, machine.sent_length, stdout);
    for (slot = 0; slot < PAGES; slot++)
        if (memcmp(memory + PAGE * slot, zeros, sizeof zeros)) {
            fwrite(&slot, sizeof slot, 1, stdout);
            fwrite(memory + PAGE * slot, sizeof zeros, 1, stdout);
        }
    fflush(stdout);
}

/* Does a session: its number, how many instructions, inputs and pages; then the state, the inputs and the pages. Returns 0 if none
 * is left. Nothing is kept of the session before. */
static int session(void) {
    struct { uint32_t number, count, inputs, pages, parts[DISK]; uint8_t keys[KEYS]; } s;
    uint32_t parts[PARTS] = {[DISK] = UNANSWERED};
    if (fread(&s, sizeof s, 1, stdin) != 1) return 0;
    memset(memory, 0, sizeof memory);
    machine = (Machine){.memory = memory, .sent = machine.sent, .sent_room = machine.sent_room};
    memcpy(parts, s.parts, sizeof s.parts);
    set_parts(&machine, parts);
    memcpy(machine.keys, s.keys, sizeof s.keys);
    Event *events = malloc((s.inputs + 1) * sizeof *events);
    if (!events) die("no memory");
    for (uint32_t i = 0, words[3]; i < s.inputs; i++) {
        receive(words, sizeof words);
        events[i] = (Event){words[0], words[1], words[2]};
    }
    for (uint32_t i = 0, slot; i < s.pages; i++) {
        receive(&slot, sizeof slot);
        receive(memory + PAGE * (slot % PAGES), 4 * PAGE);
    }
    size_t next = 0;
    run(&machine, events, s.inputs, &next, 0, s.count);
    free(events);
    answer(s.number);
    return 1;
}

int main(int argc, char **argv) {
    if (argc == 1) { while (session()) {} return 0; }
    if (argc != 3) die("usage: emulator IMAGE FRAMES");
    load(argv[1]);
    uint32_t begun = milliseconds();
    for (long frame = 0, frames = atol(argv[2]); frame < frames && !machine.stop; frame++) {
        int key = typed();
        input(TIMER, milliseconds() - begun);
        if (key >= 0) input(KEY, (uint32_t)key);
        run_frame();
        show();
        while (milliseconds() - begun < 1000 * (frame + 1) / PER_SECOND) usleep(1000);
    }
    if (machine.stop) printf("stop %d at PC %" PRIu32 "\n", machine.stop, machine.pc);
    return 0;
}
