/* emulator IMAGE FRAMES RECORDING [CARD]: emulator.c with a recorder in it, which writes what the machine did as a recording. */
#include "host.h"
#include "galluspa.h"

static uint64_t count;               /* the instructions that were done */
static galluspa_input *inputs;       /* those since the last checkpoint, how many there are, and for how many there is room */
static size_t input_count, input_room;
static uint8_t *recording;
static size_t length, shown;         /* the bytes of the recording; how many of machine.sent were shown */

/* The state as the recorder wants it: the registers, the flags and the devices. The memory is passed beside it. */
static galluspa_state state(void) {
    Machine *m = &machine;
    galluspa_state s = {.count = count, .h = m->h, .pc = m->pc, .flags = (uint32_t)(m->n << 3 | m->z << 2 | m->c << 1 | m->v),
        .stop = m->stop, .timer = m->timer, .switches = m->switches, .leds = m->leds, .mouse = m->mouse, .serial = m->serial,
        .key_count = m->waiting, .disk = m->disk};
    memcpy(s.r, m->r, sizeof s.r);
    memcpy(s.keys, m->keys, m->waiting);
    return s;
}

/* Begins the recording, or extends it by a checkpoint: the inputs since the last one, the state, and what was sent. */
static void checkpoint(void) {
    galluspa_state s = state();
    uint8_t *next = NULL;
    size_t needed = 0;
    int code;
    do {
        if (!(next = realloc(next, needed + 1))) die("no memory");
        code = recording ? galluspa_extend(recording, length, inputs, input_count, &s, memory, WORDS,
                                           machine.sent, machine.sent_length, next, needed, &needed)
                         : galluspa_begin(&s, memory, WORDS, next, needed, &needed);
    } while (code == GALLUSPA_NO_ROOM);
    if (code) { fprintf(stderr, "the recorder refuses: %d\n", code); exit(3); }
    free(recording);
    recording = next; length = needed;
    input_count = machine.sent_length = shown = 0;
}

static void save(const char *name) {
    FILE *file = fopen(name, "wb");
    if (!file || fwrite(recording, 1, length, file) != length || fclose(file)) { perror(name); exit(3); }
}

static void input(uint32_t kind, uint32_t value) {
    take(&machine, &(Event){.kind = kind, .value = value});
    if (input_count == input_room && !(inputs = realloc(inputs, (input_room += 4096) * sizeof *inputs))) die("no memory");
    inputs[input_count++] = (galluspa_input){count, kind, value};
}

static void run_frame(void) {
    for (int at = 0; at < STEPS && !machine.stop; at++, count++) {
        if (card_answer != machine.disk) input(DISK_ANSWER, card_answer);
        step(&machine);
    }
}

static void show(void) {
    fwrite(machine.sent + shown, 1, machine.sent_length - shown, stdout);
    fflush(stdout);
    shown = machine.sent_length;
}

int main(int argc, char **argv) {
    if (argc != 4 && argc != 5) die("usage: emulator IMAGE FRAMES RECORDING [CARD]");
    load(argv[1]);
    if (argc == 5) insert(argv[4]);
    if (!(inputs = malloc((input_room = 4096) * sizeof *inputs)) || !(machine.sent = malloc(machine.sent_room = 4096))) die("no memory");
    checkpoint();
    uint32_t begun = milliseconds();
    for (long frame = 0, frames = atol(argv[2]); frame < frames && !machine.stop; frame++) {
        int key = typed();
        input(TIMER, milliseconds() - begun);
        if (key >= 0) input(KEY, (uint32_t)key);
        run_frame();
        show();
        if (frame % PER_SECOND == PER_SECOND - 1) checkpoint();
        while (milliseconds() - begun < 1000 * (frame + 1) / PER_SECOND) usleep(1000);
    }
    if (input_count) checkpoint();
    save(argv[3]);
    if (machine.stop) printf("stop %d at PC %" PRIu32 "\n", machine.stop, machine.pc);
    return 0;
}
