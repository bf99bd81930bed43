/* Replays recordings by a loop of instructions that is handed in, and prints the line that `oberon_replay check` prints. It is
 * written from docs/machine.md, and takes its input to be lawful: it is a yardstick, not a checker.
 */
#ifndef REPLAY_H
#define REPLAY_H
#include "recording.h"

/* From one count to another; `next` is the first event that was not taken. */
typedef void Run(Machine *m, const Event *events, size_t many, size_t *next, uint64_t from, uint64_t to);

static const char *names[] = {"R0", "R1", "R2", "R3", "R4", "R5", "R6", "R7", "R8", "R9", "R10", "R11", "R12", "R13", "R14",
    "R15", "H", "PC", "flags", "stop", "timer", "rate", "phase", "switches", "LEDs", "mouse", "serial", "keys", "disk"};

static const uint32_t *page_of(const uint32_t *pool, uint32_t page_number) {
    static const uint32_t zeros[PAGE];
    return page_number ? pool + (size_t)PAGE * (page_number - 1) : zeros;
}

/* Prints the first part in which the machine differs from checkpoint k, and answers whether there is one. */
static int differs(const Machine *m, const Recording *r, uint32_t k) {
    const Checkpoint *c = &r->now;
    uint32_t mine[PARTS];
    char part[16] = "";
    parts_of(m, mine);
    for (int i = 0; i < PARTS && !*part; i++)
        if (mine[i] != c->parts[i] || (i == DISK - 1 && memcmp(m->keys, c->keys, KEYS))) strcpy(part, names[i]);
    if (!*part && (m->sent_length != c->sent || (c->sent && memcmp(m->sent, r->output, c->sent)))) strcpy(part, "out");
    for (uint32_t p = 0; p < PAGES && !*part; p++)
        if (memcmp(m->memory + PAGE * p, page_of(r->pool, c->table[p]), PAGE_BYTES)) sprintf(part, "page %u", p);
    if (*part) printf("false checkpoint %u at %" PRIu64 " part %s\n", k, c->count, part);
    return *part != 0;
}

/* Gives a machine the state of the checkpoint that was read last. */
static void begin(const Recording *r, Machine *m) {
    if (!(m->memory = calloc(WORDS, 4))) die("no memory");
    set_parts(m, r->now.parts);
    memcpy(m->keys, r->now.keys, KEYS);
    for (uint32_t i = 0; i < PAGES; i++) memcpy(m->memory + PAGE * i, page_of(r->pool, r->now.table[i]), PAGE_BYTES);
}

/* Prints the line of a recording, and returns 0 if it is accepted. */
MAY_BE_UNUSED int replay(const uint8_t *text, Run *run) {
    Recording r = open_recording(text);
    Machine m = {.disk = UNANSWERED};
    begin(&r, &m);
    uint64_t at = 0;
    size_t next = 0;
    int is_false = 0;
    for (uint32_t k = 1; k < r.checkpoints; k++) {
        read_checkpoint(&r);
        m.sent_length = 0;
        run(&m, r.events, r.many, &next, at, r.now.count);
        at = r.now.count;
        if ((is_false = differs(&m, &r, k))) break;
        r.output += r.now.sent;
    }
    if (!is_false) printf("accepted %" PRIu64 " checkpoints %" PRIu64 " steps\n", r.checkpoints - 1, at);
    free(m.memory); free(m.sent); free(r.events); free(r.pool);
    return is_false;
}

static uint8_t *read_file(const char *path) {
    FILE *file = fopen(path, "rb");
    if (!file || fseek(file, 0, SEEK_END)) { fprintf(stderr, "%s: cannot read the file\n", path); exit(3); }
    long length = ftell(file);
    rewind(file);
    uint8_t *text = malloc((size_t)length + 1);
    if (!text || fread(text, 1, (size_t)length, file) != (size_t)length) die("cannot read the file");
    fclose(file);
    return text;
}

/* Replays the recordings that the arguments name, each from nothing, and returns 1 if one of them is false. The line of each of several begins
 * with the name of its file. */
MAY_BE_UNUSED int replay_files(int argc, char **argv, Run *run) {
    int is_false = 0;
    if (argc < 2) die("usage: replay FILE ..");
    for (int i = 1; i < argc; i++) {
        uint8_t *text = read_file(argv[i]);
        if (argc > 2) printf("%s: ", argv[i]);
        is_false |= replay(text, run);
        free(text);
    }
    return is_false;
}

#endif
