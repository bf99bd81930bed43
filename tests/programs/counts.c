/* counts RECORDING [FROM TO] ..: does the instructions of a recording one after another, as far as its last checkpoint, on the machine of
 * reference/machine.h, and counts them by themselves. It writes 262,144 numbers of 8 bytes: how often the instruction of each word was done;
 * 262,144 more: how often another word than the next one came after it; and what the instruction of each count from FROM up to TO does, of
 * which the ranges rise, as galluspa_trace_record lays it out. The lowest byte of a number comes first, as this machine has it. */
#include "replay.h"

static uint64_t visits[WORDS], departures[WORDS];

/* What an instruction does, and the state before it. */
typedef struct {
    uint64_t count;
    uint32_t r[16], h, pc, flags, stop, timer, rate, phase, switches, leds, mouse, serial, waiting;
    uint8_t keys[KEYS];
    uint32_t disk, reserved;
    uint64_t inputs_from, inputs_count;
    uint32_t word, address, old_value, new_value, sent;
    uint8_t has_word, access_bytes, stores, sends;
} Done;

static void write_all(const void *bytes, size_t size) {
    if (fwrite(bytes, 1, size, stdout) != size) die("cannot write");
}

static uint32_t flags_of(const Machine *m) { return (uint32_t)(m->n << 3 | m->z << 2 | m->c << 1 | m->v); }

/* What is known before the inputs of a count are taken: the state. */
static Done done_before(const Machine *m, uint64_t count, size_t next) {
    Done d = {.count = count, .h = m->h, .pc = m->pc, .flags = flags_of(m), .stop = m->stop, .timer = m->timer, .rate = m->rate};
    d.phase = m->phase, d.switches = m->switches, d.leds = m->leds, d.mouse = m->mouse, d.serial = m->serial, d.waiting = m->waiting;
    d.disk = m->disk;
    memcpy(d.r, m->r, sizeof d.r);
    memcpy(d.keys, m->keys, m->waiting);
    d.inputs_from = next;
    return d;
}

/* What is known once they are taken: the word, and what it is going to access. */
static void look(Done *d, const Machine *m) {
    if (m->stop || m->pc >= WORDS) return;
    uint32_t w = m->memory[m->pc], address = (m->r[w >> 20 & 15] + (uint32_t)((int32_t)(w << 12) >> 12)) & 0xFFFFFF;
    d->has_word = 1, d->word = w;
    if (w >> 30 != 2 || (address >= 4 * WORDS && address < 0xFFFFC0)) return;
    Machine copy = *m;
    uint32_t there = address < 4 * WORDS ? m->memory[address / 4] : device_read(&copy, (address - 0xFFFFC0) / 4);
    uint32_t value = m->r[w >> 24 & 15];
    d->access_bytes = w >> 28 & 1 ? 1 : 4, d->stores = w >> 29 & 1;
    d->address = w >> 28 & 1 ? address : address & ~3u;
    d->old_value = w >> 28 & 1 ? there >> 8 * (address & 3) & 255 : there;
    d->new_value = !d->stores ? d->old_value : w >> 28 & 1 ? value & 255 : value;
}

/* Does the next instruction, and counts it. */
static void count_step(Machine *m) {
    uint32_t pc = m->pc;
    step(m);
    if (!m->stop && m->rate) tick(m);
    if (pc >= WORDS) return;
    visits[pc]++;
    departures[pc] += m->pc != pc + 1;
}

static void write_file(FILE *file) {
    rewind(file);
    for (uint8_t piece[4096];;) {
        size_t length = fread(piece, 1, sizeof piece, file);
        if (!length) return;
        write_all(piece, length);
    }
}

int main(int argc, char **argv) {
    if (argc < 2 || argc % 2) die("usage: counts RECORDING [FROM TO] ..");
    Recording r = open_recording(read_file(argv[1]));
    Machine m = {0};
    size_t next = 0;
    FILE *records = tmpfile();
    if (!records) die("no temporary file");
    begin(&r, &m);
    for (uint64_t k = 1; k < r.checkpoints; k++) read_checkpoint(&r);
    for (uint64_t at = 0; at < r.now.count; at++) {
        int is_written = 0;
        for (int i = 2; i < argc; i += 2) is_written |= strtoull(argv[i], 0, 10) <= at && at < strtoull(argv[i + 1], 0, 10);
        Done done = done_before(&m, at, next);
        while (next < r.many && r.events[next].count == at) take(&m, &r.events[next++]);
        if (!m.stop) done.inputs_count = next - done.inputs_from;
        look(&done, &m);
        size_t sent = m.sent_length;
        if (!m.stop) count_step(&m);
        if (m.sent_length > sent) done.sends = 1, done.sent = m.sent[sent];
        if (is_written && fwrite(&done, sizeof done, 1, records) != 1) die("cannot write");
    }
    write_all(visits, sizeof visits);
    write_all(departures, sizeof departures);
    write_file(records);
    return 0;
}
