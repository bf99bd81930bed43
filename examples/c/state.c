/* state RECORDING COUNT MEMORY: runs an emulator written in C from the first state of a recording, with its inputs, up to
 * a count, writes its memory to a file, and prints its state as JSON. This is what `galluspa bisect` asks of an emulator.
 *
 * The emulator is reference/machine.h, and reference/recording.h reads the recording. */
#include "replay.h"

static void print(const Machine *m, const char *memory) {
    printf("{\"R\": [");
    for (int i = 0; i < 16; i++) printf("%s%" PRIu32, i ? ", " : "", m->r[i]);
    printf("], \"H\": %" PRIu32 ", \"PC\": %" PRIu32, m->h, m->pc);
    printf(", \"flags\": %d, \"stop\": %d", m->n << 3 | m->z << 2 | m->c << 1 | m->v, m->stop);
    printf(", \"timer\": %" PRIu32 ", \"rate\": %" PRIu32 ", \"phase\": %" PRIu32, m->timer, m->rate, m->phase);
    printf(", \"switches\": %" PRIu32 ", \"LEDs\": %" PRIu32, m->switches, m->leds);
    printf(", \"mouse\": %" PRIu32 ", \"serial\": %" PRIu32, m->mouse, m->serial);
    printf(", \"keys\": [");
    for (uint32_t i = 0; i < m->waiting; i++) printf("%s%d", i ? ", " : "", m->keys[i]);
    printf("], \"disk\": %" PRIu32 ", \"out\": \"", m->disk);
    for (size_t i = 0; i < m->sent_length; i++) printf("%02x", m->sent[i]);
    printf("\", \"memory\": \"%s\"}\n", memory);
}

int main(int argc, char **argv) {
    if (argc != 4) die("usage: state RECORDING COUNT MEMORY");
    Recording recording = open_recording(read_file(argv[1]));
    Machine machine = {0};
    size_t next = 0;
    begin(&recording, &machine);
    run(&machine, recording.events, recording.many, &next, 0, strtoull(argv[2], 0, 10));
    FILE *file = fopen(argv[3], "wb");
    if (!file || fwrite(machine.memory, 4, WORDS, file) != WORDS || fclose(file)) die("cannot write the memory");
    print(&machine, argv[3]);
    return 0;
}
