/* trace RECORDING COUNT: runs an emulator written in C from the first state of a recording, with its inputs, and prints a line for the
 * state at each count up to COUNT. This is what `galluspa compare-trace` reads.
 *
 * The emulator is reference/machine.h, and reference/recording.h reads the recording. */
#include "replay.h"

static void print(const Machine *m, uint64_t count) {
    printf("%" PRIu64 ",%" PRIu32, count, m->pc);
    for (int i = 0; i < 16; i++) printf(",%" PRIu32, m->r[i]);
    printf(",%" PRIu32 ",%d\n", m->h, m->n << 3 | m->z << 2 | m->c << 1 | m->v);
}

int main(int argc, char **argv) {
    if (argc != 3) die("usage: trace RECORDING COUNT");
    Recording recording = open_recording(read_file(argv[1]));
    Machine machine = {0};
    size_t next = 0;
    begin(&recording, &machine);
    puts("count,PC,R0,R1,R2,R3,R4,R5,R6,R7,R8,R9,R10,R11,R12,R13,R14,R15,H,flags");
    for (uint64_t count = 0, end = strtoull(argv[2], 0, 10); count <= end; count++) {
        print(&machine, count);
        run(&machine, recording.events, recording.many, &next, count, count + 1);
    }
    return 0;
}
