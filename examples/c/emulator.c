/* emulator IMAGE FRAMES [CARD]: a small emulator of the usual shape. Its main loop does 60 frames a second: it sets the millisecond
 * timer, takes the keys that were typed on standard input, runs the instructions of a frame, and shows what was sent. What the card
 * answers to an instruction is there before the next one.
 *
 * The processor is that of reference/machine.h; host.h has the clock and the keyboard. emulator-recorded.c is this program with a
 * recorder in it. */
#include "host.h"

static void input(uint32_t kind, uint32_t value) {
    take(&machine, &(Event){.kind = kind, .value = value});
}

static void run_frame(void) {
    for (int at = 0; at < STEPS && !machine.stop; at++) {
        if (card_answer != machine.disk) input(DISK_ANSWER, card_answer);
        step(&machine);
    }
}

static void show(void) {
    fwrite(machine.sent, 1, machine.sent_length, stdout);
    fflush(stdout);
    machine.sent_length = 0;
}

int main(int argc, char **argv) {
    if (argc != 3 && argc != 4) die("usage: emulator IMAGE FRAMES [CARD]");
    load(argv[1]);
    if (argc == 4) insert(argv[3]);
    uint32_t begun = milliseconds();
    for (long frame = 0, frames = atol(argv[2]); frame < frames && !machine.stop; frame++) {
        int key = typed();
        input(TIMER, milliseconds() - begun);
        if (key >= 0) input(KEY, (uint32_t)key);
        run_frame();
        show();
        while (milliseconds() - begun < 1000 * (frame + 1) / PER_SECOND) usleep(1000);
    }
    if (machine.stop) printf("stop %d at PC %" PRIu32 "\n", machine.stop, machine.pc);
    return 0;
}
