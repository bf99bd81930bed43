/* What the emulators here take from the computer that they run on: the time, the keyboard, a memory image, and that of a card. */
#ifndef HOST_H
#define HOST_H
#include <poll.h>
#include <time.h>
#include <unistd.h>
#include "card.h"

/* The machine calls this at each write to device words 4 and 5. */
static void written(uint32_t word, uint32_t value);
#define ON_DISK_WRITE(m, word, value) written(word, value)
#include "machine.h"

enum { TIMER = 1, KEY = 4, DISK_ANSWER = 6, PER_SECOND = 60, STEPS = 25000000 / PER_SECOND };

static Machine machine;
static uint32_t memory[WORDS];
static Card card;
static uint32_t control, card_answer = UNANSWERED; /* what word 5 was set to, and what the card answered last */

static uint32_t milliseconds(void) {
    struct timespec now;
    clock_gettime(CLOCK_MONOTONIC, &now);
    return (uint32_t)(now.tv_sec * 1000 + now.tv_nsec / 1000000);
}

/* The next key that was typed, or -1. */
static int typed(void) {
    struct pollfd keyboard = {STDIN_FILENO, POLLIN, 0};
    uint8_t key;
    return poll(&keyboard, 1, 0) == 1 && read(STDIN_FILENO, &key, 1) == 1 ? key : -1;
}

static void load(const char *name) {
    FILE *file = fopen(name, "rb");
    if (!file) { perror(name); exit(3); }
    fread(memory, 1, sizeof memory, file);
    fclose(file);
    machine.memory = memory;
    machine.disk = UNANSWERED;
}

static void written(uint32_t word, uint32_t value) {
    if (word == 5) control = value;
    else if (card.image) card_answer = card_transfer(&card, control, value);
}

/* Puts a card in, whose image is a file; one that begins with the mark of a root directory begins with block 80002H, as that of a
 * file system does. What is written to it is not saved. */
static void insert(const char *name) {
    FILE *file = fopen(name, "rb");
    if (!file || fseek(file, 0, SEEK_END)) { perror(name); exit(3); }
    card.blocks = (uint32_t)(ftell(file) / BLOCK);
    rewind(file);
    if (!(card.image = malloc((size_t)BLOCK * card.blocks + 1))) die("no memory");
    if (fread(card.image, BLOCK, card.blocks, file) != card.blocks) { perror(name); exit(3); }
    fclose(file);
    if (card.blocks && !memcmp(card.image, "\x8D\xA3\x1E\x9B", 4)) card.first = 0x80002;
}
#endif
