/* An SD card in SPI mode, as far as Project Oberon (2013) uses one: what it answers to each transfer by device word 4.
 *
 * The program writes a value to word 4, and the card answers a byte, or with the fast bit of word 5 a word, of whose bytes the lowest
 * comes first. What it answers is what word 4 reads from then on. A card that is not selected answers 255. The blocks are an image in
 * memory; the number of the first one may be above 0, for an image that begins with the file system. Time, checksums and errors are
 * left out. */
#ifndef CARD_H
#define CARD_H
#include <stdint.h>
#include <stddef.h>
#include <string.h>

enum { BLOCK = 512, SELECTED = 1, FAST = 4, IDLE = 255, START = 254, ACCEPTED = 5 };

typedef struct {
    uint8_t *image;             /* the blocks */
    uint32_t blocks, first;     /* how many, and the number of the first one */
    uint8_t command[6];         /* the command that comes */
    unsigned got;               /* how many of its bytes came */
    uint8_t answer[BLOCK + 8];  /* what the card is going to answer, byte by byte */
    unsigned next, end;
    int application, writing;   /* CMD55 came before; 1 waits for the token of a block, 2 takes it */
    uint32_t block;             /* which block is written */
    unsigned written;
    uint8_t taken[BLOCK];       /* what came of it: the image gets whole blocks */
} Card;

static void card_says(Card *c, uint8_t byte) { c->answer[c->end++] = byte; }

static uint8_t *card_block(const Card *c, uint32_t number) {
    uint32_t index = number - c->first;
    return index < c->blocks ? c->image + (size_t)BLOCK * index : NULL;
}

/* A command is complete: the answer begins with one idle byte, as that of a card does, and its status. */
static void card_obeys(Card *c) {
    uint32_t number = c->command[0] & 63u;
    int application = c->application;
    uint32_t argument = (uint32_t)c->command[1] << 24 | c->command[2] << 16 | c->command[3] << 8 | c->command[4];
    const uint8_t *block;
    c->next = c->end = c->got = 0;
    c->application = 0;
    card_says(c, IDLE);
    switch (number) {
    case 0: card_says(c, 1); return;                                        /* go idle */
    case 8: card_says(c, 1); for (int i = 1; i < 5; i++) card_says(c, i == 3 ? c->command[3] & 15 : i == 4 ? c->command[4] : 0); return;
    case 55: card_says(c, 0); c->application = 1; return;
    case 41: card_says(c, application ? 0 : 4); return;                     /* ready at once */
    case 58: card_says(c, 0); card_says(c, 0xC0); for (int i = 0; i < 3; i++) card_says(c, i ? 0 : 0xFF); return; /* counts blocks */
    case 16: card_says(c, 0); return;
    case 17:
        if (!(block = card_block(c, argument))) { card_says(c, 0x40); return; }
        card_says(c, 0); card_says(c, IDLE); card_says(c, START);
        memcpy(c->answer + c->end, block, BLOCK);
        c->end += BLOCK;
        card_says(c, IDLE); card_says(c, IDLE);                             /* a checksum that nobody tests */
        return;
    case 24:
        if (!card_block(c, argument)) { card_says(c, 0x40); return; }
        card_says(c, 0);
        c->block = argument; c->writing = 1; c->written = 0;
        return;
    default: card_says(c, 4);                                               /* an unknown command */
    }
}

static void card_takes(Card *c, uint8_t byte) {
    if (c->writing == 2) {
        if (c->written < BLOCK) c->taken[c->written] = byte;
        if (++c->written < BLOCK + 2) return;
        memcpy(card_block(c, c->block), c->taken, BLOCK);
        c->writing = 0; c->next = c->end = 0;
        card_says(c, ACCEPTED); card_says(c, 0);
    } else if (c->writing && byte == START) c->writing = 2;
    else if (c->got || (byte & 0xC0) == 0x40) {
        c->command[c->got++] = byte;
        if (c->got == sizeof c->command) card_obeys(c);
    }
}

static uint8_t card_exchanges(Card *c, uint8_t byte) {
    uint8_t answer = c->next < c->end ? c->answer[c->next++] : IDLE;
    card_takes(c, byte);
    return answer;
}

/* What a transfer answers: a byte, or four at once, the first of which is the lowest. */
static uint32_t card_transfer(Card *c, uint32_t control, uint32_t value) {
    if (!(control & SELECTED)) { c->got = 0; return IDLE; }
    if (!(control & FAST)) return card_exchanges(c, (uint8_t)value);
    uint32_t answer = 0;
    for (int i = 0; i < 32; i += 8) answer |= (uint32_t)card_exchanges(c, (uint8_t)(value >> i)) << i;
    return answer;
}

#endif
