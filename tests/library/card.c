/* card CARDS TRANSFERS: compares the library's card with that of examples/c/card.h, over as many random cards as it is told and so many
 * transfers of each: every answer, and the images afterwards. Then it fills cards with random bytes, and compares each with one whose
 * numbers are cut to their limits. */
#include "galluspa.h"
#include "card.h"
#include <stdio.h>
#include <stdlib.h>

enum { BLOCKS = 5, IMAGE = BLOCKS * BLOCK, FIRST = 0x80002 };
static uint64_t seed = 0x9E3779B97F4A7C15;
static uint8_t own_image[IMAGE], image[IMAGE];
static unsigned long reads, writes, both;

static uint32_t any(uint32_t below) {
    seed ^= seed << 13, seed ^= seed >> 7, seed ^= seed << 17;
    return (uint32_t)((seed >> 16) % below);
}

static uint32_t word(void) { return any(0x10000) << 16 | any(0x10000); }

static void fail(const char *what, unsigned long card, unsigned long at) {
    printf("%s differs: card %lu, transfer %lu\n", what, card, at);
    exit(1);
}

/* The bytes that a program sends: commands, whole or not, blocks after their tokens, idle bytes, and others. */
static uint8_t next_byte(void) {
    static uint8_t queue[BLOCK + 8];
    static unsigned at, end;
    if (at == end) {
        static const uint8_t known[] = {0, 8, 16, 17, 17, 17, 24, 24, 24, 41, 55, 58};
        uint32_t block = any(8) ? FIRST - 1 + any(BLOCKS + 2) : word();
        at = end = 0;
        switch (any(6)) {
        case 0: case 1:
            queue[end++] = any(9) ? 0x40 | known[any(sizeof known)] : 0x40 | any(64);
            for (int i = 24; i >= 0; i -= 8) queue[end++] = block >> i & 255;
            queue[end++] = any(9) ? 255 : any(256);
            if (!any(9)) end = 1 + any(5);
            break;
        case 2: case 3: end = 1 + any(9); memset(queue, 255, end); break;
        case 4:
            queue[end++] = START;
            while (end < BLOCK + 3) queue[end++] = any(256);
            if (!any(9)) end = 1 + any(BLOCK);
            break;
        default: queue[end++] = any(256);
        }
    }
    return queue[at++];
}

static void serve(galluspa_card *card) {
    if (card->write_wanted) memcpy(own_image + BLOCK * (card->write_number - card->first), card->block, BLOCK), writes++;
    if (card->read_wanted) memcpy(card->block, own_image + BLOCK * (card->read_number - card->first), BLOCK), reads++;
    both += card->write_wanted && card->read_wanted;
}

static void compare(unsigned long number, unsigned long transfers) {
    galluspa_card own = {.first = FIRST, .blocks = BLOCKS};
    Card card = {.image = image, .blocks = BLOCKS, .first = FIRST};
    for (unsigned i = 0; i < IMAGE; i++) own_image[i] = image[i] = any(256);
    for (unsigned long i = 0; i < transfers; i++) {
        uint32_t control = any(50) ? (any(2) ? 1 : 5) | (word() & ~7u) | (any(2) ? 2 : 0) : word();
        uint32_t value = word() & ~255u;
        if (control & SELECTED) {
            value |= next_byte();
            for (int j = 8; control & FAST && j < 32; j += 8) value = (value & ~(255u << j)) | (uint32_t)next_byte() << j;
        }
        if (galluspa_card_transfer(&own, control, value) != card_transfer(&card, control, value)) fail("an answer", number, i);
        serve(&own);
    }
    if (memcmp(own_image, image, IMAGE)) fail("the image", number, transfers);
}

static uint32_t at_most(uint32_t number, uint32_t limit) { return number < limit ? number : limit; }

static void fill(unsigned long number) {
    galluspa_card wild, tame;
    for (unsigned i = 0; i < sizeof wild; i++) ((uint8_t *)&wild)[i] = any(256);
    for (uint32_t *it = &wild.command_count; it <= &wild.packet_left; it++) *it = any(3) ? any(600) : word();
    tame = wild;
    tame.command_count = at_most(wild.command_count, 5), tame.reply_left = at_most(wild.reply_left, 6);
    tame.block_left = at_most(wild.block_left, BLOCK), tame.packet_left = at_most(wild.packet_left, BLOCK + 2);
    tame.application = !!wild.application, tame.awaited = !!wild.awaited;
    for (unsigned long i = 0; i < 700; i++) {
        uint32_t control = any(9) ? 1 | any(2) << 2 : word(), value = word();
        if (galluspa_card_transfer(&wild, control, value) != galluspa_card_transfer(&tame, control, value)) fail("a filled one", number, i);
    }
    if (memcmp(wild.block, tame.block, BLOCK) || wild.target != tame.target) fail("what a filled one has", number, 700);
}

int main(int argc, char **argv) {
    unsigned long cards = argc == 3 ? strtoul(argv[1], NULL, 10) : 0, transfers = argc == 3 ? strtoul(argv[2], NULL, 10) : 0;
    for (unsigned long i = 0; i < cards; i++) compare(i, transfers), fill(i);
    if (!cards || !reads || !writes) fail("how many were read and written", reads, writes);
    printf("%lu cards agree over %lu transfers each: %lu blocks read, %lu written, %lu times both at once\n", cards, transfers, reads, writes, both);
    return 0;
}
