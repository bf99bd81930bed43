/* disk IMAGE TO CARD: runs a memory image up to a count, with an SD card whose blocks are those of a file, and prints how many transfers
 * the program made, and how many blocks it read and wrote. The library runs the machine and is the card; this program finds the writes to
 * device words 4 and 5, and moves blocks between the card and the file. */
#include "galluspa.h"
#include <inttypes.h>
#include <stdio.h>
#include <stdlib.h>

enum { BLOCK = 512, SPI_CONTROL = 0xFFFFD4, DISK = 6 };
static galluspa_state state = {.disk = 255};
static uint32_t words[GALLUSPA_WORDS];
static galluspa_card card;
static FILE *image;
static unsigned long transfers, reads, writes;

static void die(const char *what) {
    fprintf(stderr, "disk: %s\n", what);
    exit(3);
}

static FILE *opened(const char *name, const char *how) {
    FILE *file = fopen(name, how);
    if (!file) { perror(name); exit(3); }
    return file;
}

static void find(uint32_t number) {
    if (fseek(image, (long)BLOCK * (number - card.first), SEEK_SET)) die("cannot find a block");
}

/* Does what the card asks for, in its order. */
static void serve(void) {
    if (card.write_wanted && ++writes) {
        find(card.write_number);
        if (!fwrite(card.block, BLOCK, 1, image)) die("cannot write");
    }
    if (card.read_wanted && ++reads) {
        find(card.read_number);
        if (!fread(card.block, BLOCK, 1, image)) die("cannot read");
    }
}

int main(int argc, char **argv) {
    const galluspa_condition written = {.kind = GALLUSPA_STORE, .from = 0xFFFFD0, .end = 0xFFFFD8}; /* device words 4 and 5 */
    galluspa_input answer = {0, DISK, 255}; /* the last one; one before the state's count has no effect */
    galluspa_trace_record record;
    uint8_t sent[64];
    size_t sent_count;
    uint32_t control = 0, mark;
    if (argc != 4) die("usage: disk IMAGE TO CARD");
    uint64_t to = strtoull(argv[2], NULL, 10);
    FILE *memory = opened(argv[1], "rb");
    if (!fread(words, 1, sizeof words, memory)) die("no memory image");
    fclose(memory);
    image = opened(argv[3], "r+b");
    if (!fread(&mark, sizeof mark, 1, image) || fseek(image, 0, SEEK_END)) die("cannot read the card");
    card.first = mark == 0x9B1EA38D ? 0x80002 : 0; /* an image that begins with the file system */
    card.blocks = (uint32_t)(ftell(image) / BLOCK);
    for (;;) {
        galluspa_hit hit = {to, 0};
        if (galluspa_find(&state, words, GALLUSPA_WORDS, &answer, 1, to, &written, 1, GALLUSPA_FIRST, &hit) == GALLUSPA_OUT_OF_MEMORY)
            die("no memory");
        if (galluspa_advance(&state, words, GALLUSPA_WORDS, &answer, 1, hit.count, sent, sizeof sent, &sent_count)) die("no memory");
        if (state.count >= to) break;
        if (galluspa_records(&state, words, GALLUSPA_WORDS, &answer, 1, &record, 1)) die("no memory");
        if (record.address == SPI_CONTROL) {
            control = record.new_value;
            continue;
        }
        answer = (galluspa_input){state.count, DISK, galluspa_card_transfer(&card, control, record.new_value)};
        serve();
        transfers++;
    }
    printf("%lu transfers, %lu blocks read, %lu written\n", transfers, reads, writes);
    return fclose(image) ? 3 : 0;
}
