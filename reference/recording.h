/* Reads and writes recordings of the machine in machine.h. It is written from docs/formats.md, as a witness of its own.
 *
 * All versions are read and written. What is read is taken to be lawful: it is a yardstick, not a checker.
 */
#ifndef RECORDING_H
#define RECORDING_H
#include "machine.h"

#define MAY_BE_UNUSED __attribute__((unused)) static

enum { HEADER_BYTES = 24, PAGE_BYTES = 4 * PAGE, EVENT_BYTES = 16 };
/* The most that a recording has: pages of its pool, events, checkpoints with the initial state, and bytes sent. */
enum { MOST_PAGES = 65536, MOST_EVENTS = 4000000, MOST_CHECKPOINTS = 4097, MOST_SENT = 1048576 };
/* Where a checkpoint has its keys, how much it sent, and, in version 2, the rate with the phase, how many changes there are, and
 * the changes; in version 1 the table comes in place of the last three. */
enum { KEYS_AT = 112, SENT_AT = 128, TABLE_AT = 132, RATE_AT = 132, CHANGE_COUNT_AT = 140, CHANGES_AT = 144, CHANGE_BYTES = 8, DISK_BYTES = 4 };

/* A checkpoint: its count, the parts of its state in the order of parts_of, how many bytes it sent, and its pages' numbers. */
typedef struct {
    uint64_t count;
    uint32_t parts[PARTS], sent, table[PAGES];
    uint8_t keys[KEYS];
} Checkpoint;

/* A recording that is read: its pool, its inputs, the checkpoint that was read last, and where the next one begins; and where the
 * bytes sent begin. */
typedef struct {
    uint32_t *pool;
    Event *events;
    size_t many;
    uint64_t version, checkpoints;
    Checkpoint now;
    const uint8_t *next, *output;
} Recording;

/* ---- reading ---- */

MAY_BE_UNUSED uint64_t number(const uint8_t *at, int bytes) {
    uint64_t n = 0;
    while (bytes--) n = n << 8 | at[bytes];
    return n;
}

MAY_BE_UNUSED void read_words(uint32_t *words, const uint8_t *at, size_t many) {
    for (size_t i = 0; i < many; i++) words[i] = (uint32_t)number(at + 4 * i, 4);
}

/* Where a checkpoint ends. */
MAY_BE_UNUSED const uint8_t *end_of(const uint8_t *at, uint64_t version) {
    return version == 1 ? at + TABLE_AT + 4 * PAGES
        : at + CHANGES_AT + CHANGE_BYTES * number(at + CHANGE_COUNT_AT, 4) + (version == 3 ? DISK_BYTES : 0);
}

/* Reads the checkpoint that comes next, over the one before it. */
MAY_BE_UNUSED void read_checkpoint(Recording *r) {
    const uint8_t *at = r->next, *end = end_of(at, r->version);
    Checkpoint *c = &r->now;
    c->count = number(at, 8);
    read_words(c->parts, at + 8, RATE);                                 /* R0 to the timer */
    read_words(c->parts + PHASE + 1, at + 8 + 4 * RATE, DISK - PHASE - 1); /* the switches to the number of keys */
    c->parts[DISK] = UNANSWERED;
    memcpy(c->keys, at + KEYS_AT, KEYS);
    c->sent = (uint32_t)number(at + SENT_AT, 4);
    if (r->version == 1) read_words(c->table, at + TABLE_AT, PAGES);
    else {
        read_words(c->parts + RATE, at + RATE_AT, 2);
        const uint8_t *last = end - (r->version == 3 ? DISK_BYTES : 0);
        for (at += CHANGES_AT; at < last; at += CHANGE_BYTES) c->table[number(at, 4)] = (uint32_t)number(at + 4, 4);
        if (r->version == 3) c->parts[DISK] = (uint32_t)number(last, 4);
    }
    r->next = end;
}

/* The inputs of the recording in these bytes, and how many there are. */
MAY_BE_UNUSED Event *read_events(const uint8_t *bytes, size_t *many) {
    const uint8_t *at = bytes + HEADER_BYTES + PAGE_BYTES * number(bytes + 8, 4);
    *many = number(bytes + 12, 4);
    Event *events = malloc(sizeof(Event) * *many + 1);
    if (!events) die("no memory");
    for (size_t i = 0; i < *many; i++, at += EVENT_BYTES)
        events[i] = (Event){number(at, 8), (uint32_t)number(at + 8, 4), (uint32_t)number(at + 12, 4)};
    return events;
}

/* Reads the recording in these bytes, which it goes on to use, up to its first checkpoint. */
MAY_BE_UNUSED Recording open_recording(const uint8_t *bytes) {
    uint64_t pages = number(bytes + 8, 4);
    Recording r = {.version = number(bytes + 4, 4), .checkpoints = number(bytes + 16, 4)};
    if (!(r.pool = malloc(PAGE_BYTES * pages + 1))) die("no memory");
    read_words(r.pool, bytes + HEADER_BYTES, PAGE * pages);
    r.events = read_events(bytes, &r.many);
    r.next = r.output = bytes + HEADER_BYTES + PAGE_BYTES * pages + EVENT_BYTES * r.many;
    for (uint64_t k = 0; k < r.checkpoints; k++) r.output = end_of(r.output, r.version);
    read_checkpoint(&r);
    return r;
}

/* ---- writing: each returns where the next piece goes ---- */

/* The bytes of a recording whose checkpoints change all of their tables: no recording with these numbers is longer. */
MAY_BE_UNUSED size_t most_bytes(uint32_t version, size_t pages, size_t events, size_t checkpoints, size_t sent) {
    size_t of_each = version == 1 ? TABLE_AT + 4 * PAGES : CHANGES_AT + CHANGE_BYTES * PAGES + DISK_BYTES;
    return HEADER_BYTES + PAGE_BYTES * pages + EVENT_BYTES * events + of_each * checkpoints + sent;
}

MAY_BE_UNUSED uint8_t *write_number(uint8_t *to, uint64_t n, int bytes) {
    for (int i = 0; i < bytes; i++) *to++ = (uint8_t)(n >> 8 * i);
    return to;
}

MAY_BE_UNUSED uint8_t *write_words(uint8_t *to, const uint32_t *words, size_t many) {
    for (size_t i = 0; i < many; i++) to = write_number(to, words[i], 4);
    return to;
}

MAY_BE_UNUSED uint8_t *write_bytes(uint8_t *to, const void *bytes, size_t many) {
    if (many) memcpy(to, bytes, many);
    return to + many;
}

MAY_BE_UNUSED uint8_t *write_header(uint8_t *to, uint32_t version, uint32_t pages, uint32_t events, uint32_t checkpoints) {
    uint32_t words[] = {version, pages, events, checkpoints, 0};
    return write_words(write_bytes(to, "ORSR", 4), words, 5);
}

MAY_BE_UNUSED uint8_t *write_event(uint8_t *to, const Event *e) {
    return write_number(write_number(write_number(to, e->count, 8), e->kind, 4), e->value, 4);
}

/* The table before is that of the checkpoint before, or zeros. */
MAY_BE_UNUSED uint8_t *write_checkpoint(uint8_t *to, uint32_t version, const Checkpoint *c, const uint32_t *before) {
    uint32_t changes = 0;
    to = write_number(to, c->count, 8);
    to = write_words(to, c->parts, RATE);
    to = write_words(to, c->parts + PHASE + 1, DISK - PHASE - 1);
    to = write_bytes(to, c->keys, KEYS);
    to = write_number(to, c->sent, 4);
    if (version == 1) return write_words(to, c->table, PAGES);
    for (uint32_t p = 0; p < PAGES; p++) changes += c->table[p] != before[p];
    to = write_number(write_words(to, c->parts + RATE, 2), changes, 4);
    for (uint32_t p = 0; p < PAGES; p++)
        if (c->table[p] != before[p]) to = write_number(write_number(to, p, 4), c->table[p], 4);
    return version == 3 ? write_number(to, c->parts[DISK], 4) : to;
}

#endif
