/* Refuses each request for memory of each function of the library in turn. tests/library builds it with malloc, realloc and free wrapped. */
#define _GNU_SOURCE
#include "galluspa.h"
#include <malloc.h>
#include <sys/mman.h>
#include <stdio.h>
#include <stdlib.h>
#include <string.h>

void *__real_malloc(size_t size);
void *__real_realloc(void *old, size_t size);
void __real_free(void *old);
static unsigned long calls, refused;
static size_t held, most;

static void hold(size_t size) { if ((held += size) > most) most = held; }
static size_t size_of(void *block) { return block ? malloc_usable_size(block) : 0; }

void *__wrap_malloc(size_t size) {
    void *block = ++calls == refused ? NULL : __real_malloc(size);
    hold(size_of(block));
    return block;
}

/* While a block moves, the old one and the new one are held. */
void *__wrap_realloc(void *old, size_t size) {
    if (++calls == refused) return NULL;
    size_t before = size_of(old);
    hold(size);
    void *block = __real_realloc(old, size);
    held -= size;
    if (block) held += size_of(block) - before;
    return block;
}

void __wrap_free(void *old) {
    held -= size_of(old);
    __real_free(old);
}

static uint8_t text[1 << 20], session[1 << 16], began[1 << 20], own[1 << 20], out[1 << 20], sent[64];
static uint32_t first_words[GALLUSPA_WORDS], later_words[GALLUSPA_WORDS], words[GALLUSPA_WORDS];
static galluspa_state first, later, state;
static size_t began_len;
static galluspa_input keys[] = {{3, 4, 65}, {4, 4, 66}, {5, 4, 67}, {6, 4, 68}, {7, 4, 69}};
static const galluspa_condition asked[] = {{.kind = GALLUSPA_STOPS}, {.kind = GALLUSPA_TAKES, .value = 4}};
static galluspa_hit hit, hits[8];
static uint64_t visits[GALLUSPA_WORDS], departures[GALLUSPA_WORDS], own_visits[GALLUSPA_WORDS], own_departures[GALLUSPA_WORDS];
static galluspa_trace_record records[90], own_records[90];
enum { CHECKPOINTS = 64, PAGES = 2048 };
static galluspa_checkpoint checkpoints[CHECKPOINTS], own_checkpoints[CHECKPOINTS];
static galluspa_page pages[PAGES], own_pages[PAGES];
static galluspa_call followed[2];
static galluspa_turn turns[2];

static size_t read_all(const char *name, uint8_t *to, size_t room) {
    FILE *file = fopen(name, "rb");
    if (!file) exit(9);
    size_t length = fread(to, 1, room, file);
    fclose(file);
    return length;
}

/* The result of a call that answered as it should: 0 if no request was refused, 3 if one was that a run does without, since it runs on
 * slowly where there is no memory to keep what it decoded, and 2 in a call that runs no machine. */
static int own_answer(int which, unsigned long made) {
    if (made < refused) return 0;
    return which == 0 || which == 1 || which == 4 || (which >= 7 && which != 10) ? 3 : 2;
}

/* Whether nothing of these was written: all were set to bytes of AA before. */
static int is_kept(const void *bytes, size_t size) {
    for (size_t i = 0; i < size; i++)
        if (((const uint8_t *)bytes)[i] != 0xAA) return 0;
    return 1;
}

/* The answer of a profile as above: one that is refused writes nothing. */
static int counted_answer(size_t result, unsigned long made) {
    if (result == 1) return memcmp(visits, own_visits, sizeof visits) || memcmp(departures, own_departures, sizeof visits) ? 2 : own_answer(8, made);
    return result == 4 && is_kept(visits, sizeof visits) && is_kept(departures, sizeof departures) && made >= refused ? 1 : 2;
}

/* The answer of a search for all hits as above: the five keys, and the machine at the end. */
static int listed_answer(int which, size_t result, size_t count, unsigned long made) {
    if (result == 1) {
        for (size_t i = 0; i < 5; i++)
            if (hits[i].count != i + 3 || hits[i].condition != 1) return 2;
        return count == 5 && hits[5].count == 77 && state.count == 90 ? own_answer(which, made) : 2;
    }
    int same = !memcmp(&state, &first, sizeof state) && !memcmp(words, first_words, sizeof words) && count == 77;
    return result == 4 && same && hits[0].count == 77 && made >= refused ? 1 : 2;
}

static uint8_t profile(uint64_t *to_visits, uint64_t *to_departures) {
    return galluspa_profile(&first, first_words, GALLUSPA_WORDS, keys, 5, 90, to_visits, GALLUSPA_WORDS, to_departures, GALLUSPA_WORDS);
}

/* The answer of recording 90 instructions as above: the machine comes to their end, or stays, and then some first records may be written. */
static int records_answer(size_t result, unsigned long made) {
    if (result == 1) {
        int same = !memcmp(records, own_records, sizeof records) && state.count == 90;
        return same ? own_answer(12, made) : 2;
    }
    size_t written = 0;
    while (written < 90 && !memcmp(&records[written], &own_records[written], sizeof records[0])) written++;
    int kept = !memcmp(&state, &first, sizeof state) && !memcmp(words, first_words, sizeof words);
    kept &= is_kept(records + written, sizeof records - written * sizeof records[0]);
    return result == 4 && kept && made >= refused ? 1 : 2;
}

/* Records the first 90 instructions of a machine in `state` and `words`. */
static uint8_t record_all(galluspa_trace_record *to) {
    return galluspa_records(&state, words, GALLUSPA_WORDS, keys, 5, to, 90);
}

/* The answer of a reading of all claims as above: all is written, or nothing, neither a count. */
static int claims_answer(size_t result, size_t length, size_t count, unsigned long made) {
    if (result == 1) {
        int same = !memcmp(checkpoints, own_checkpoints, sizeof checkpoints) && !memcmp(pages, own_pages, sizeof pages);
        return same ? own_answer(10, made) : 2;
    }
    int kept = is_kept(checkpoints, sizeof checkpoints) && is_kept(pages, sizeof pages) && length == 77 && count == 77;
    return result == 4 && kept && made >= refused ? 1 : 2;
}

static uint8_t claims(size_t text_len, galluspa_checkpoint *to, size_t *to_count, galluspa_page *to_pages, size_t *pages_count) {
    memset(to, 0xAA, sizeof checkpoints), memset(to_pages, 0xAA, sizeof pages);
    return galluspa_claims(text, text_len, to, CHECKPOINTS, to_count, to_pages, PAGES, pages_count);
}

static uint8_t follow(size_t *calls_count, size_t *turns_count) {
    memset(followed, 0xAA, sizeof followed), *calls_count = 0, memset(turns, 0xAA, sizeof turns);
    return galluspa_calls(&state, words, GALLUSPA_WORDS, keys, 5, 90, 0, followed, 2, calls_count, turns, 2, turns_count);
}

/* The answer of following calls as above: the program makes none. */
static int calls_answer(size_t result, size_t count, size_t turned, unsigned long made) {
    int kept = is_kept(followed, sizeof followed) && is_kept(turns, sizeof turns) && count == 0;
    if (result == 1) return state.count == 90 && kept && turned == 0 ? own_answer(9, made) : 2;
    int same = !memcmp(&state, &first, sizeof state) && !memcmp(words, first_words, sizeof words) && turned == 77;
    return result == 4 && kept && same && made >= refused ? 1 : 2;
}

/* Calls a function once with request `refused` refused: its own answer as above, 1 out of memory, 2 wrong. */
static int answers(int which, size_t text_len, size_t session_len, size_t own_len) {
    uint8_t status = 77;
    size_t result = 0, count = 77, pages_count = 77;
    memset(out, 0, sizeof out);
    state = first;
    memcpy(words, first_words, sizeof words);
    hit.count = 77;
    for (size_t i = 0; i < 8; i++) hits[i].count = 77;
    calls = 0;
    if (which == 0) result = galluspa_check(text, text_len, out, sizeof out, &status);
    if (which == 1) result = galluspa_record(session, session_len, out, sizeof out, &status);
    if (which == 2) result = galluspa_migrate(text, text_len, out, sizeof out, &status);
    if (which == 3) result = galluspa_claim(text, text_len, 1, &state, words, GALLUSPA_WORDS) + 1;
    if (which == 4) result = galluspa_advance(&state, words, GALLUSPA_WORDS, keys, 5, 90, sent, sizeof sent, &count) + 1;
    if (which == 7) result = galluspa_find(&first, first_words, GALLUSPA_WORDS, keys, 5, 90, asked, 2, GALLUSPA_LAST, &hit) + 1;
    if (which == 8) memset(visits, 0xAA, sizeof visits), memset(departures, 0xAA, sizeof departures);
    if (which == 8) result = profile(visits, departures) + 1;
    if (which == 12) memset(records, 0xAA, sizeof records), result = record_all(records) + 1;
    if (which == 10) result = claims(text_len, checkpoints, &count, pages, &pages_count) + 1;
    if (which == 11) result = galluspa_hits(&state, words, GALLUSPA_WORDS, keys, 5, 90, asked, 2, hits, 8, &count) + 1;
    if (which == 9) result = follow(&count, &pages_count) + 1;
    if (which == 5) result = galluspa_begin(&first, first_words, GALLUSPA_WORDS, out, sizeof out, &count) + 1;
    if (which == 6) result = galluspa_extend(began, began_len, keys, 5, &later, later_words, GALLUSPA_WORDS, sent, 3, out, sizeof out, &count) + 1;
    unsigned long made = calls;
    calls = 1UL << 40;
    if (which == 12) return records_answer(result, made);
    if (which == 9) return calls_answer(result, count, pages_count, made);
    if (which == 10) return claims_answer(result, count, pages_count, made);
    if (which == 11) return listed_answer(which, result, count, made);
    if (which == 8) return counted_answer(result, made);
    if (which == 7) {
        if (result == 1) return hit.count == 7 && hit.condition == 1 ? own_answer(which, made) : 2;
        return result == 4 && hit.count == 77 && made >= refused ? 1 : 2;
    }
    if (which > 4) {
        if (result == 1) return count == own_len && !memcmp(out, own, own_len) ? own_answer(which, made) : 2;
        return result == 4 && count == 77 && out[0] == 0 && made >= refused ? 1 : 2;
    }
    if (which > 2) {
        if (result == 1) return state.count == (which == 3 ? 30 : 90) ? own_answer(which, made) : 2;
        int same = !memcmp(&state, &first, sizeof state) && !memcmp(words, first_words, sizeof words) && count == 77;
        return result == 4 && same && made >= refused ? 1 : 2;
    }
    if (result == own_len) return memcmp(out, own, own_len) ? 2 : own_answer(which, made);
    return result == 0 && status == 77 && out[0] == 0 && made >= refused ? 1 : 2;
}

/* Whether a profile or records with a number out of its range is not refused for that: a length, a count, or an input. */
static int counted_in_range(const galluspa_input *none, const galluspa_input *fall) {
    enum { N = GALLUSPA_WORDS };
    galluspa_state late = first;
    uint64_t *v = visits, *d = departures;
    late.count = UINT64_MAX - 89;
    memset(v, 0xAA, sizeof visits), memset(d, 0xAA, sizeof departures);
    memset(records, 0xAA, sizeof records);
    return galluspa_profile(&first, first_words, N - 1, keys, 5, 90, v, N, d, N) != GALLUSPA_OUT_OF_RANGE
        || galluspa_profile(&first, first_words, N, keys, 5, 90, v, N - 1, d, N) != GALLUSPA_OUT_OF_RANGE
        || galluspa_profile(&first, first_words, N, keys, 5, 90, v, N, d, N - 1) != GALLUSPA_OUT_OF_RANGE
        || galluspa_profile(&late, first_words, N, keys, 5, 90, v, N, d, N) != GALLUSPA_OUT_OF_RANGE
        || galluspa_profile(&first, first_words, N, none, 1, 90, v, N, d, N) != GALLUSPA_OUT_OF_RANGE
        || galluspa_profile(&first, first_words, N, fall, 2, 90, v, N, d, N) != GALLUSPA_OUT_OF_RANGE
        || galluspa_records(&late, words, N, keys, 5, records, 90) != GALLUSPA_OUT_OF_RANGE
        || galluspa_records(&state, words, N, fall, 2, records, 90) != GALLUSPA_OUT_OF_RANGE;
}

/* A fault that can be known without memory is answered so, though no request is granted. */
static int faults(size_t text_len, size_t own_len) {
    size_t count = 77;
    galluspa_input fall[] = {{5, 4, 65}, {4, 4, 65}}, none[] = {{5, 7, 65}};
    for (refused = 1; refused < 3; refused++) {
        calls = 0;
        if (galluspa_claim(text, text_len - 1, 0, &state, words, GALLUSPA_WORDS) != GALLUSPA_NO_RECORDING) return 1;
        if (galluspa_extend(began, began_len - 1, keys, 5, &later, later_words, GALLUSPA_WORDS, sent, 3, own, own_len, &count) != GALLUSPA_NO_RECORDING) return 2;
        if (galluspa_extend(began, began_len, fall, 2, &later, later_words, GALLUSPA_WORDS, sent, 3, own, own_len, &count) != GALLUSPA_OUT_OF_RANGE) return 3;
        if (galluspa_advance(&state, words, GALLUSPA_WORDS, none, 1, 90, sent, 0, &count) != GALLUSPA_OUT_OF_RANGE) return 4;
        if (claims(text_len - 1, checkpoints, &count, pages, &count) != GALLUSPA_NO_RECORDING) return 8;
        if (!is_kept(checkpoints, sizeof checkpoints) || !is_kept(pages, sizeof pages)) return 9;
        if (calls || count != 77) return 5;
        if (counted_in_range(none, fall)) return 6;
        if (calls || !is_kept(visits, sizeof visits) || !is_kept(departures, sizeof departures)) return 7;
        if (!is_kept(records, sizeof records)) return 10;
    }
    return 0;
}

/* A machine that sends without end is stopped where there is no room, and little is held until then. Returns the most that was held. */
static size_t hostile(size_t room, uint64_t to, uint8_t wanted) {
    static galluspa_state sends;
    size_t count = 77;
    sends = first;
    words[0] = 0xA00FFFC8, words[1] = 0xE7FFFFFE;
    refused = held = most = 0;
    if (galluspa_advance(&sends, words, GALLUSPA_WORDS, keys, 0, to, own, room, &count) != wanted) return 0;
    if (wanted ? count != 77 : count != to / 2) return 0;
    return held || most > 2300000 + 3 * room ? 0 : most;
}

/* More bytes than a recording may send are refused before they are copied. Returns the most that was held, or 0. */
static size_t hostile_sent(size_t length) {
    size_t count = 77;
    uint8_t *bytes = mmap(NULL, length, PROT_READ, MAP_PRIVATE | MAP_ANONYMOUS | MAP_NORESERVE, -1, 0);
    if (bytes == MAP_FAILED) return 0;
    refused = held = most = 0;
    uint8_t code = galluspa_extend(began, began_len, keys, 5, &later, later_words, GALLUSPA_WORDS, bytes, length, out, sizeof out, &count);
    munmap(bytes, length);
    return code != GALLUSPA_TOO_MUCH_OUTPUT || count != 77 || held || most > 4000000 ? 0 : most;
}

int main(int argc, char **argv) {
    static const char *name[] = {"check", "record", "migrate", "claim", "advance", "begin", "extend", "find", "profile", "calls", "claims", "hits", "records"};
    if (argc < 3) return 9;
    size_t own_count, own_pages_count, text_len = read_all(argv[1], text, sizeof text), session_len = read_all(argv[2], session, sizeof session);
    if (galluspa_claim(text, text_len, 0, &first, first_words, GALLUSPA_WORDS)) return 9;
    if (galluspa_begin(&first, first_words, GALLUSPA_WORDS, began, sizeof began, &began_len)) return 9;
    later = first;
    later.count = 90;
    memcpy(later_words, first_words, sizeof words);
    later_words[70000] = 1;
    if (profile(own_visits, own_departures)) return 9;
    state = first;
    memcpy(words, first_words, sizeof words);
    if (record_all(own_records)) return 9;
    if (claims(text_len, own_checkpoints, &own_count, own_pages, &own_pages_count)) return 9;
    for (int which = 0; which < 13; which++) {
        uint8_t status = 77;
        size_t own_len = 0;
        if (which == 0) own_len = galluspa_check(text, text_len, own, sizeof own, &status);
        if (which == 1) own_len = galluspa_record(session, session_len, own, sizeof own, &status);
        if (which == 2) own_len = galluspa_migrate(text, text_len, own, sizeof own, &status);
        if (which == 5 && galluspa_begin(&first, first_words, GALLUSPA_WORDS, own, sizeof own, &own_len)) return 9;
        if (which == 6 && galluspa_extend(began, began_len, keys, 5, &later, later_words, GALLUSPA_WORDS, sent, 3, own, sizeof own, &own_len)) return 9;
        int spared = 0;
        for (refused = 1;; refused++) {
            int answer = answers(which, text_len, session_len, own_len);
            spared += answer == 3;
            if (answer == 2) { printf("%s: wrong with request %lu refused\n", name[which], refused); return 1; }
            if (answer == 0) break;
        }
        printf("%s%s %lu", which ? ", " : "", name[which], refused - 1);
        if (spared) printf(" (%d spared)", spared);
        if (refused == 1 || spared > 2) return 1;
    }
    int fault = faults(text_len, sizeof own);
    if (fault) { printf(": fault %d reported as out of memory\n", fault); return 1; }
    size_t none = hostile(0, 100000000, GALLUSPA_NO_ROOM), some = hostile(1000, 1ULL << 62, GALLUSPA_NO_ROOM);
    size_t all = hostile(sizeof own, sizeof own, GALLUSPA_DONE);
    size_t much = hostile_sent((size_t)1 << 32);
    refused = held = most = 0;
    size_t counts = profile(visits, departures) || held || most > 8000000 + 16 * 5 ? 0 : most;
    refused = held = most = 0;
    state = first;
    memcpy(words, first_words, sizeof words);
    size_t recorded = record_all(records) || held || most > 3800000 + 16 * 5 ? 0 : most;
    printf("; held %zu, %zu, %zu and %zu bytes, %zu to count and %zu to record\n", none, some, all, much, counts, recorded);
    return none && some && all && much && counts && recorded ? 0 : 1;
}
