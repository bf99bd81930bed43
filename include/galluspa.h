/* Galluspa for C: checks, records and migrates recordings of the RISC5 workstation, runs the proved emulator, searches a run,
 * counts its instructions, follows its calls, keeps its past, makes a recording while an emulator runs, and is an SD card for one.
 *
 * Each function but those of a galluspa_past works on the caller's buffers and keeps nothing, so nothing has to be freed, and threads
 * may call at the same time. A galluspa_past, at the end of this header, is a handle: it is opened, asked, and closed. The caller
 * sees to this:
 *
 *   - each pointer is to valid memory of the length that is passed with it, aligned for its type; no pointer is NULL, not even that
 *     of an empty buffer;
 *   - during the call, no other thread writes a buffer of the call, or reads one that the call writes;
 *   - a buffer that a call writes overlaps no other buffer of the call; buffers that it only reads may overlap.
 *
 * Nothing else is asked of the caller: each number is tested, and one that is out of its range is refused. A galluspa_card takes any.
 *
 * A function that writes an answer writes it to the front of the buffer, and leaves the bytes after it as they were. A call that is
 * refused writes nothing. There are four exceptions, each said where its function is declared: *out_count, *changed_count and *line_count
 * at GALLUSPA_NO_ROOM, the two counts of galluspa_claims then, the records of galluspa_records at GALLUSPA_OUT_OF_MEMORY, and a
 * galluspa_past, which a refused galluspa_past_open, galluspa_past_begin or galluspa_past_branch closes. GALLUSPA_MORE, and
 * GALLUSPA_NO_ROOM of galluspa_past_run, refuse nothing: the call did a part, and writes what its declaration says.
 *
 * A recording and a session are bytes in the formats of docs/formats.md. docs/from-c.md is a walk through this header. */
#ifndef GALLUSPA_H
#define GALLUSPA_H

#include <stddef.h>
#include <stdint.h>

#ifdef __cplusplus
extern "C" {
#endif

enum {
    GALLUSPA_WORDS = 262144,             /* words of memory: 1 MiB */
    GALLUSPA_LONGEST = 166326444,        /* bytes of the longest recording; of a longer file, pass that many and one more */
    GALLUSPA_LONGEST_SESSION = 67108864, /* bytes of the longest session; of a longer file, too, that many and one more */
    GALLUSPA_MAX_CONDITIONS = 64         /* the most conditions of a search */
};

/* What galluspa_check, galluspa_record and galluspa_migrate return in place of the length of an answer, if memory runs out. No
 * answer is empty. It is 0, as GALLUSPA_DONE is, which is not what these three return: test them against this name. */
enum { GALLUSPA_NO_ANSWER = 0 };

/* What galluspa_claim, galluspa_claims, galluspa_advance, galluspa_find, galluspa_hits, galluspa_profile, galluspa_records,
 * galluspa_calls, galluspa_begin, galluspa_extend and the calls with a galluspa_past return. */
enum {
    GALLUSPA_DONE = 0,
    GALLUSPA_OUT_OF_RANGE = 1,         /* a number is out of its range, a length is wrong, or inputs are out of order */
    GALLUSPA_NO_ROOM = 2,              /* the buffer is too small */
    GALLUSPA_OUT_OF_MEMORY = 3,        /* an allocation failed */
    GALLUSPA_NO_RECORDING = 4,         /* the bytes are not a valid recording */
    GALLUSPA_NO_CHECKPOINT = 5,        /* the recording has no such checkpoint */
    GALLUSPA_TOO_MANY_INPUTS = 6,      /* the recording would have more than 4,000,000 inputs; or, if no disk answers, 1,000,000 */
    GALLUSPA_TOO_MANY_CHECKPOINTS = 7, /* .. more than 4,097 checkpoints */
    GALLUSPA_TOO_MUCH_OUTPUT = 8,      /* .. more than 1,048,576 bytes sent */
    GALLUSPA_TOO_MANY_PAGES = 9,       /* .. more than 65,536 pages */
    GALLUSPA_PENDING_INPUTS = 10,      /* the recording has inputs at or after its last checkpoint */
    GALLUSPA_NOT_FOUND = 11,           /* of a search: no condition holds at any of the counts; of galluspa_past_write: there is no write */
    GALLUSPA_MORE = 12,                /* of a galluspa_past: a part is done; call again to go on */
    GALLUSPA_CLOSED = 13,              /* of a galluspa_past: none is open */
    GALLUSPA_LATER = 14                /* of a galluspa_past: a count is after its end */
};

/* The state of a machine without its memory: 144 bytes. The fields are those of a checkpoint in a recording. A function that writes
 * a state writes each field in its range, so that you can pass it to the next call. If you make a state of your own, set disk to
 * 255, unless the machine's disk has answered. */
typedef struct {
    uint64_t count;     /* instructions executed so far */
    uint32_t r[16];     /* R0 to R15 */
    uint32_t h;         /* the auxiliary register H */
    uint32_t pc;        /* the program counter, in words: below 2^22 */
    uint32_t flags;     /* N is 8, Z 4, C 2, V 1: below 16 */
    uint32_t stop;      /* 0 while it runs; 1 float, 2 divisor, 3 fetch, 4 address: at most 4 */
    uint32_t timer;     /* milliseconds */
    uint32_t rate;      /* instructions in a millisecond; 0 if only inputs set the timer */
    uint32_t phase;     /* instructions of the current millisecond: below rate, or 0 if rate is 0 */
    uint32_t switches;  /* buttons (bits 11 to 8) and switches: below 4,096 */
    uint32_t leds;      /* below 256 */
    uint32_t mouse;     /* inside the mask 073FF3FF */
    uint32_t serial;    /* the byte of the serial line, and in bit 8 whether it is new: below 512 */
    uint32_t key_count; /* key codes in the queue: at most 16 */
    uint8_t keys[16];   /* the queue, oldest first. The bytes from key_count on are not read, and are written as 0 */
    uint32_t disk;      /* what the disk answered last, the word that device word 4 reads: any; 255 before its first answer */
    uint32_t reserved;  /* is not read, and is written as 0 */
} galluspa_state;

/* An input, and the count of the instruction before which it comes: 16 bytes, encoded as an event of a recording. */
typedef struct {
    uint64_t count;     /* at most 2^40 */
    uint32_t kind;      /* 1 timer, 2 switches, 3 mouse, 4 key, 5 serial, 6 disk */
    uint32_t value;     /* any for the timer and the disk; below 4,096 for switches; inside 073FF3FF for the mouse; else below 256 */
} galluspa_input;

/* Checks a recording of any version: writes its verdict line, with the line feed, to line, and to *status 0 (accepted), 1 (false)
 * or 2 (refused). The line is what the program prints with --disk, and the status what it exits with. Returns the length of the
 * line, which is below 256; if that is more than line_len, nothing is written. Returns GALLUSPA_NO_ANSWER (0), and writes nothing,
 * if memory runs out. */
size_t galluspa_check(const uint8_t *recording, size_t recording_len, uint8_t *line, size_t line_len, uint8_t *status);

/* Records a session in JSON: writes its recording to out, in version 2 for a session of version 1 or 2, in version 3 for one of
 * version 3, and 0 to *status; or the line that says why it is refused, and 2. Returns the length of what it writes; if that is
 * more than out_len, nothing is written, and you call again with more room. Returns GALLUSPA_NO_ANSWER (0), and writes nothing, if
 * memory runs out. */
size_t galluspa_record(const uint8_t *session, size_t session_len, uint8_t *out, size_t out_len, uint8_t *status);

/* Migrates a recording: writes it to out, in version 2 if it has version 1 or 2, in version 3 if it has version 3, and 0 to
 * *status; or the line of the first rule that the bytes break, and 2. The recording is not replayed. Returns as galluspa_record
 * does: GALLUSPA_NO_ANSWER (0) if memory runs out. */
size_t galluspa_migrate(const uint8_t *recording, size_t recording_len, uint8_t *out, size_t out_len, uint8_t *status);

/* Reads what a checkpoint of a recording claims: its state, and its memory. words_len is GALLUSPA_WORDS. Checkpoint 0 is the
 * initial state. Whether the claim is true is not tested. Returns GALLUSPA_DONE; or GALLUSPA_OUT_OF_RANGE (words_len),
 * GALLUSPA_NO_RECORDING, GALLUSPA_OUT_OF_MEMORY (never for bytes that are not a valid recording) or GALLUSPA_NO_CHECKPOINT, and
 * then nothing is written. */
uint8_t galluspa_claim(const uint8_t *recording, size_t recording_len, uint32_t at, galluspa_state *state, uint32_t *words,
                       size_t words_len);

/* A page of memory: 1,024 bytes. */
typedef struct {
    uint32_t words[256];
} galluspa_page;

/* What a checkpoint claims, its memory page by page: 4,248 bytes. */
typedef struct {
    galluspa_state state;   /* the state, with its count */
    uint64_t sent_count;    /* the number of bytes sent since the checkpoint before */
    uint32_t pages[1024];   /* which page each 256 words of its memory are: below *pages_count */
} galluspa_checkpoint;

/* Reads what all checkpoints of a recording claim, in one reading: writes checkpoint k to checkpoints[k], the pages that they name to
 * pages, and the numbers of both to *checkpoints_count and *pages_count. The words of a checkpoint's memory from 256 * i on are
 * pages[checkpoint.pages[i]]. Page 0 is all zeros. Two checkpoints that have the same page at an index have the same words there.
 * Elements after these are left as they were. Whether a claim is true is not tested.
 *
 * Returns GALLUSPA_DONE; or GALLUSPA_NO_ROOM, and then the two counts say how much room is needed, and nothing else is written; or
 * GALLUSPA_NO_RECORDING or GALLUSPA_OUT_OF_MEMORY (never for bytes that are not a valid recording), and then nothing is written. At
 * most 4,097 checkpoints and 65,537 pages are needed.
 *
 * A call takes as long as one of galluspa_claim, which reads the whole recording for one checkpoint, and copies what it writes. It
 * holds the decoded recording: 16 bytes for each input, 1,024 for each page, and some 4,200 for each checkpoint. */
uint8_t galluspa_claims(const uint8_t *recording, size_t recording_len, galluspa_checkpoint *checkpoints, size_t checkpoints_len,
                        size_t *checkpoints_count, galluspa_page *pages, size_t pages_len, size_t *pages_count);

/* Runs a machine from the count of its state up to the count to. inputs are in the order of their counts; inputs before the state's
 * count, and inputs from to on, have no effect. The bytes that the machine sends are written to sent, and their number to
 * *sent_count. words_len is GALLUSPA_WORDS. Returns GALLUSPA_DONE; or GALLUSPA_OUT_OF_RANGE, GALLUSPA_NO_ROOM or
 * GALLUSPA_OUT_OF_MEMORY, and then nothing is written. All numbers are tested before anything is allocated, so
 * GALLUSPA_OUT_OF_MEMORY means that they are in their ranges.
 *
 * A call copies the memory, and at its end the pages that changed. However far it runs, it holds at most some 3.8 MB (1.1 MB if no
 * page changes), 4 KB for each page with code that runs, 16 bytes for each input, and three times sent_len bytes: the run ends
 * before the first byte for which there is no room. */
uint8_t galluspa_advance(galluspa_state *state, uint32_t *words, size_t words_len, const galluspa_input *inputs, size_t inputs_len,
                         uint64_t to, uint8_t *sent, size_t sent_len, size_t *sent_count);

/* What holds at a count n of a run. The instruction of count n is the one that the machine does once it has taken the inputs of
 * this count. Device words have addresses, too: they are the highest 64 bytes below 2^24. An access to a word accesses its four
 * bytes. */
enum {
    GALLUSPA_COUNTER = 1,   /* the machine runs, and its program counter is in the range, of word numbers: end at most 2^22 */
    GALLUSPA_STORE = 2,     /* the instruction stores to a byte in the range, of addresses, whatever the value: end at most 2^24 */
    GALLUSPA_CHANGE = 3,    /* it changes a bit of a byte of RAM in the range, and value, a mask, names the bit: bit i of the mask
                             * names bit i of each word, and 0xFFFFFFFF any bit. A mask of 0 is refused; end at most 2^20 */
    GALLUSPA_LOAD = 4,      /* the instruction loads a byte in the range, of addresses: end at most 2^24 */
    GALLUSPA_BECOMES = 5,   /* a register is not value before the instruction, and is value after it. from is the register: 0 to 15
                             * for R0 to R15, 16 for H, 17 for the flags, whose value is below 16 */
    GALLUSPA_SENDS = 6,     /* the instruction sends a byte */
    GALLUSPA_SENDS_BYTE = 7, /* it sends this byte: value is below 256 */
    GALLUSPA_TAKES = 8,     /* the machine runs, and takes an input of this kind: value is 1 to 6, as in galluspa_input */
    GALLUSPA_STOPS = 9,     /* the instruction stops the machine */
    GALLUSPA_WRITES = 10,   /* it writes a register, whatever the value, and does not stop the machine. from is the register, as of
                             * GALLUSPA_BECOMES. A result, a load and a link that write one of R0 to R15 write the flags, too; a product
                             * and a quotient write H */
    GALLUSPA_IS = 11,       /* the machine runs, and before the instruction the register from, as of GALLUSPA_BECOMES, has one of the values
                             * from least up to most. They go round: 0 comes after 0xFFFFFFFF, so signed numbers have ranges, too, and the
                             * values from v + 1 up to v - 1 are all but v. Those of the flags are below 16 */
    GALLUSPA_IS_WORD = 12,  /* so do the bits of a word of RAM that value, a mask, names; its other bits count as 0. from is its address, a
                             * multiple of 4 below 2^20. A mask of 0 is refused */
    GALLUSPA_ALTERS = 13,   /* the instruction changes a bit of the register from, as of GALLUSPA_BECOMES, and value, a mask, names the
                             * bit. A mask of 0 is refused, and for the flags one that is not below 16 */
    GALLUSPA_WRITES_FLAGS = 14 /* it writes a flag that value, a mask, names, whatever the flag becomes, and does not stop the machine.
                             * N is 8, Z 4, C 2 and V 1: N and Z are written with each of R0 to R15, C and V by sums and differences
                             * alone. value is 1 to 15 */
};

/* Is added to the kind of a condition that is joined to the next one of the list: they hold where both hold. At most four are joined
 * with one another; the last of a list is not joined. A hit has the index of the first of them. */
#define GALLUSPA_AND 0x80000000u

/* A condition: 24 bytes. Fields that its kind does not name are not read. */
typedef struct {
    uint32_t kind;      /* which condition; with GALLUSPA_AND added if it is joined to the next one */
    uint32_t from;      /* the first number of the range, the register, or the address of the word */
    uint32_t end;       /* the number after the last of the range: above from */
    uint32_t value;     /* the mask, the value of the register, the byte, or the kind of input */
    uint32_t least;     /* the first of some values */
    uint32_t most;      /* the last of them */
} galluspa_condition;

/* A count at which a condition holds: 16 bytes. */
typedef struct {
    uint64_t count;     /* the count */
    uint64_t condition; /* the index of the first condition of the list that holds at it */
} galluspa_hit;

/* What galluspa_find looks for. */
enum {
    GALLUSPA_FIRST = 0, /* the first count */
    GALLUSPA_LAST = 1   /* the last count */
};

/* Finds when a condition holds: the first count, or the last, from the count of a state up to but not including the count to, at
 * which one of these conditions, of which there are at most GALLUSPA_MAX_CONDITIONS, holds in the run that galluspa_advance would
 * do with these inputs. words_len is GALLUSPA_WORDS, and wanted GALLUSPA_FIRST or GALLUSPA_LAST. The state stays as it is: advance
 * it to the count of the hit to see the machine there.
 *
 * Returns GALLUSPA_DONE, and writes the hit; GALLUSPA_NOT_FOUND; or GALLUSPA_OUT_OF_RANGE or GALLUSPA_OUT_OF_MEMORY. Unless it is
 * GALLUSPA_DONE, nothing is written. All numbers are tested before anything is allocated, so GALLUSPA_OUT_OF_MEMORY means that they
 * are in their ranges.
 *
 * A call does some 80 to 120 million steps a second where few instructions concern a condition, some 30 million where each third
 * one does, some 20 million with GALLUSPA_IS or GALLUSPA_IS_WORD, which concern all, and 2 to 3 million with 64 of these; and far more
 * where the machine waits, since it passes over the iterations of an idle loop. With GALLUSPA_LAST it does each iteration in which a
 * condition holds. Cut a long range into calls of some millions of steps each, and advance the state between them. A call copies the
 * memory, and holds at most some 2.3 MB, 4 KB for each page with code that runs, and 16 bytes for each input. */
uint8_t galluspa_find(const galluspa_state *state, const uint32_t *words, size_t words_len, const galluspa_input *inputs,
                      size_t inputs_len, uint64_t to, const galluspa_condition *conditions, size_t conditions_len, uint32_t wanted,
                      galluspa_hit *hit);

/* Finds all counts at which a condition holds, in their order, and advances the machine: up to the count to, or to the count after the
 * hit that fills hits, whichever comes first. state->count then says where to go on: call again until it is to. The hits of calls
 * that follow one another are those of one call for the whole. The conditions are as for galluspa_find; those that are joined are
 * one. The bytes that the machine sends are dropped. words_len is GALLUSPA_WORDS, and hits_len is not 0.
 *
 * Returns GALLUSPA_DONE, and writes the hits to the front of hits, and their number, which may be 0, to *hits_count; or
 * GALLUSPA_OUT_OF_RANGE or GALLUSPA_OUT_OF_MEMORY, and then nothing is written, and the machine stays as it is. All numbers are tested
 * before anything is allocated, so GALLUSPA_OUT_OF_MEMORY means that they are in their ranges.
 *
 * A call takes as long as galluspa_find does, and copies the memory as galluspa_advance does. It holds at most some 3.8 MB, 4 KB for
 * each page with code that runs, 16 bytes for each input, and 48 bytes for each hit. */
uint8_t galluspa_hits(galluspa_state *state, uint32_t *words, size_t words_len, const galluspa_input *inputs, size_t inputs_len,
                      uint64_t to, const galluspa_condition *conditions, size_t conditions_len, galluspa_hit *hits, size_t hits_len,
                      size_t *hits_count);

/* Counts how often a run executes each word, from the count of a state up to the count to: the run that galluspa_advance would do
 * with these inputs. The bytes that the machine sends are dropped. words_len, visits_len and departures_len are GALLUSPA_WORDS.
 *
 * visits[p] is the number of counts at which the machine executes the word p: it is not stopped, and its program counter is p. An
 * instruction that stops the machine is counted once. A stopped machine, and a program counter outside memory, count nowhere.
 * departures[p] is how many of these are not followed by the word p + 1: after a branch that is taken, or a stop, which leaves the
 * program counter as it is. A branch to the next word is no departure.
 *
 * The state stays as it is. Returns GALLUSPA_DONE; or GALLUSPA_OUT_OF_RANGE or GALLUSPA_OUT_OF_MEMORY, and then nothing is written.
 * All numbers are tested before anything is allocated, so GALLUSPA_OUT_OF_MEMORY means that they are in their ranges.
 *
 * A call runs at some 70 to 95 % of the speed of galluspa_advance on programs that work, and counts the iterations of an idle loop
 * without doing each, if an iteration branches at most 256 times; others it does step by step. It copies the memory, and holds at most
 * some 8 MB, 4 KB for each page with code that runs, and 16 bytes for each input. The counts of two runs that follow one another add
 * up to those of the whole run. */
uint8_t galluspa_profile(const galluspa_state *state, const uint32_t *words, size_t words_len, const galluspa_input *inputs,
                         size_t inputs_len, uint64_t to, uint64_t *visits, size_t visits_len, uint64_t *departures,
                         size_t departures_len);

/* What an instruction does, and the state before it: 184 bytes. A number that says nothing is 0. */
typedef struct {
    galluspa_state state;   /* the state before the instruction, and before the inputs of its count */
    uint64_t inputs_from;   /* the index of the first input of this count or of a later one */
    uint64_t inputs_count;  /* how many inputs from there on, all in the list, the machine takes before the instruction */
    uint32_t word;          /* the word of the instruction */
    uint32_t address;       /* the address of the first byte that it loads or stores: below 2^24 */
    uint32_t old_value;     /* the value of these bytes before it, as a load of them gives it after the inputs */
    uint32_t new_value;     /* the value that it stores there, or passes to a device; old_value if it loads */
    uint32_t sent;          /* the byte that it sends */
    uint8_t has_word;       /* 1 if there is a word: the machine runs, and its program counter is in memory */
    uint8_t access_bytes;   /* how many bytes it loads or stores: 1 or 4, or 0 if it accesses none */
    uint8_t stores;         /* 1 if it stores them, 0 if it loads them */
    uint8_t sends;          /* 1 if it sends a byte */
} galluspa_trace_record;

/* Records what each instruction of a run does: runs the machine as far as galluspa_advance would, up to the state's count and records_len
 * more, and writes what the instruction of each count does, in order, to records[0] and those after it. words_len is GALLUSPA_WORDS, and
 * the state's count and records_len together are below 2^64. What an instruction does to registers and devices shows in the state of
 * the next record; after the last one, in *state. A stopped machine has records, too, that do nothing. An instruction whose address is
 * neither RAM nor a device word stops the machine, and accesses nothing.
 *
 * Returns GALLUSPA_DONE; the state and the words are then those after the last record, so call again to go on. Otherwise they stay as
 * they are, and it returns GALLUSPA_OUT_OF_RANGE, and then nothing is written; or GALLUSPA_OUT_OF_MEMORY: then all numbers are in their
 * ranges, the records of some first counts are written, and the rest of records is as it was.
 *
 * A call does some 12 to 25 million counts a second, each by itself, also where the machine waits. It copies the memory, which takes as
 * long as some 3,000 counts, and at its end the pages that changed. It holds at most some 3.8 MB, 4 KB for each page with code that runs,
 * and 16 bytes for each input. */
uint8_t galluspa_records(galluspa_state *state, uint32_t *words, size_t words_len, const galluspa_input *inputs, size_t inputs_len,
                         galluspa_trace_record *records, size_t records_len);

/* Begins a recording: writes the recording that has no inputs, and checkpoint 0 alone, which claims this state, to out, and its
 * length to *out_count. It has version 2 if disk is 255, and else version 3. words_len is GALLUSPA_WORDS. The state's count is 0,
 * since a recording counts from its initial state. Returns GALLUSPA_DONE; or GALLUSPA_OUT_OF_RANGE, GALLUSPA_NO_ROOM (then
 * *out_count is the length that is needed) or GALLUSPA_OUT_OF_MEMORY, and then nothing else is written. */
uint8_t galluspa_begin(const galluspa_state *state, const uint32_t *words, size_t words_len, uint8_t *out, size_t out_len,
                       size_t *out_count);

/* Extends a recording by its next checkpoint: writes the recording with these inputs and one more checkpoint to out, and its length
 * to *out_count. It has version 2 as long as no input and no checkpoint has an answer of a disk and it has at most 1,000,000
 * inputs, and else version 3. The checkpoint claims this state, and that these bytes were sent since the checkpoint before. The
 * state's count is above that of the last checkpoint, and at most 2^40. Each input comes between the two: at the last checkpoint's
 * count or later, and before the state's. words_len is GALLUSPA_WORDS.
 *
 * Whether the claim is true is not tested. If all claims of the recording are true, and galluspa_advance returned this state and
 * these bytes from the state of its last checkpoint with these inputs, then all claims of the new recording are true. A recording
 * with an input at or after its last checkpoint is refused, since that input would be part of the run, too.
 *
 * Returns as galluspa_begin does, or GALLUSPA_NO_RECORDING, GALLUSPA_PENDING_INPUTS or GALLUSPA_TOO_.. It returns the first of
 * these that applies: GALLUSPA_OUT_OF_RANGE for a number of the state or of an input, words_len, or inputs that are out of order;
 * GALLUSPA_NO_RECORDING; GALLUSPA_PENDING_INPUTS; GALLUSPA_OUT_OF_RANGE for what does not come next; GALLUSPA_TOO_MANY_INPUTS,
 * .._CHECKPOINTS, GALLUSPA_TOO_MUCH_OUTPUT, GALLUSPA_TOO_MANY_PAGES; GALLUSPA_NO_ROOM.
 *
 * Before memory is asked for, the numbers are tested by themselves: those of the state but its count, words_len, and the inputs,
 * whose counts do not fall and are at most 2^40. The recording is decoded next, which asks for memory. Only then are the counts
 * compared with it, and the state's count with 2^40. So GALLUSPA_OUT_OF_MEMORY comes only for a valid recording and numbers in
 * these ranges, and it may come in place of whatever follows GALLUSPA_NO_RECORDING in the list above. */
uint8_t galluspa_extend(const uint8_t *recording, size_t recording_len, const galluspa_input *inputs, size_t inputs_len,
                        const galluspa_state *state, const uint32_t *words, size_t words_len, const uint8_t *sent, size_t sent_len,
                        uint8_t *out, size_t out_len, size_t *out_count);

/* A call: a branch with link that is taken, but not to the next word, and that returns from no open call: 24 bytes. */
typedef struct {
    uint64_t count;     /* the count of the branch */
    uint32_t at;        /* its word number */
    uint32_t to;        /* the word that it goes to */
    uint32_t back;      /* the word after it, to which the call returns */
    uint32_t sp;        /* R14, the stack pointer */
} galluspa_call;

/* A count at which the open calls change: 32 bytes. The first stay of them stay open, and then the call is added, if one is made. */
typedef struct {
    uint64_t count;     /* the count, which is the call's, too */
    uint64_t stay;      /* how many of the open calls stay open, the oldest ones */
    uint32_t at;        /* the word of the call's branch, or 0xFFFFFFFF if no call is made: then the three others are 0 */
    uint32_t to;        /* the word that it goes to */
    uint32_t back;      /* the word after it */
    uint32_t sp;        /* R14 */
} galluspa_turn;

/* Runs a machine as galluspa_advance does, and follows its calls, by the convention of Project Oberon: R15 is the return address, and
 * R14 the stack pointer, which falls as the stack grows. The bytes that it sends are dropped.
 *
 * A branch with link that is taken is a call of the word that it goes to, unless it goes to the next word, or returns. A branch that
 * is taken, to another word than the next one, returns from an open call if it goes to the word after that call's branch, and R14 is
 * what it was there. It also ends the calls at which R14 was below what it is now, if that is at most limit, the highest R14 of the
 * stack: above it is another stack. And a branch with link ends the call that it made before with the same R14, whether it makes a call
 * again or returns from a later one. With a call end all that were made after it. With the limit 0xFFFFFFFF each rise of R14 counts, and
 * with 0 none does.
 *
 * calls holds the *calls_count calls that are open at the state's count, oldest first, and gets those that are open where the machine
 * is then: at the count to, or at the first count at which turns or calls is full, which is then the state's. turns gets the counts at
 * which the open calls changed, and *turns_count their number. Begin with no calls, and go on with what the last call left: then turns of
 * the calls, one after the other, are those of the whole run. words_len is GALLUSPA_WORDS, turns_len at least 1, and calls_len above
 * *calls_count.
 *
 * A branch is compared with the open calls that have its R14, so many of these take time: 10,000 made one after the other take 0.3 s, and
 * 80,000 take 23 s. Who has to answer meanwhile asks for nearer counts.
 *
 * Returns GALLUSPA_DONE; or GALLUSPA_OUT_OF_RANGE or GALLUSPA_OUT_OF_MEMORY, and then nothing is written. Out of range are, beside what
 * is so for galluspa_advance, calls that no run leaves open: an at that is not below GALLUSPA_WORDS, a back that is not at + 1, counts
 * that do not rise or are not below the state's, and an sp up to limit that is above that of a call before it. All numbers are tested
 * before anything is allocated, so GALLUSPA_OUT_OF_MEMORY means that they are in their ranges.
 *
 * A call copies the memory, and at its end the pages that changed; it holds what galluspa_advance does, and calls and turns once more.
 * It passes over the iterations of an idle loop, as galluspa_advance does, if they leave the open calls as they are; a loop in the last 256
 * words of memory may be done step by step. */
uint8_t galluspa_calls(galluspa_state *state, uint32_t *words, size_t words_len, const galluspa_input *inputs, size_t inputs_len,
                       uint64_t to, uint32_t limit, galluspa_call *calls, size_t calls_len, size_t *calls_count, galluspa_turn *turns,
                       size_t turns_len, size_t *turns_count);

/* ---- The past of a run ----
 *
 * A past is a run that the library keeps: an initial state, inputs, and keyframes, from which it has the state of each count. All that
 * it answers is of one run, that from the initial state with these inputs, as galluspa_advance does it; no claim of a recording is
 * used. The answer does not depend on budgets, on keyframes, or on what was asked before.
 *
 * A galluspa_past is 16 bytes of yours, all zeros if no past is open: write galluspa_past past = {0}. Do not copy it while it is open,
 * and change nothing in it. Each call with one takes a past that is open, or zeros: then it returns GALLUSPA_CLOSED and does nothing.
 * Close it to free its memory. A past serves one call at a time, of any thread; different pasts may be called at the same time.
 *
 * Memory: a past holds 1,024 bytes for each page that differs from the keyframe before, 4,400 bytes for each keyframe, 16 for each
 * input, and during a call what galluspa_advance holds twice. Keyframes are added as they are needed; only galluspa_past_cut drops
 * some, and keeps their pages. If an allocation fails, the call returns GALLUSPA_OUT_OF_MEMORY; the past stays open, of the same run,
 * and what it has found out is kept. */
typedef struct {
    void *past;       /* the library's */
    uint64_t is_open; /* 0 if no past is open */
} galluspa_past;

/* Opens the past of a recording, of any version: its initial state, its inputs, and its end, the count of its last checkpoint. A past
 * that is open in *past is closed first. spacing is how many instructions are between two keyframes: at least 65,536, or 0 for
 * 1,048,576. Returns GALLUSPA_DONE; or GALLUSPA_OUT_OF_RANGE (spacing), GALLUSPA_NO_RECORDING or GALLUSPA_OUT_OF_MEMORY (never for
 * bytes that are not a valid recording), and then *past is zeros. Takes as long as galluspa_claim. */
uint8_t galluspa_past_open(galluspa_past *past, const uint8_t *recording, size_t recording_len, uint64_t spacing);

/* Opens the past of a machine that begins with this state and has no inputs. Its end is the state's count, which may be above 0: it has
 * this one count. A past that is open in *past is closed first. words_len is GALLUSPA_WORDS, and spacing is as for galluspa_past_open.
 * Returns GALLUSPA_DONE; or GALLUSPA_OUT_OF_RANGE, for spacing, words_len, or a number of the state, or GALLUSPA_OUT_OF_MEMORY (only if
 * all is in range), and then *past is zeros. */
uint8_t galluspa_past_begin(galluspa_past *past, const galluspa_state *state, const uint32_t *words, size_t words_len,
                            uint64_t spacing);

/* Frees a past, and writes zeros to it. A second call does nothing. */
void galluspa_past_close(galluspa_past *past);

/* Where a past is: 48 bytes. */
typedef struct {
    uint64_t first;     /* the first count */
    uint64_t end;       /* the last count that can be asked about */
    uint64_t reached;   /* the count of the last keyframe: an answer about a count far after it has to run first */
    uint64_t keyframes; /* how many keyframes it has */
    uint64_t pages;     /* how many pages it holds, with those of keyframes that a cut dropped */
    uint64_t inputs;    /* how many inputs it has */
} galluspa_extent;

/* Writes where a past is. Returns GALLUSPA_DONE or GALLUSPA_CLOSED. */
uint8_t galluspa_past_extent(galluspa_past *past, galluspa_extent *extent);

/* The count `from` of a caller that has the memory of no count. */
#define GALLUSPA_NO_COUNT UINT64_MAX

/* Goes to the count at: writes its state, and those pages of its memory that differ from those at the count from, to the front of
 * changed, in the order of their slots. slots, which has 1,024 elements, gets the slot of each at the same index, 0 to 1,023: a page has
 * the words from 256 times its slot on. *changed_count gets their number. from is the count whose memory you have, which may be
 * after at, or GALLUSPA_NO_COUNT: then the pages that are not all zeros are written. 1,024 pages are always enough.
 *
 * The past first runs on as far as it needs, and adds keyframes. budget is how many instructions it may do, those of idle loops that
 * are passed over too; beside these a call does at most some three spacings of instructions.
 *
 * Returns GALLUSPA_DONE; GALLUSPA_MORE if the budget is spent: a keyframe was added, so call again with the same numbers, or do not to
 * cancel; GALLUSPA_NO_ROOM, and then *changed_count says how many pages differ; GALLUSPA_OUT_OF_RANGE if budget is 0, or one of the
 * counts is before the first; GALLUSPA_LATER if one of them is after the end; GALLUSPA_CLOSED; or GALLUSPA_OUT_OF_MEMORY (never for
 * a count that is outside the past). Unless it is GALLUSPA_DONE nothing else is written. */
uint8_t galluspa_past_at(galluspa_past *past, uint64_t at, uint64_t from, uint64_t budget, galluspa_state *state,
                         uint16_t slots[1024], galluspa_page *changed, size_t changed_len, size_t *changed_count);

/* Goes to the last keyframe at or before the count at, at once: for a picture while galluspa_past_at takes its time. Its count is
 * state->count. Returns as galluspa_past_at does; GALLUSPA_MORE if from is more than a spacing after the last keyframe. */
uint8_t galluspa_past_near(galluspa_past *past, uint64_t at, uint64_t from, galluspa_state *state, uint16_t slots[1024],
                           galluspa_page *changed, size_t changed_len, size_t *changed_count);

/* Adds inputs to a past, after those that it has: for a live machine, whose inputs come while it runs. None is below the end of the
 * past or the count of an input that it has; else they are as for galluspa_advance. Returns GALLUSPA_DONE; or GALLUSPA_OUT_OF_RANGE,
 * GALLUSPA_CLOSED or GALLUSPA_OUT_OF_MEMORY (only for inputs that come next), and then none is added. */
uint8_t galluspa_past_input(galluspa_past *past, const galluspa_input *inputs, size_t inputs_len);

/* Runs on from the end of the past to the count to, which becomes its end, with the inputs of these counts. The bytes that the machine
 * sends are written to the front of sent, and their number to *sent_count. budget is how many instructions it may do, those of idle
 * loops that are passed over too; if keyframes up to the old end have to be made first, it may do as many for these, and some three
 * spacings beside them.
 *
 * Returns GALLUSPA_DONE; GALLUSPA_MORE if the budget is spent, or at the count of the next keyframe, which it adds; and
 * GALLUSPA_NO_ROOM before an instruction that sends a byte for which there is no room. With either of them the end is the count that
 * the run came to, the bytes up to it are written, and a call with the same numbers goes on from there. Or GALLUSPA_OUT_OF_RANGE if
 * budget is 0 or to is below the end, GALLUSPA_CLOSED, or GALLUSPA_OUT_OF_MEMORY: then nothing is written, and the end stays. */
uint8_t galluspa_past_run(galluspa_past *past, uint64_t to, uint64_t budget, uint8_t *sent, size_t sent_len, size_t *sent_count);

/* Drops what comes after the count at, which becomes the end: the inputs from this count on, and the keyframes after it. A live machine
 * goes on from there. It allocates nothing, and the pages stay. Returns GALLUSPA_DONE; or GALLUSPA_OUT_OF_RANGE if at is before the
 * first count, GALLUSPA_LATER if it is after the end, or GALLUSPA_CLOSED, and then nothing is dropped. */
uint8_t galluspa_past_cut(galluspa_past *past, uint64_t at);

/* Makes a second past of the same run up to the count at, with the inputs before it and the keyframes up to it, and opens it in *branch,
 * which is another galluspa_past, or zeros. It shares nothing with the first: a second thread may have it. A past that is open in
 * *branch is closed first. Returns GALLUSPA_DONE; or GALLUSPA_OUT_OF_RANGE if at is before the first count, GALLUSPA_LATER if it is after
 * the end, GALLUSPA_CLOSED if none is open in *past, or GALLUSPA_OUT_OF_MEMORY (never for a count that is outside the past), and then
 * *branch is zeros. It runs nothing, and takes as long as to copy the pages and the inputs. */
uint8_t galluspa_past_branch(galluspa_past *past, uint64_t at, galluspa_past *branch);

/* Finds the first count, from the count from up to but not including to, at which a condition of a list holds, if wanted is
 * GALLUSPA_FIRST, or the last if it is GALLUSPA_LAST. The conditions are as for galluspa_find. The search for the last goes from keyframe
 * to keyframe, backward from to, so that one near the end of the range is found soon.
 *
 * The past first runs on as far as it needs, and adds keyframes: up to from for the first, up to to for the last. budget is how many
 * instructions it may do for these, and how many it may search, those of idle loops that are passed over too; beside these a call does
 * at most some three spacings of instructions.
 *
 * Returns GALLUSPA_DONE, and writes the hit; GALLUSPA_NOT_FOUND if there is none; or GALLUSPA_MORE if the budget is spent, and writes
 * *progress: the range is searched from from up to it for the first, or from to down to it for the last, and nothing is found there.
 * Call again with *progress in place of from, or of to for the last, to go on: the answer is that about the whole range.
 *
 * Else it is GALLUSPA_OUT_OF_RANGE if from is before the first count or after to, budget is 0, or wanted or the conditions are as
 * galluspa_find refuses them; GALLUSPA_LATER if to is after the end: then the past is exactly as it was; GALLUSPA_CLOSED; or
 * GALLUSPA_OUT_OF_MEMORY (only if all is in range): then keyframes may have been added. Then nothing is written. */
uint8_t galluspa_past_find(galluspa_past *past, uint64_t from, uint64_t to, const galluspa_condition *conditions,
                           size_t conditions_len, uint32_t wanted, uint64_t budget, galluspa_hit *hit, uint64_t *progress);

/* Finds all counts, from the count *from up to but not including to, at which a condition holds, in their order: writes them to the front
 * of hits, which is not empty, and their number to *hits_count. *from is then the count to go on from: to, or, if hits is full, the count
 * after the last of them, even if no more follow.
 *
 * Returns GALLUSPA_DONE; or GALLUSPA_MORE if the budget, which is as for galluspa_past_find, is spent: the hits before the new *from are
 * written. After either, a call with the same numbers goes on, until GALLUSPA_DONE comes with *from at to. Else it returns as
 * galluspa_past_find does, GALLUSPA_OUT_OF_RANGE also if hits_len is 0, and nothing is written. */
uint8_t galluspa_past_hits(galluspa_past *past, uint64_t *from, uint64_t to, const galluspa_condition *conditions,
                           size_t conditions_len, uint64_t budget, galluspa_hit *hits, size_t hits_len, size_t *hits_count);

/* A part of a machine, whose writes galluspa_past_write and galluspa_past_why find. */
enum {
    GALLUSPA_REGISTER = 1, /* the bits of a register that mask names: first is the register, as of GALLUSPA_BECOMES. R0 to R15 and H are
                            * written whole; the flags as for GALLUSPA_WRITES_FLAGS. A mask of 0 is refused, and for the flags one that is
                            * not below 16 */
    GALLUSPA_WORD = 2,     /* the bits of a word of RAM that mask names: first is its address, a multiple of 4 below 2^20. A store of a
                            * byte writes the word if mask names a bit of this byte. A mask of 0 is refused */
    GALLUSPA_LEDS = 3,     /* the LEDs: each store to their device word writes them */
    GALLUSPA_INPUTS = 4,   /* what inputs of a kind set: first is the kind, 1 to 6, as in galluspa_input. The machine does not take those of
                            * counts at which it is stopped */
    GALLUSPA_STOP = 5      /* why the machine stopped */
};

/* Such a part: 12 bytes. Fields that its kind does not name are not read. */
typedef struct {
    uint32_t kind;      /* which part */
    uint32_t first;     /* the register, the address of the word, or the kind of input */
    uint32_t mask;      /* which bits of it */
} galluspa_part;

/* A write of a part: 24 bytes. */
typedef struct {
    uint64_t count;     /* the count of the instruction that writes the part, or of the input */
    uint64_t by;        /* 0 if the instruction writes it, and 1 if an input does */
    uint64_t input;     /* the index of the input among those of the past: the last of its kind at this count; 0 for an instruction */
} galluspa_write;

/* Finds the last write of a part before the count before, from the first count of the past on. If changing is 1, it is the last one that
 * changed a bit that the mask names, of a register or of a word; each write of another part counts as a change. changing is 0 or 1.
 *
 * The search goes from keyframe to keyframe, backward from before, so that a late write is found soon; for the write before that, ask
 * about its count. budget is as for a galluspa_past_find of the last count. Returns GALLUSPA_DONE, and writes the write;
 * GALLUSPA_NOT_FOUND if there is none, so that the part is as it was at the first count; or GALLUSPA_MORE if the budget is spent, and
 * writes *progress: there is no such write from it on. Call again with *progress in place of before to go on: the answer is that about
 * before.
 *
 * Else it is GALLUSPA_OUT_OF_RANGE if before is before the first count, changing is above 1, budget is 0, or a number of the part is out
 * of its range; GALLUSPA_LATER if before is after the end: then the past is exactly as it was; GALLUSPA_CLOSED; or GALLUSPA_OUT_OF_MEMORY
 * (only if all is in range): then keyframes may have been added. Then nothing is written. */
uint8_t galluspa_past_write(galluspa_past *past, const galluspa_part *part, uint32_t changing, uint64_t before, uint64_t budget,
                            galluspa_write *write, uint64_t *progress);

/* Where the value of a part comes from: 80 bytes. */
typedef struct {
    uint64_t count;     /* the count of the instruction that wrote it, or of the input; 0 if nothing did */
    uint64_t input;     /* the index of the input among those of the past, else 0 */
    uint32_t how;       /* 0: nothing wrote it from the first count on; 1: the instruction of the count; 2: an input */
    uint32_t value;     /* the value: that of the input, or the bits of the part that mask names, after the write or at the first count */
    uint32_t pc;        /* the program counter before the instruction, in words. This and what follows is 0 if how is not 1 */
    uint32_t has_word;  /* 1, or 0 if the program counter is beyond RAM, where the machine stops */
    uint32_t word;      /* the word of the instruction */
    uint32_t bits;      /* the bits of the part that it wrote: the others that mask names come from an earlier write */
    uint32_t origins_count;       /* how many origins there are, from 0 to 3 */
    galluspa_part origins[3];     /* the parts from which it computed what it wrote, and then fillers */
} galluspa_link;

/* Finds where the value of a part before the count before comes from: its last write, from the first count of the past on, the value that
 * this gave it, and the parts from which the instruction computed it. These are its operands, what it loads, C if it takes part, and the
 * register of the address of a load or store; a number of an instruction, a link, and what a device word reads that no input sets, are
 * from none. What made the run come to the instruction, and the condition of a branch, are left out.
 *
 * To go further back, ask about each origin before the count of the link; about one of the kind GALLUSPA_INPUTS before the count + 1,
 * since the machine takes the inputs of a count before its instruction. If bits has not all bits of the mask, ask about the part with the
 * other bits before the count of the link, too.
 *
 * budget is as for galluspa_past_write. Returns GALLUSPA_DONE, and writes the link; or GALLUSPA_MORE if the budget is spent, and writes
 * *progress: there is no write from it on. Call again with *progress in place of before to go on: the answer is that about before.
 *
 * Else it is GALLUSPA_OUT_OF_RANGE if before is before the first count, budget is 0, or a number of the part is out of its range;
 * GALLUSPA_LATER if before is after the end: then the past is exactly as it was; GALLUSPA_CLOSED; or GALLUSPA_OUT_OF_MEMORY (only if all
 * is in range): then keyframes may have been added. Then nothing is written. */
uint8_t galluspa_past_why(galluspa_past *past, const galluspa_part *part, uint64_t before, uint64_t budget, galluspa_link *link,
                          uint64_t *progress);

/* Records what the instructions of a past do, from the count *from up to but not including to: writes a record for each count to the
 * front of records, which is not empty, as galluspa_records does, and their number to *records_count. *from is then the count after the
 * last of them: to, if there is room. budget is how many instructions it may do to add keyframes up to *from, and how many records it may
 * write; beside these a call does at most some two spacings of instructions.
 *
 * Returns GALLUSPA_DONE if all counts are recorded, or as many as there is room for; or GALLUSPA_MORE if the budget is spent: the records
 * before the new *from are written. After either, a call with the same numbers goes on, until *from is to. Else it is
 * GALLUSPA_OUT_OF_RANGE if *from is before the first count or after to, budget is 0, or records_len is 0; GALLUSPA_LATER if to is after
 * the end; GALLUSPA_CLOSED; or GALLUSPA_OUT_OF_MEMORY (only if all is in range). Then nothing is written.
 *
 * A call holds at most some 600 bytes for each record, beside what galluspa_past_at holds. */
uint8_t galluspa_past_records(galluspa_past *past, uint64_t *from, uint64_t to, uint64_t budget, galluspa_trace_record *records,
                              size_t records_len, size_t *records_count);

/* Counts how often the run of a past executes each word, from the count *from up to but not including to, as galluspa_profile does: adds
 * the numbers to visits and departures, which both have GALLUSPA_WORDS elements. Begin with zeros. After 2^64 - 1 a number begins again
 * at 0. budget is how many instructions it may do to add keyframes up to *from, and how many it may count, those of idle loops that are
 * passed over too; beside these a call does at most some two spacings of instructions.
 *
 * Returns GALLUSPA_DONE, and *from is then to; or GALLUSPA_MORE if the budget is spent: all before the new *from is counted, so a call
 * with the same numbers goes on, and nothing is counted twice. Else it is GALLUSPA_OUT_OF_RANGE if *from is before the first count or
 * after to, budget is 0, or visits_len or departures_len is not GALLUSPA_WORDS; GALLUSPA_LATER if to is after the end; GALLUSPA_CLOSED; or
 * GALLUSPA_OUT_OF_MEMORY (only if all is in range). Then nothing is written.
 *
 * A call holds some 6 MB beside what galluspa_past_at holds. */
uint8_t galluspa_past_profile(galluspa_past *past, uint64_t *from, uint64_t to, uint64_t budget, uint64_t *visits, size_t visits_len,
                              uint64_t *departures, size_t departures_len);

/* Follows the calls of a past from the count *from up to the count to, as galluspa_calls does: calls holds the *calls_count calls that
 * are open at *from, oldest first, and gets those that are open at the count that it came to, which is then *from: to, or the first count
 * at which turns or calls is full. turns gets the counts at which the open calls changed, and *turns_count their number. So one call has
 * both the turns of a range, and what is open at its end. Begin at the first count with no calls, and go on with what the last call left;
 * keep what is open at some counts, to begin near another count. limit is as for galluspa_calls.
 *
 * budget is how many instructions it may do to add keyframes up to *from, and how many it may follow, those of idle loops that are passed
 * over too; beside these a call does at most some two spacings of instructions. Returns GALLUSPA_DONE; or GALLUSPA_MORE if the budget is
 * spent: then there is room for another turn and another call. After either, a call with the same numbers goes on, until *from is to.
 *
 * Else it is GALLUSPA_OUT_OF_RANGE if *from is before the first count or after to, budget is 0, or the calls or a length are as
 * galluspa_calls refuses them; GALLUSPA_LATER if to is after the end; GALLUSPA_CLOSED; or GALLUSPA_OUT_OF_MEMORY (only if all is in
 * range). Then nothing is written. A call holds calls and turns once more, beside what galluspa_past_at holds. */
uint8_t galluspa_past_calls(galluspa_past *past, uint64_t *from, uint64_t to, uint32_t limit, uint64_t budget, galluspa_call *calls,
                            size_t calls_len, size_t *calls_count, galluspa_turn *turns, size_t turns_len, size_t *turns_count);

/* Makes a recording of a past that begins at count 0: the initial state, the inputs, and a checkpoint at each of counts, which rise. It
 * goes on with recording, a recording of this past, or begins one if recording_len is 0; *recorded, 0 at first, is how many of counts have
 * checkpoints there. It adds checkpoints at the counts from counts[*recorded] on, with the states and the bytes of the run; writes the
 * longer recording to out, and its length to *out_count; and writes to *recorded how many of counts have checkpoints now. A recording
 * that begins here and is gone on with here alone has true checkpoints: galluspa_check accepts it.
 *
 * After budget instructions it begins no other checkpoint; one that it has begun it adds, unless the past has to add keyframes first,
 * for which it does as many; beside these a call does at most some two spacings for each checkpoint. Returns GALLUSPA_DONE; or
 * GALLUSPA_MORE if the budget is spent: what is written is a recording with the first *recorded counts. Pass it as recording to go on.
 *
 * Else it is GALLUSPA_OUT_OF_RANGE if the past begins after count 0, budget is 0, *recorded is above counts_len, or a count is not above
 * that of the checkpoint before it or is above 2^40; GALLUSPA_LATER if one of counts is after the end; GALLUSPA_CLOSED;
 * GALLUSPA_NO_RECORDING if the bytes of recording are not one; GALLUSPA_TOO_MANY_INPUTS, GALLUSPA_TOO_MANY_CHECKPOINTS,
 * GALLUSPA_TOO_MUCH_OUTPUT or GALLUSPA_TOO_MANY_PAGES; GALLUSPA_OUT_OF_MEMORY (never for bytes that are not a recording); or
 * GALLUSPA_NO_ROOM, and then *out_count says how much room is needed. Then nothing else is written.
 *
 * A call reads recording, and writes all of the longer one, so that a budget for many checkpoints is faster than one for each. */
uint8_t galluspa_past_record(galluspa_past *past, const uint8_t *recording, size_t recording_len, const uint64_t *counts,
                             size_t counts_len, size_t *recorded, uint64_t budget, uint8_t *out, size_t out_len, size_t *out_count);

/* How far the check of a recording by a past is: write galluspa_progress progress = {0} to begin, and pass on what the last call wrote. */
typedef struct {
    uint64_t count;      /* up to this count the bytes sent are compared */
    uint64_t sent;       /* how many bytes were sent up to there since the checkpoint before */
    uint32_t checkpoint; /* the checkpoints before this one are true; 0 if the check is to begin */
    uint32_t differs;    /* not 0 if the bytes sent up to this checkpoint are not those that it claims; sent is not used then */
} galluspa_progress;

/* Checks a recording by a past of the same run, checkpoint by checkpoint: the one that was opened, or any other, such as one that was
 * made of the past. It compares the recording's initial state, and its inputs before its last checkpoint, with those of the past, each
 * time; inputs that the past has after that count do not matter. All that the past runs for the check is kept as keyframes.
 *
 * budget is how many instructions it may do to add keyframes up to the progress, and how many it may check from there on; beside these a
 * call does at most some two spacings of instructions, also in a long stretch between two checkpoints. Returns GALLUSPA_DONE, and writes
 * the verdict line of galluspa_check to line, its length to *line_count, and 0 to *status if the recording is accepted, or 1 if it is
 * false; or GALLUSPA_MORE if the budget is spent, and writes *progress: a call with it goes on. Each such call adds a keyframe or comes
 * further. At GALLUSPA_NO_ROOM it writes *line_count alone; a line of 255 bytes has room.
 *
 * The line is that of galluspa_check if *progress is zeros, or what a call for the same recording wrote: a progress says which
 * checkpoints are true, and that is not tested again.
 *
 * Else it is GALLUSPA_CLOSED; GALLUSPA_OUT_OF_RANGE if budget is 0; GALLUSPA_NO_RECORDING; GALLUSPA_LATER if the last checkpoint is after
 * the end; GALLUSPA_OUT_OF_RANGE if the recording is of another run, or *progress is not one of it: it has no such checkpoint, the count
 * is not between that checkpoint's and the one before, or it claims fewer bytes; or GALLUSPA_OUT_OF_MEMORY (never for bytes that are not
 * a valid recording). Then nothing is written, and the past stays as it is, but that it may have more keyframes if memory ran out. Each
 * call reads the recording, as galluspa_claim does, and holds, beside what galluspa_past_at holds, at most as many bytes as a checkpoint
 * claims to be sent. */
uint8_t galluspa_past_check(galluspa_past *past, const uint8_t *recording, size_t recording_len, uint64_t budget,
                            galluspa_progress *progress, uint8_t *line, size_t line_len, size_t *line_count, uint8_t *status);

/* ---- An SD card ----
 *
 * A system of Project Oberon (2013) has its disk on an SD card, over SPI: a write to device word 4 is a transfer, under what was written
 * to word 5 last, and word 4 reads what the card answered, which is an input of kind 6. A galluspa_card is such a card over an image of
 * 512-byte blocks that the caller keeps. Give it each write to word 4, at its count, and make an answer that differs from the one before
 * an input of the next count.
 *
 * All zeros but for first and blocks is a card that was just powered: set these two, and nothing else. Any bytes are a card; a number
 * above its limit counts as the limit. A copy of it is a card, too, so a host can try what it would answer. */
typedef struct {
    uint32_t first;         /* the number of the image's first block: 0, or 0x80002 for an image that begins with the file system */
    uint32_t blocks;        /* how many blocks the image has; a command for another block is answered with an error */
    uint32_t write_wanted;  /* not 0 if you are to write block to the image, first of all */
    uint32_t write_number;  /* the number of the block that is to be written */
    uint32_t read_wanted;   /* not 0 if you are to read a block of the image into block */
    uint32_t read_number;   /* the number of the block that is to be read */
    uint8_t block[512];     /* the block that was read, or is to be written */
    uint32_t command_count; /* from here on it is the card's own. How many bytes of a command came: at most 5 */
    uint32_t application;   /* not 0 if command 55 came just before */
    uint32_t reply_left;    /* how many bytes at the end of reply it is going to answer: at most 6 */
    uint32_t block_left;    /* how many bytes at the end of block it is going to answer after them: at most 512 */
    uint32_t awaited;       /* not 0 if it waits for the token before a block that is to be written */
    uint32_t target;        /* the number of that block */
    uint32_t packet_left;   /* how many bytes of that block and of its checksum are still to come: at most 514 */
    uint8_t command[6];     /* the bytes of a command that came */
    uint8_t reply[6];       /* the reply to a command */
    uint8_t packet[514];    /* the bytes of a block that is to be written, and of its checksum, that came */
} galluspa_card;

/* Does what a write of value to device word 4 does, after one of control to device word 5, and returns what word 4 reads from then on: a
 * byte, or with bit 2 of control four, the lowest first; 255 if bit 0 of control does not select the card. Afterwards look at
 * write_wanted and read_wanted, in this order, and do what they say before the next call; else a block that is to be written is lost, and
 * one that is read is what block has. Both numbers are of blocks that the image has, so subtract first from them. Any numbers and any
 * bytes of *card are taken, and nothing is allocated. */
uint32_t galluspa_card_transfer(galluspa_card *card, uint32_t control, uint32_t value);

#ifdef __cplusplus
}
#endif

#endif
