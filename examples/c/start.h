/* What the examples share: they read the start of a recording, its initial state and its inputs, with the library and recording.h.
 *
 * Include this after the emulator's header, which may be another than the one beside recording.h. */
#ifndef START_H
#define START_H
#include "galluspa.h"
#include "recording.h"

/* Returns the bytes of a file, and their number. If the file cannot be read, ends with status 3. */
MAY_BE_UNUSED uint8_t *read_recording(const char *name, size_t *length) {
    uint8_t *text = malloc(GALLUSPA_LONGEST + 1);
    FILE *file = fopen(name, "rb");
    if (!text || !file) { perror(name); exit(3); }
    *length = fread(text, 1, GALLUSPA_LONGEST + 1, file);
    fclose(file);
    return text;
}

/* Reads what a checkpoint of a recording claims. If the recording is refused, ends with status 2. */
MAY_BE_UNUSED void read_claim(const char *name, const uint8_t *text, size_t length, uint32_t at, galluspa_state *state, uint32_t *words) {
    uint8_t refusal = galluspa_claim(text, length, at, state, words, GALLUSPA_WORDS);
    if (refusal) { fprintf(stderr, "%s: refused: %u\n", name, refusal); exit(2); }
}

/* Reads the inputs of a recording that is not refused. Returns how many there are. */
MAY_BE_UNUSED size_t read_inputs(const uint8_t *text, galluspa_input **inputs) {
    size_t many;
    Event *events = read_events(text, &many);
    if (!(*inputs = malloc((many + 1) * sizeof **inputs))) die("no memory");
    for (size_t i = 0; i < many; i++) (*inputs)[i] = (galluspa_input){events[i].count, events[i].kind, events[i].value};
    free(events);
    return many;
}

/* Reads the initial state of a recording, and its inputs. Returns how many there are. */
MAY_BE_UNUSED size_t read_start(const char *name, galluspa_state *state, uint32_t *words, galluspa_input **inputs) {
    size_t length;
    uint8_t *text = read_recording(name, &length);
    read_claim(name, text, length, 0, state, words);
    size_t many = read_inputs(text, inputs);
    free(text);
    return many;
}
#endif
