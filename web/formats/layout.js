// @ts-check
/* Where the fields of a recording are, as docs/formats.md describes them. The page and the workers use them. */

// The header: its length, and the offsets of the version and of the numbers of pages, inputs and checkpoints.
export const HEADER_BYTES = 24, HEADER = { version: 4, pages: 8, inputs: 12, checkpoints: 16 };
// A checkpoint: the offsets of its LEDs, and of how many bytes were sent since the one before. Then version 1 has a table of page ids, one for
// each slot; later versions have its timer's rate and phase, and a list of the slots that change, each with its new page id; version 3 then has
// what the disk answered.
export const CLAIM = { LEDs: 96, sent: 128, table: 132, rate: 132, changes: 140, list: 144 };
export const CHANGE_BYTES = 8, DISK_BYTES = 4, TABLE_CLAIM_BYTES = CLAIM.table + 4 * 1024;
// An input: the offsets of its count, its kind and its value.
export const INPUT_BYTES = 16, INPUT = { count: 0, kind: 8, value: 12 };
