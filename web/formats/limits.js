// @ts-check
/* The limits of recordings and sessions, which docs/formats.md lists: the last count; bytes of a file; inputs, without a disk and with one; checkpoints besides the initial
 * state, pages of all memories, and bytes sent. */

export const MOST_COUNT = 2 ** 40;
export const LONGEST_RECORDING = 166326444, LONGEST_SESSION = 67108864;
export const INPUT_LIMIT = 1000000, INPUT_LIMIT_WITH_DISK = 4000000, CHECKPOINT_LIMIT = 4096, POOL_LIMIT = 65536, SENT_LIMIT = 1 << 20;
/** The number of inputs from which on no serial byte is given: the last inputs of a recording are left for keys, the mouse and the switches. */
export const SERIAL_LIMIT = INPUT_LIMIT - 50000;
