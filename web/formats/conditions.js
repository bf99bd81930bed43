// @ts-check
/* The kinds of conditions of a search, as include/galluspa.h numbers them. The page and the workers use them. */

import { WORDS } from "./states.js";

export const COUNTER = 1, STORE = 2, CHANGE = 3, LOAD = 4, BECOMES = 5, SENDS = 6, SENDS_BYTE = 7, TAKES = 8, STOP = 9, WRITES = 10, IS = 11;
/** All bits of a word: a change of any of them. */
export const ALL_BITS = 0xffffffff;

/** Returns conditions of which one holds wherever PC is at a word of memory, but for one.
 * @param {number} pc
 * @returns {Condition[]} */
export const elsewhere = (pc) => [[0, pc], [pc + 1, WORDS]].flatMap(([from, end]) => (from < end ? { kind: COUNTER, from, end, value: 0 } : []));
