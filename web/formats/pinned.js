// @ts-check
/* Notes that somebody pinned to counts of a run. They are text and no more. */
import { MOST_COUNT } from "./limits.js";

export const MOST_NOTES = 1000, LONGEST_NOTE = 2000;

/** A note: the count to which it is pinned, and its text.
 * @typedef {[number, string]} PinnedNote */

/** Whether a value is a list of notes.
 * @param {any} value
 * @returns {value is PinnedNote[]} */
export const areNotes = (value) => Array.isArray(value) && value.length <= MOST_NOTES && value.every(isNote);

/** @param {any} value */
function isNote(value) {
  const [count, text] = Array.isArray(value) && value.length === 2 ? value : [];
  return Number.isInteger(count) && count >= 0 && count <= MOST_COUNT && typeof text === "string" && text.length <= LONGEST_NOTE;
}
