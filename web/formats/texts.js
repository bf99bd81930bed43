// @ts-check
/* Texts of numbers, names and errors, as the page shows them. */

// By no formatter of Intl: the first one takes longer than all else at the start of a page or of a worker.
/** @param {number} number */
export const grouped = (number) => `${Math.floor(number)}`.replace(/\B(?=(?:\d{3})+$)/g, ",");
/** Returns a time in seconds, or as a clock shows it from a hundred seconds on, as in 0:01:40.
 * @param {number} seconds
 * @param {number} digits */
export function timeText(seconds, digits = 3) {
  if (seconds < 100) return `${seconds.toFixed(digits)} s`;
  const [hours, minutes, rest] = [seconds / 3600, (seconds / 60) % 60, seconds % 60].map(Math.floor);
  return `${grouped(hours)}:${`${minutes}`.padStart(2, "0")}:${`${rest}`.padStart(2, "0")}`;
}

/** Says how many there are of something, as in 1 input, or 2 inputs.
 * @param {number} number
 * @param {string} what */
export const many = (number, what) => `${grouped(number)} ${what}${number === 1 ? "" : "s"}`;

/** Returns a name in which what would change the text around it is written out: control characters, and those that turn the direction.
 * @param {string} name */
export function plainName(name) {
  return name.replace(/[\p{Cc}\p{Cs}\u061c\u200e\u200f\u2028-\u202e\u2066-\u2069]/gu, (it) => `[U+${Number(it.codePointAt(0)).toString(16).toUpperCase().padStart(4, "0")}]`);
}

/** Returns what an error says.
 * @param {unknown} error */
export const messageOf = (error) => (error instanceof Error || error instanceof DOMException ? error.message : `${error}`);
