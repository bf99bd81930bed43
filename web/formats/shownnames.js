// @ts-check
/* How names of programs are shown, which whoever made a symbol file chose: in one line, not too long, from left to right. */
import { grouped } from "./texts.js";

/** How many characters of a name are shown. */
export const SHOWN = 60;
// How many names of one address are shown.
const TOGETHER = 2;

/** @typedef {import("./symbols.js").Named} Named */

/** Returns a number in hexadecimal.
 * @param {number} number */
export const upper = (number) => number.toString(16).toUpperCase();

/** Returns the different names of one address as a text.
 * @param {Named[]} names */
export function together(names) {
  const all = new Together();
  for (const one of names) all.take(one);
  return all.text;
}

/** The different names of one address: the first two as the tools order them, by how the lines of the file begin, and then by the name, and how many there
 * are. A file may have all its names at one address, so they are not sorted. */
export class Together {
  names = new Set();
  /** @type {Named | null} */
  first = null;
  /** @type {Named | null} */
  second = null;

  /** @param {Named} one */
  take(one) {
    const { first, second } = this;
    this.names.add(one.name);
    if (!first || comesBefore(one, first)) Object.assign(this, { first: one, second: first && first.name !== one.name ? first : second });
    else if (one.name !== first.name && (!second || comesBefore(one, second))) this.second = one;
  }

  get text() {
    const more = this.names.size - TOGETHER, shownNames = [this.first, this.second].map((one) => (one ? shown(one.name) : "")).filter(Boolean);
    return shownNames.join(" or ") + (more > 0 ? ` and ${grouped(more)} more` : "");
  }
}

/**
 * @param {Named} one
 * @param {Named} other
 */
function comesBefore(one, other) {
  for (let at = 0; at < one.written.length; at++) if (one.written[at] !== other.written[at]) return one.written[at] < other.written[at];
  return one.name < other.name;
}

// What cannot be seen, and what is written from right to left.
const NOT_PRINTABLE = /(?! )[\p{C}\p{Z}]/gu;
const FROM_THE_RIGHT = /(?!\p{M})[\u0590-\u08ff\u200f\ufb1d-\ufdff\ufe70-\ufeff\u{10800}-\u{10fff}\u{1e800}-\u{1efff}]/gu;

/** Returns a name as it is shown: what cannot be seen, or is written from right to left, is escaped; a long one is cut.
 * @param {string} name */
export function shown(name) {
  const text = [...fromTheLeft(name)];
  return text.length <= SHOWN ? text.join("") : `${text.slice(0, SHOWN).join("")}..`;
}

/** Returns a text in one line in which nothing is written from right to left.
 * @param {string} name */
export const fromTheLeft = (name) => name.replace(NOT_PRINTABLE, escaped).replace(FROM_THE_RIGHT, escaped);

/** @param {string} sign */
function escaped(sign) {
  const code = Number(sign.codePointAt(0)), digits = code.toString(16), short = { 9: "\\t", 10: "\\n", 13: "\\r" }[code];
  return short ?? (code < 0x100 ? `\\x${digits.padStart(2, "0")}` : code < 0x10000 ? `\\u${digits.padStart(4, "0")}` : `\\U${digits.padStart(8, "0")}`);
}

/** Returns how a line of a source is shown: a long name of a file by its end.
 * @param {{ file: string, line: number }} source */
export function sourceText({ file, line }) {
  const name = [...fromTheLeft(file)];
  return `${name.length <= SHOWN ? name.join("") : `..${name.slice(-SHOWN).join("")}`}:${line}`;
}
