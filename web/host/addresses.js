// @ts-check
/* Reads what users write in place of an address, in the page's own notation: a hexadecimal number, the number of a word after a dot (`·32`), both as the page
 * shows them (`0080 · 32`), a register, a name of a symbol file or of a device; each of these two perhaps with a number of bytes added. */
import { addressOf, names } from "./names.js";
import { Refusal } from "./requests.js";
import { AT, field, hex, MEMORY_BYTES, REGISTERS } from "../formats/states.js";
import { shown } from "../formats/shownnames.js";

/** The addresses that have a name in every program.
 * @type {{ [name: string]: number }} */
const DEVICES = { DISPLAY: 0xe7f00, TIMER: 0xffffc0, SWITCHES: 0xffffc4, LEDS: 0xffffc4, SERIAL: 0xffffc8, STATUS: 0xffffcc, MOUSE: 0xffffd8, KEY: 0xffffdc };
/** @type {{ [name: string]: number }} */
const OTHER_REGISTERS = { SP: AT.R + 4 * 14, LNK: AT.R + 4 * 15, H: AT.H };
const SUM = /^(.+?)\s*([+-])\s*(?:0x([0-9a-f]{1,8})|(\d{1,9}))$/i;
export const LONGEST_TEXT = 300;

/** Writes an address and its word number, as the page shows both.
 * @param {number} address */
export const bothOf = (address) => `${hex(address, 4)} · ${address >>> 2}`;

/** Returns the address that was written, in bytes: a number is hexadecimal, and a register stands for its value in a state. It is NaN if the text
 * says none. A name that says several is refused.
 * @param {string} written
 * @param {Bytes | null} state */
export function readAddress(written, state = null) {
  const text = written.trim(), both = /^(?:0x)?([0-9a-f]{1,8})? *· *(\d{1,9})$/i.exec(text);
  if (text.length > LONGEST_TEXT) return NaN;
  if (both?.[1] && parseInt(both[1], 16) >>> 2 !== Number(both[2])) throw new Refusal(`${text}: the address ${both[1]} is in the word ${parseInt(both[1], 16) >>> 2}.`);
  if (both) return 4 * Number(both[2]);
  const digits = /^(?:0x)?([0-9a-f]{1,8})$/i.exec(text);
  // What begins with a digit is a number; a name may have no other letters than those of hexadecimal digits.
  if (digits && (/^\d/.test(text) || !names.symbols.places(text).length)) return parseInt(digits[1], 16);
  return namedAddress(text, state);
}

/** Returns the word of the code that was written, as an address or a name; NaN if the text says none. An address within a word is refused.
 * @param {string} written */
export function readCode(written) {
  const address = readAddress(written);
  if (address % 4) throw new Refusal(`${written.trim()} is ${hex(address, 4)}, and an instruction begins at a multiple of 4.`);
  return address / 4;
}

/**
 * @param {string} text
 * @param {Bytes | null} state
 */
function namedAddress(text, state) {
  const named = addressOf(text);
  if (named !== null) return named;
  const sum = SUM.exec(text), term = (sum ? sum[1] : text).toUpperCase();
  const from = (state && registerValue(term, state)) ?? DEVICES[term] ?? (sum ? NaN : nothingLike(text)), sign = sum?.[2] === "-" ? -1 : 1;
  return sum ? (from + sign * (sum[3] ? parseInt(sum[3], 16) : Number(sum[4]))) : from;
}

/** Refuses a name that only differs from one of the symbols by the case of its letters, and says which is meant.
 * @param {string} text */
function nothingLike(text) {
  const lower = text.toLowerCase();
  if (lower) for (const name of names.symbols.names()) if (name.toLowerCase() === lower) throw new Refusal(`There is no name ${text}; did you mean ${shown(name)}?`);
  return NaN;
}

/** Returns the value of a register in a state; PC as an address.
 * @param {string} name
 * @param {Bytes} state */
function registerValue(name, state) {
  const number = REGISTERS.indexOf(name), at = number < 0 ? OTHER_REGISTERS[name] : AT.R + 4 * number;
  if (name === "PC") return 4 * field(state, AT.PC);
  return at === undefined ? undefined : field(state, at);
}

/** Returns what the page says of a text that it cannot read: the text, and why; of an empty field only what belongs there.
 * @param {string} text
 * @param {string} why */
export const refusalText = (text, why) => (text.trim() ? `${shown(text)}: ${why}` : `${why[0].toUpperCase()}${why.slice(1)}`);

/** Returns an address of memory that was written, or refuses it.
 * @param {string} text
 * @param {Bytes} state */
export function memoryAddress(text, state) {
  const address = readAddress(text, state);
  if (address >= 0 && address < MEMORY_BYTES) return address;
  if (address >= 0) throw new Refusal(`${text} is ${hex(address, 1)}, and memory ends at FFFFF.`);
  throw new Refusal(refusalText(text, `an address is hexadecimal, ·32 for the word 32, a register such as SP, or a name${names.from ? "" : " of a symbol file"}.`));
}

/** Returns an address of memory as it is written.
 * @param {number} value */
export const address = (value) => hex(value, 5);
