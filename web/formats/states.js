// @ts-check
/* The names and the notation of the parts of a machine's state. The names are those of the program's lines, in the order in which a check
 * compares the parts; the notation is that of tools/galluspa/formats/states.py. The page and the worker both use this file. */

export const STATE_BYTES = 144, WORDS = 262144, MEMORY_BYTES = 4 * WORDS;
// The clock of the workstation: 25 MHz, one instruction per cycle.
export const PER_SECOND = 25000000;
export const DISPLAY_AT = 4 * 237504, DISPLAY_BYTES = 98304;
export const KINDS = ["", "timer", "switches", "mouse", "key", "serial", "disk"], SWITCHES = 2, MOUSE = 3, KEY = 4, SERIAL = 5, DISK = 6;
/** How many key codes wait at most. */
export const MOST_KEYS = 16;
/** What device word 4 reads before the disk's first answer. */
export const UNANSWERED = 255;
export const STOPS = ["running", "float", "divisor", "fetch", "address"];
export const PAGES = 1024, PAGE_BYTES = 1024;

// Offsets in the 144 bytes of a state.
export const AT = { R: 8, H: 72, PC: 76, flags: 80, stop: 84, timer: 88, rate: 92, phase: 96, switches: 100, LEDs: 104, mouse: 108,
             serial: 112, keys: 116, disk: 136 };
export const REGISTERS = Array.from({ length: 16 }, (_, at) => `R${at}`);
/** The names of the registers, with H and the flags. */
export const REGISTERS_ASKED = [...REGISTERS, "H", "flags"];

/**
 * @param {number} value
 * @param {number} digits
 */
export const hex = (value, digits) => value.toString(16).toUpperCase().padStart(digits, "0");

/** Returns a 32-bit field of a state.
 * @param {Bytes} state
 * @param {number} at */
export function field(state, at) {
  return new DataView(state.buffer, state.byteOffset).getUint32(at, true);
}

/** @param {Bytes} state */
export function countOf(state) {
  return Number(new DataView(state.buffer, state.byteOffset).getBigUint64(0, true));
}

/** @param {number} value */
export function flagsText(value) {
  return [..."NZCV"].map((letter, at) => (value >> (3 - at) & 1 ? letter : "-")).join("");
}

/** Returns a mouse word as its x and y, and its three keys from left to right.
 * @param {number} value */
function mouseText(value) {
  const keys = value >> 24 & 7;
  return `${value & 0x3ff}, ${value >> 12 & 0x3ff}` + (keys ? `, keys ${keys.toString(2).padStart(3, "0")}` : "");
}

/** @param {Bytes} state */
function keysText(state) {
  const waiting = state.subarray(AT.keys + 4, AT.keys + 4 + field(state, AT.keys));
  return Array.from(waiting, (code) => hex(code, 2)).join(" ") || "none";
}

/** @param {number} value */
function serialText(value) {
  return hex(value & 255, 2) + (value >> 8 ? ", received" : "");
}

/**
 * @param {string} name
 * @param {string} text
 * @returns {[string, string]}
 */
const pair = (name, text) => [name, text];

/** Returns a state; one that was kept when states ended with the keys becomes that of a machine whose disk has not answered.
 * @param {Bytes} state */
export function withDisk(state) {
  if (state.length === STATE_BYTES) return state;
  const whole = joined([state, new Uint8Array(STATE_BYTES - state.length)]);
  whole[AT.disk] = UNANSWERED;
  return whole;
}

/** Returns the parts of a state without its memory, as pairs of a name and a text.
 * @param {Bytes} state
 * @returns {[string, string][]} */
export function partsOf(state) {
  /** @param {keyof typeof AT} name */
  const of = (name) => field(state, AT[name]);
  return [
    ...REGISTERS.map((name, at) => pair(name, hex(field(state, AT.R + 4 * at), 8))),
    ["H", hex(of("H"), 8)],
    ["PC", `${of("PC")}`],
    ["flags", flagsText(of("flags"))],
    ["stop", STOPS[of("stop")]],
    ["timer", `${of("timer")}`],
    ["rate", `${of("rate")}`],
    ["phase", `${of("phase")}`],
    ["switches", hex(of("switches"), 3)],
    ["LEDs", hex(of("LEDs"), 2)],
    ["mouse", mouseText(of("mouse"))],
    ["serial", serialText(of("serial"))],
    ["keys", keysText(state)],
    ["disk", hex(of("disk"), 8)],
  ];
}

/** Returns a number that is another one for nearly all other words.
 * @param {Uint32Array} words
 * @param {number} from
 * @param {number} end */
export function hashOf(words, from = 0, end = words.length) {
  let hash = 0;
  for (let at = from; at < end; at++) {
    hash = Math.imul(hash ^ words[at], 0x9e3779b1);
    hash ^= hash >>> 15;
  }
  return hash;
}

/**
 * @param {Bytes} some
 * @param {Bytes} others
 */
export function equal(some, others) {
  return some.length === others.length && some.every((byte, at) => byte === others[at]);
}

/** Returns the last item of a list that has one.
 * @template T
 * @param {ArrayLike<T>} list */
export const last = (list) => list[list.length - 1];

/** Returns lists of bytes as one.
 * @param {Bytes[]} parts */
export function joined(parts) {
  const whole = new Uint8Array(parts.reduce((length, part) => length + part.length, 0));
  parts.reduce((at, part) => (whole.set(part, at), at + part.length), 0);
  return whole;
}

/** Returns bytes as words, to compare them by four. They begin at a multiple of four, and their number is one.
 * @param {Bytes} bytes */
export function wordsOf(bytes) {
  return new Uint32Array(bytes.buffer, bytes.byteOffset, bytes.length / 4);
}

/** Whether two lists of words are the same from one position on and before another.
 * @param {Uint32Array} some
 * @param {Uint32Array} others
 * @param {number} from
 * @param {number} to */
export function equalWords(some, others, from = 0, to = some.length) {
  for (let at = from; at < to; at++) if (some[at] !== others[at]) return false;
  return true;
}

/** Returns the numbers of the pages in which two memories differ.
 * @param {Bytes} memory
 * @param {Bytes} other */
export function differingPages(memory, other) {
  const [words, others] = [wordsOf(memory), wordsOf(other)], inPage = PAGE_BYTES / 4;
  /** @type {number[]} */
  const pages = [];
  for (let page = 0; page < PAGES; page++) if (!equalWords(words, others, page * inPage, (page + 1) * inPage)) pages.push(page);
  return pages;
}

/** Returns the name of the first part in which two machines differ, or null. Each has its memory and the bytes that it sent.
 * @param {Memory & { sent: Bytes }} one
 * @param {Memory & { sent: Bytes }} other */
export function firstDifference(one, other) {
  /** @type {[string, number][]} */
  const starts = [...REGISTERS.map((name, at) => /** @type {[string, number]} */ ([name, AT.R + 4 * at])), ...Object.entries(AT).slice(1)];
  for (const [name, start] of starts) {
    const end = name === "keys" ? AT.disk : start + 4;
    if (!equal(one.state.subarray(start, end), other.state.subarray(start, end))) return name;
  }
  if (!equal(one.sent, other.sent)) return "out";
  const [page] = differingPages(one.words, other.words);
  return page === undefined ? null : `page ${page}`;
}

/** Returns ascending numbers as text, consecutive ones as a range, as in 1, 4 to 7.
 * @param {number[]} numbers */
export function rangesText(numbers) {
  /** @type {number[][]} */
  const runs = [];
  for (const number of numbers) {
    if (runs.length && number === last(last(runs)) + 1) last(runs)[1] = number;
    else runs.push([number]);
  }
  return runs.map((run) => run.join(" to ")).join(", ");
}

/** Returns bytes as text: line feeds and printable ASCII as they are, other bytes as a backslash and two digits.
 * @param {Bytes} bytes */
export function sentText(bytes) {
  /** @param {number} byte */
  const plain = (byte) => (byte >= 0x20 && byte < 0x7f && byte !== 0x5c) || byte === 10;
  return Array.from(bytes, (byte) => (plain(byte) ? String.fromCharCode(byte) : `\\${byte.toString(16).padStart(2, "0")}`)).join("");
}
