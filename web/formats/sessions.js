// @ts-check
/* Sessions as docs/formats.md describes them, read by its rules, in their order; and those that begin with a memory image. `tests/page` compares the refusals
 * with those of the program. */
import { Inputs, isInput } from "./inputs.js";
import { JsonReader } from "./json.js";
import { CHECKPOINT_LIMIT, INPUT_LIMIT, INPUT_LIMIT_WITH_DISK, LONGEST_SESSION, MOST_COUNT } from "./limits.js";
import { Refused } from "./refused.js";
import { AT, DISK, KINDS, MEMORY_BYTES, PAGE_BYTES, REGISTERS, STATE_BYTES, UNANSWERED } from "./states.js";

const PAGE_LIMIT = 1024, PC_END = 1 << 22;

/** @typedef {import("./json.js").Json} Json */
/** A session of the right shape.
 * @typedef {{ registers: bigint[], hasDisk: boolean, start: bigint[], pages: [bigint, string][], inputs: [bigint, number, bigint][], checkpoints: bigint[] }} Draft */

/**
 * @param {boolean} is
 * @returns {void}
 */
const shape = (is) => { if (!is) throw new Refused("session refused 2 shape"); };
/** @param {boolean} is */
const range = (is) => { if (!is) throw new Refused("session refused 3 range"); };
/** @param {boolean} is */
const order = (is) => { if (!is) throw new Refused("session refused 4 order"); };
/** @param {Json} value */
const shapeText = (value) => (shape(typeof value === "string"), /** @type {string} */ (value));
/** @param {Json} value */
const shapeNumber = (value) => (shape(typeof value === "bigint"), /** @type {bigint} */ (value));
/** @param {Json} value */
const shapeItems = (value) => (shape(Array.isArray(value)), /** @type {Json[]} */ (value));

/** Returns the members of an object, which has exactly these.
 * @param {Json} value
 * @param {string[]} names */
function shapeMembers(value, names) {
  const members = value instanceof Map ? value : new Map();
  shape(members.size === names.length);
  return names.map((name) => (shape(members.has(name)), members.get(name)));
}

/** Reads a session in JSON: its initial state, words, inputs, and the counts of its checkpoints.
 * @param {Bytes} bytes */
export function readSession(bytes) {
  range(bytes.length <= LONGEST_SESSION);
  const draft = shapedSession(new JsonReader(utf8Text(bytes)).document());
  testRanges(draft);
  /** @param {bigint[]} numbers */
  const rising = (numbers) => numbers.every((number, at) => at === 0 || numbers[at - 1] < number);
  order(rising(draft.pages.map(([at]) => at)) && rising(draft.checkpoints));
  order(draft.inputs.every(([count], at) => at === 0 || draft.inputs[at - 1][0] <= count));
  return partsOfDraft(draft);
}

/** @param {Bytes} bytes */
function utf8Text(bytes) {
  try {
    return new TextDecoder("utf-8", { fatal: true, ignoreBOM: true }).decode(bytes);
  } catch {
    throw new Refused("session refused 1 json");
  }
}

/**
 * @param {Json} value
 * @returns {Draft}
 */
function shapedSession(value) {
  const members = shapeMembers(value, ["format", "version", "start", "pages", "inputs", "checkpoints"]);
  shape(shapeText(members[0]) === "oberon-session");
  const version = shapeNumber(members[1]);
  shape(version >= 1n && version <= 3n);
  const devices = ["rate", "phase", "disk"].slice(0, [0, 2, 3][Number(version) - 1]), hasDisk = version === 3n;
  const [r, ...start] = shapeMembers(members[2], ["R", "H", "PC", "flags", ...devices]);
  const registers = shapeItems(r).map(shapeNumber);
  shape(registers.length === 16);
  return {
    registers,
    hasDisk,
    start: [...start.map(shapeNumber), ...[0n, 0n, BigInt(UNANSWERED)].slice(devices.length)],
    pages: shapeItems(members[3]).map((page) => {
      const [at, digits] = shapeMembers(page, ["at", "hex"]);
      return [shapeNumber(at), shapeText(digits)];
    }),
    inputs: shapeItems(members[4]).map((input) => shapedInput(input, hasDisk)),
    checkpoints: shapeItems(members[5]).map(shapeNumber),
  };
}

/**
 * @param {Json} value
 * @param {boolean} hasDisk
 * @returns {[bigint, number, bigint]}
 */
function shapedInput(value, hasDisk) {
  const items = shapeItems(value);
  shape(items.length === 3);
  const kind = KINDS.indexOf(shapeText(items[1]));
  shape(kind > 0 && (hasDisk || kind !== DISK));
  return [shapeNumber(items[0]), kind, shapeNumber(items[2])];
}

/** @param {Draft} draft */
function testRanges({ registers, hasDisk, start: [h, pc, flags, rate, phase, disk], pages, inputs, checkpoints }) {
  /** @param {bigint} number */
  const isWord = (number) => number < 1n << 32n, most = BigInt(MOST_COUNT);
  range(registers.every(isWord) && isWord(h) && pc < PC_END && flags < 16n);
  range(isWord(rate) && isWord(phase) && isWord(disk) && (rate ? phase < rate : phase === 0n));
  /** @param {string} digits */
  const length = (digits) => new TextEncoder().encode(digits).length;
  range(pages.length <= PAGE_LIMIT && pages.every(([at, digits]) => at < PAGE_LIMIT && length(digits) <= 2 * PAGE_BYTES));
  range(inputs.length <= (hasDisk ? INPUT_LIMIT_WITH_DISK : INPUT_LIMIT) && inputs.every(([count, kind, value]) => count <= most && isInput(kind, value)));
  range(checkpoints.length <= CHECKPOINT_LIMIT && checkpoints.every((count) => count >= 1n && count <= most));
}

/**
 * @param {Draft} draft
 * @returns {Session}
 */
function partsOfDraft({ registers, start, pages, inputs, checkpoints }) {
  const words = new Uint8Array(MEMORY_BYTES);
  for (const [at, digits] of pages) {
    if (digits.length % 2 || !/^[0-9a-fA-F]*$/.test(digits)) throw new Refused("session refused 5 hex");
    words.set(bytesOfHex(digits), PAGE_BYTES * Number(at));
  }
  const list = new Inputs();
  for (const [count, kind, value] of inputs) list.push(Number(count), kind, Number(value));
  return { state: stateOf(registers.map(Number), start.map(Number)), words, inputs: list, checkpoints: checkpoints.map(Number) };
}

/** @param {string} digits */
function bytesOfHex(digits) {
  return Uint8Array.from({ length: digits.length / 2 }, (_, at) => parseInt(digits.substr(2 * at, 2), 16));
}

/** Returns a state at count 0 whose other devices are all zeros.
 * @param {number[]} registers
 * @param {number[]} rest */
function stateOf(registers, [h, pc, flags, rate, phase, disk = UNANSWERED]) {
  const state = new Uint8Array(STATE_BYTES), view = new DataView(state.buffer);
  registers.forEach((value, at) => view.setUint32(AT.R + 4 * at, value, true));
  for (const [at, value] of [[AT.H, h], [AT.PC, pc], [AT.flags, flags], [AT.rate, rate], [AT.phase, phase], [AT.disk, disk]]) view.setUint32(at, value, true);
  return state;
}

/** Returns the parts of a session that begins with a memory image at a byte address, and with registers written as `PC=0 R14=0x80000`.
 * @param {Bytes} image
 * @param {string} address
 * @param {string} written
 * @returns {Session} */
export function readImage(image, address, written) {
  const start = whole(address, MEMORY_BYTES, "the address");
  if (start + image.length > MEMORY_BYTES)
    throw new Refused(`${image.length} bytes from ${start} on go beyond the memory of ${MEMORY_BYTES} bytes`);
  const registers = Array(16).fill(0);
  /** @type {{ [name: string]: number }} */
  const rest = { H: 0, PC: 0, flags: 0, rate: 25000, phase: 0 };
  /** @type {{ [name: string]: number }} */
  const most = { PC: PC_END - 1, flags: 15 };
  for (const assignment of written.split(/[\s,;]+/).filter(Boolean)) {
    const [name, value = ""] = assignment.split("=");
    if (!REGISTERS.includes(name) && !(name in rest)) throw new Refused(`${assignment}: want R0 to R15, H, PC, flags, rate or phase`);
    const number = whole(value, most[name] ?? 0xffffffff, assignment);
    if (name in rest) rest[name] = number;
    else registers[REGISTERS.indexOf(name)] = number;
  }
  if (rest.phase >= Math.max(rest.rate, 1)) throw new Refused(`phase ${rest.phase} is not below the rate ${rest.rate}`);
  const words = new Uint8Array(MEMORY_BYTES);
  words.set(image, start);
  return { state: stateOf(registers, Object.values(rest)), words, inputs: new Inputs(), checkpoints: [] };
}

/** Returns the whole number that a text writes, in decimal, or in hexadecimal after 0x.
 * @param {string} text
 * @param {number} most
 * @param {string} what */
function whole(text, most, what) {
  const value = /^(?:\d{1,12}|0[xX][0-9a-fA-F]{1,8})$/.test(text.trim()) ? Number(text) : NaN;
  if (!(value <= most)) throw new Refused(`${what}: ${text.trim() || "nothing"} is not a whole number from 0 to ${most}`);
  return value;
}
