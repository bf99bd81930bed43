// @ts-check
/* Where a value comes from: the instruction that wrote it, the values from which that made it, who wrote these, and so on. It is a tree, worked out from the
 * last writes of parts; tools/galluspa/analysis/origins.py defines it, and tests/page compares the two. It follows values, and not the branches that led to an
 * instruction. What is followed first are copies, and then the operands of what computes. */
import { operandsOf } from "../formats/instructions.js";
import { AT, DISPLAY_AT, DISPLAY_BYTES, field, MEMORY_BYTES } from "../formats/states.js";
import { addressIn } from "./records.js";

/** Where the device words begin, and that of the LEDs. */
export const DEVICES_AT = 0xffffc0, LEDS_AT = 0xffffc4;
export const ALL_BYTES = 15, ALL_FLAGS = "NZCV";
// A base register of loads and stores that is not followed: it says where a frame is.
const STACK_POINTER = "R14";
// The bit of the mouse word that says that a key waits.
const KEY_WAITS = 0x10000000;
const MOVE = 0, WITH_CARRY = [8, 9], ACCESS = 2, BRANCH = 3, STORE = 5;
// The cost of what was on the screen, in computations: by that it is followed later than others.
const SCREEN_COST = 3;
/** What a load from a device word takes: a part of the state.
 * @type {{ [address: number]: string }} */
const TAKEN_FROM = { 0xffffc0: "timer", 0xffffc4: "switches", 0xffffc8: "serial", 0xffffcc: "serial", 0xffffd0: "disk", 0xffffd8: "mouse", 0xffffdc: "keys" };

/** An instruction that was done: its count, its place and its word, the states before and after it, and the inputs that came before it.
 * @typedef {{ count: number, pc: number, word: number, before: Bytes, after: Bytes, inputs: Input[] }} Step */
/** Says who wrote a part last: the last instruction before a count that wrote it, or of a dot that changed it; and which input set a device last, up to an
 * instruction, or of keys which one has the key that comes first.
 * @typedef {{ lastWrite: (part: ValuePart, before: number) => Promise<Step | null>, inputOf: (device: string, step: Step) => Promise<Input | null> }} Writes */
/** A value that is to be followed: at what cost, then what was found last first, and of that the first first; and the list that it is in.
 * @typedef {{ cost: number, found: number, place: number, it: Origin, home: Origin[] }} Pending */

/** Returns where a part's value before a count comes from, by at most `most` links; one to an instruction that writes a constant counts for none. Of a word that
 * several stores wrote there are several values. `heard` hears of the tree after each link.
 * @param {Writes} writes
 * @param {ValuePart} part
 * @param {number} value
 * @param {number} before
 * @param {number} most
 * @param {(values: Origin[]) => void} heard */
export async function origins(writes, part, value, before, most, heard) {
  const roots = [origin(part, value, before)], seen = new Set();
  /** @type {Pending[]} */
  const pending = [{ cost: 0, found: 0, place: 0, it: roots[0], home: roots }];
  for (let found = 1, links = 0; pending.length; found++) {
    const { cost, it, home } = takeFirst(pending), isOver = links >= most;
    const step = isOver ? null : await writes.lastWrite(/** @type {ValuePart} */ (it.part), it.before);
    if (!step) {
      it.end = isOver ? "unfollowed" : "initial";
      continue;
    }
    split(it, step, home).forEach((rest) => pending.push({ cost, found, place: 0, it: rest, home }));
    await follow(it, step, seen, writes);
    links += it.from.length ? 1 : 0;
    it.from.forEach((source, at) => source.end || pending.push({ cost: cost + costOf(step.word, source), found, place: at + 1, it: source, home: it.from }));
    heard(roots);
  }
  return roots;
}

/** Writes to a value which instruction wrote it, and from which values.
 * @param {Origin} it
 * @param {Step} step
 * @param {Set<string>} seen
 * @param {Writes} writes */
async function follow(it, step, seen, writes) {
  const { count, pc, word } = step, key = `${JSON.stringify(it.part)} ${count}`;
  it.step = { count, pc, word };
  if (seen.has(key)) return void (it.end = "elsewhere");
  seen.add(key);
  it.from = await sourcesOf(step, writes);
  if (!it.from.length) it.end = "constant";
}

/** Takes what is to be followed first.
 * @param {Pending[]} pending */
function takeFirst(pending) {
  const first = pending.reduce((one, other) => (isBefore(other, one) ? other : one));
  pending.splice(pending.indexOf(first), 1);
  return first;
}

/** @param {Pending} one @param {Pending} other */
const isBefore = (one, other) => (one.cost - other.cost || other.found - one.found || one.place - other.place) < 0;

/** Makes a value that is not followed yet.
 * @param {ValuePart | null} part
 * @param {number} value
 * @param {number} before
 * @param {Partial<Origin>} more
 * @returns {Origin} */
const origin = (part, value, before, more = {}) => ({ part, value: value >>> 0, before, role: "", step: null, end: "", input: null, from: [], ...more });

/** Returns by how much later a source is followed than what uses it: copies are followed at once, and last what was on the screen before, since most of a word
 * there is of other dots.
 * @param {number} word
 * @param {Origin} source */
function costOf(word, { part, role }) {
  const isCopy = word >>> 30 === ACCESS || (word >>> 31 === 0 && (word >>> 16 & 15) === MOVE), { address = 0 } = part ?? {};
  return (isCopy ? 0 : 1) + (role ? 1 : 0) + (address >= DISPLAY_AT && address < DISPLAY_AT + DISPLAY_BYTES ? SCREEN_COST : 0);
}

/** Has a value be of those bytes or flags alone that an instruction wrote, and puts another one for the rest after it, which is returned, if there is one.
 * @param {Origin} it
 * @param {Step} step
 * @param {Origin[]} home */
function split(it, step, home) {
  const { part, value, before, role } = it, parts = part ? partsWritten(part, step) : [];
  if (parts.length < 2) return [];
  const [own, rest] = parts, more = origin(rest, bitsOf(value, rest), before, { role });
  Object.assign(it, { part: own, value: bitsOf(value, own) });
  home.splice(home.indexOf(it) + 1, 0, more);
  return [more];
}

/** Returns what an instruction wrote of a part, and the rest of it, if there is one.
 * @param {ValuePart} part
 * @param {Step} step
 * @returns {ValuePart[]} */
function partsWritten({ flags, address = 0, mask }, { word, before }) {
  if (flags === ALL_FLAGS && !isSum(word)) return [{ flags: "NZ" }, { flags: "CV" }];
  if (mask === undefined || address >= DEVICES_AT) return [];
  const written = word >>> 28 & 1 ? 1 << (addressIn(word, before) & 3) : ALL_BYTES, own = mask & written, rest = mask & ~written;
  return rest ? [{ address, mask: own }, { address, mask: rest }] : [];
}

/** Whether a word is an addition or a subtraction, which write C and V.
 * @param {number | null} word */
export const isSum = (word) => word !== null && word >>> 31 === 0 && WITH_CARRY.includes(word >>> 16 & 15);

/** Returns those bits of a value of flags, or of a word, that a part has; bytes stay where they are.
 * @param {number} value
 * @param {ValuePart} part */
export function bitsOf(value, { flags, mask = 0 }) {
  const bits = flags === undefined ? [0, 1, 2, 3].reduce((sum, at) => sum + (mask >>> at & 1 ? 0xff * 2 ** (8 * at) : 0), 0) : [...flags].reduce((sum, name) => sum | (8 >> ALL_FLAGS.indexOf(name)), 0);
  return (value & bits) >>> 0;
}

/** Returns the value of a register, of H, or of flags in a state.
 * @param {Bytes} state
 * @param {ValuePart} part */
export function valueIn(state, { register, flags }) {
  if (flags !== undefined) return bitsOf(field(state, AT.flags), { flags });
  return field(state, register === "H" ? AT.H : AT.R + 4 * Number(register?.slice(1)));
}

/** Returns the values from which an instruction makes what it writes: none of one that writes a constant.
 * @param {Step} step
 * @param {Writes} writes
 * @returns {Promise<Origin[]>} */
async function sourcesOf(step, writes) {
  const { word, before, count } = step;
  /** @type {(part: ValuePart, role?: Origin["role"]) => Origin} */
  const had = (part, role = "") => origin(part, valueIn(before, part), count, { role });
  if (word >>> 30 === BRANCH) return [];
  if (word >>> 30 === ACCESS) {
    const base = `R${word >>> 20 & 15}`, moved = word >>> 29 === STORE ? [had({ register: `R${word >>> 24 & 15}` })] : await loaded(step, writes);
    return base === STACK_POINTER ? moved : [...moved, had({ register: base }, "address")];
  }
  const used = operandsOf(word).map((register) => (register !== "flags" ? had({ register }) : isSum(word) ? had({ flags: "C" }, "carry") : had({ flags: ALL_FLAGS })));
  if ((word >>> 16 & 15) === MOVE || !(word >>> 30 & 1)) return used;
  return [...used, origin(null, (word & 0xffff) - (word >>> 28 & 1 ? 0x10000 : 0), count, { end: "constant" })];
}

/** Returns the value that a load loads. That of the mouse word has two parts if a key waits: the bit that says so is of the keys.
 * @param {Step} step
 * @param {Writes} writes */
async function loaded(step, writes) {
  const { word, before, after, count } = step, at = addressIn(word, before), value = field(after, AT.R + 4 * (word >>> 24 & 15)), isByte = word >>> 28 & 1, shift = isByte ? 8 * (at & 3) : 0;
  if (at < MEMORY_BYTES) return [origin({ address: at & ~3, mask: isByte ? 1 << (at & 3) : ALL_BYTES }, value << shift, count)];
  const device = at >= DEVICES_AT ? TAKEN_FROM[at & ~3] : undefined, waits = device === "mouse" ? value & KEY_WAITS >>> shift : 0;
  /** @type {(device: string, value: number) => Promise<Origin>} */
  const taken = async (device, value) => origin({ device }, value, count, { end: "taken", input: await writes.inputOf(device, step) });
  if (!device) return [origin(null, value, count, { end: "constant" })];
  return [await taken(device, value - waits), ...(waits ? [await taken("keys", waits)] : [])];
}
