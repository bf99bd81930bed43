// @ts-check
/* Finds the first line of two programs that does something else in the one run than in the other. Both are followed by the instructions of the lines that both
 * sources have, each at its own count, so lines that were put in or taken out move nothing; nor do addresses that moved with them. A round of a loop that leaves the
 * machine as it was, as where a program waits for a key, is no part of that: how many there are depends on when the input comes. */
import { INPUT_BYTES } from "../formats/layout.js";
import { RECORD_BYTES } from "./library.js";
import { hex, MEMORY_BYTES, WORDS } from "../formats/states.js";

// The instructions of one call of the library; the most heads of loops that are remembered; the longest round that is found, in instructions; and the fewest effects
// that are made ready at once.
const AT_ONCE = 8192, MOST_HEADS = 8, LONGEST_ROUND = 4096, READY_AT_ONCE = 256;
// The most changes of the distance of the two runs that are returned.
const MOST_SHIFTS = 1000;
// Where the words of a record have what is compared, and what an instruction does.
const RECORD = RECORD_BYTES / 4, R = 2, PC = 19, STOP = 21, LEDS = 26, SERIAL = 28, KEYS = 29, STATE = 36, INPUTS = 38, WORD = 40, ADDRESS = 41, OLD = 42, NEW = 43, SENT = 44, FLAGS = 45;
const TIMER_ADDRESS = 0xffffc0, SERIAL_ADDRESS = 0xffffc8, KEY_ADDRESS = 0xffffdc, LINK = 15;

/** What an instruction of a matched line did: the register that it wrote, or the address that it stored to, or that it sent a byte or stopped the machine.
 * @typedef {{ count: number, pc: number, what: "" | "register" | "memory" | "sent" | "stop", place: number, value: number }} Did */
/** @typedef {import("../assembler/matching.js").Matched} Matched */

/** One of the two runs. */
class Side {
  // The effects that may still be a part of a round that is dropped, those that are ready, and the number of these that were taken.
  /** @type {Did[]} */
  pending = [];
  /** @type {Did[]} */
  ready = [];
  taken = 0;
  /** Where loops begin: the state there when the machine came back last, and the number of effects that were pending.
   * @type {Map<number, { count: number, state: Uint32Array, pending: number }>} */
  heads = new Map();
  /** A round that left the machine as it was: how long it is, and where it ended.
   * @type {{ length: number, count: number } | null} */
  round = null;
  timed = -1;
  // Whether the run is over, and up to which count it is known what was done.
  isOver = false;
  upTo = 0;

  /** `isMatched` has a 1 for each word that is an instruction of a line of both sources.
   * @param {import("./emulator.js").Emulator} machine
   * @param {Memory} from
   * @param {Inputs} inputs
   * @param {number} to
   * @param {Uint8Array} isMatched
   * @param {() => boolean} isLate */
  constructor(machine, from, inputs, to, isMatched, isLate) {
    machine.put(machine.address, from);
    this.machine = machine;
    this.inputs = inputs;
    this.to = to;
    this.isMatched = isMatched;
    this.isLate = isLate;
  }

  /** Returns what the next instruction of a matched line did; null at the end of the run, or where it is late.
   * @param {() => Promise<void>} turn */
  async next(turn) {
    while (this.taken === this.ready.length) {
      if (this.isOver) return null;
      this.ready.length = this.taken = 0;
      // What a machine did before it stopped is all read, so that it is known that it did no more.
      if (this.isLate() && !this.machine.part("stop")) this.end();
      else this.read();
      await turn();
    }
    return this.ready[this.taken++];
  }

  /** Follows some more instructions. */
  read() {
    const { machine, inputs, to } = this, { count } = machine, many = Math.min(AT_ONCE, to - count), base = inputs.from(count);
    if (many <= 0) return this.end();
    const records = machine.library.records(machine.address, inputs.bytes.subarray(INPUT_BYTES * base, INPUT_BYTES * inputs.from(count + many, base)), many);
    const words = new Uint32Array(RECORD * (many + 1));
    words.set(records);
    words.set(new Uint32Array(machine.state.slice().buffer), RECORD * many);
    for (let at = 0; at < RECORD * many; at += RECORD) {
      if (words[at + STOP]) return this.release(), this.end();
      this.take(words, at, count + at / RECORD);
    }
    this.pass();
  }

  /** Takes what an instruction did.
   * @param {Uint32Array} words
   * @param {number} at
   * @param {number} count */
  take(words, at, count) {
    const pc = words[at + PC], next = words[at + RECORD + PC], flags = words[at + FLAGS];
    if (pc < WORDS && this.isMatched[pc]) (this.heads.size ? this.pending : this.ready).push(didOf(words, at, count));
    if (flags >>> 24 || (flags >>> 16 & 1 ? words[at + OLD] !== words[at + NEW] : takesInput(words, at))) this.release();
    else if (flags >>> 8 & 255 && words[at + ADDRESS] === TIMER_ADDRESS) this.timed = count;
    if (next <= pc) this.arrive(next, count + 1, words.subarray(at + RECORD, at + RECORD + STATE));
  }

  /** Notes that the machine comes back to a word. What it did since it was there with the same registers is dropped: what came meanwhile it has not seen.
   * @param {number} pc
   * @param {number} count
   * @param {Uint32Array} state */
  arrive(pc, count, state) {
    const head = this.heads.get(pc), isSame = head !== undefined && areAlike(head.state, state);
    if (isSame) {
      this.pending.length = head.pending;
      this.round = { length: count - head.count, count };
    }
    this.heads.delete(pc);
    this.heads.set(pc, { count, state: isSame ? head.state : state.slice(), pending: this.pending.length });
    // A head goes with what it began, or if the machine has not come back for long.
    for (const [other, { pending, count: from }] of this.heads) if (pending > this.pending.length || count - from > LONGEST_ROUND) this.heads.delete(other);
    const [oldest] = this.heads.keys();
    if (this.heads.size > MOST_HEADS) this.heads.delete(oldest);
    const settled = Math.min(...[...this.heads.values()].map(({ pending }) => pending));
    if (settled >= READY_AT_ONCE) this.settle(settled);
  }

  /** Makes ready what was done first of what is pending.
   * @param {number} many */
  settle(many) {
    for (const did of this.pending.splice(0, many)) this.ready.push(did);
    for (const head of this.heads.values()) head.pending -= many;
  }

  /** Makes ready what is pending: memory was changed or a byte was sent, so no round that began before leaves all as it was. */
  release() {
    this.settle(this.pending.length);
    this.heads.clear();
    this.round = null;
  }

  /** Ends the run. What is pending since the machine came to a head may be a part of a round that is dropped. */
  end() {
    const { idle, machine: { count } } = this, heads = [...this.heads.values()].filter((head) => !idle || head.count === idle.count);
    this.settle(Math.min(this.pending.length, ...heads.map(({ pending }) => pending)));
    this.isOver = true;
    this.upTo = idle ? count : this.pending[0]?.count ?? count;
  }

  /** The round of a loop in which the machine is and which left it as it was, if no input came since it began; or null. */
  get idle() {
    const { round, machine: { count }, inputs } = this;
    return round && count - round.count < round.length && inputs.from(round.count - round.length) === inputs.from(count) ? round : null;
  }

  /** Passes over the rounds of a loop that leave the machine as it is, up to the next input, or, if they read the timer, to where that changes. */
  pass() {
    const { machine, inputs, idle: round, to } = this, { count } = machine;
    if (!round) return;
    const rate = machine.part("rate"), phase = machine.part("phase"), number = inputs.from(count), isTimed = rate > 0 && this.timed >= round.count - round.length;
    if (isTimed && phase <= count - round.count) return;
    const ends = [to, number < inputs.length ? inputs.count(number) : to, isTimed ? count + rate - phase - 1 : to];
    const many = Math.floor((Math.min(...ends) - count) / round.length) * round.length;
    if (many <= 0) return;
    while (machine.count < count + many) machine.run(inputs, inputs.from(machine.count), count + many);
    round.count += many;
    for (const head of this.heads.values()) head.count += many;
    for (const did of this.pending) did.count += many;
  }
}

/** Whether the registers, the flags and the LEDs of two states are the same.
 * @param {Uint32Array} one
 * @param {Uint32Array} other */
function areAlike(one, other) {
  for (let at = R; at <= STOP; at++) if (one[at] !== other[at]) return false;
  return one[LEDS] === other[LEDS];
}

/** Whether the instruction of a record takes a key or a byte of the serial line, if it loads.
 * @param {Uint32Array} words
 * @param {number} at */
function takesInput(words, at) {
  const address = words[at + ADDRESS], isNew = words[at + INPUTS] > 0;
  return (words[at + FLAGS] >>> 8 & 255) > 0 && ((address === KEY_ADDRESS && (isNew || words[at + KEYS] > 0)) || (address === SERIAL_ADDRESS && (isNew || words[at + SERIAL] > 255)));
}

/** Returns what the instruction of a record did.
 * @param {Uint32Array} words
 * @param {number} at
 * @param {number} count
 * @returns {Did} */
function didOf(words, at, count) {
  const pc = words[at + PC], word = words[at + WORD], flags = words[at + FLAGS], after = at + RECORD, a = word >>> 24 & 15;
  /** @type {(what: Did["what"], place?: number, value?: number) => Did} */
  const did = (what, place = 0, value = 0) => ({ count, pc, what, place, value });
  if (words[after + STOP]) return did("stop");
  if (flags >>> 24) return did("sent", 0, words[at + SENT]);
  if (flags >>> 16 & 1) return did("memory", words[at + ADDRESS], words[at + NEW]);
  if (word >>> 30 !== 3) return did("register", a, words[after + R + a]);
  const isTaken = words[after + PC] !== pc + 1;
  return word >>> 28 & 1 && isTaken ? did("register", LINK, words[after + R + LINK]) : did("");
}

/** Returns what was done in words.
 * @param {Did} did */
function textOf({ what, place, value }) {
  if (what === "register") return `R${place} = ${hex(value, 8)}`;
  if (what === "memory") return `Mem[${hex(place, 6)}] = ${hex(value, 8)}`;
  return what === "sent" ? `sends ${hex(value, 2)}` : what === "stop" ? "stops" : "goes on";
}

/** Addresses of two programs that are each other's. */
class Addresses {
  /** `ends` are the ends of the two programs: what comes after them has moved with them.
   * @param {Matched[]} matched
   * @param {[number, number]} ends */
  constructor(matched, ends) {
    this.matched = matched;
    this.ends = ends;
  }

  /** Whether a value of the one run is that of the other: the same number, or an address in what is the same in both, or right after it.
   * @param {number} one
   * @param {number} other */
  areSame(one, other) {
    if (one === other) return true;
    if (one >= MEMORY_BYTES) return false;
    const { matched, ends: [end, otherEnd] } = this, begun = this.begun(one), near = matched.slice(Math.max(0, begun - 2), begun);
    return (one >= end && one - end === other - otherEnd) || near.some(({ here, size, to }) => one <= here + size && one - here === other - to);
  }

  /** Returns how many of the statements begin at an address or before it.
   * @param {number} address */
  begun(address) {
    const { matched } = this;
    let [low, high] = [0, matched.length];
    while (low < high) {
      const middle = (low + high) >> 1;
      if (matched[middle].here <= address) low = middle + 1;
      else high = middle;
    }
    return low;
  }
}

/** Returns the first matched line whose instruction does something else in the one run than in the other, or after which they go to different lines; or null, and up to
 * which counts they do the same. It ends early once `isLate` says so, which receives up to which counts they did the same. Both runs begin with the same registers and
 * devices.
 * @param {[import("./emulator.js").Emulator, import("./emulator.js").Emulator]} machines
 * @param {[Memory, Memory]} from
 * @param {{ inputs: Inputs, to: number, matched: Matched[], ends: [number, number], isLate: (upTo: [number, number]) => boolean }} given
 * @param {() => Promise<void>} turn
 * @returns {Promise<{ first: FirstLine | null, upTo: [number, number], shifts: [number, number][], isLate: boolean }>} */
export async function firstLine(machines, from, { inputs, to, matched, ends, isLate }, turn) {
  const code = matched.filter(({ isCode }) => isCode), lines = new Map(code.map((one) => [one.here / 4, one])), others = new Map(code.map((one) => [one.to / 4, one]));
  let now = /** @type {[number, number]} */ ([0, 0]), wasLate = false;
  const late = () => (wasLate ||= isLate(now)), sides = [lines, others].map((words, at) => new Side(machines[at], from[at], inputs, to, placesOf(words), late));
  now = [machines[0].count, machines[1].count];
  const addresses = new Addresses(matched, ends), shifts = [now];
  /** @type {Matched | null} */
  let before = null;
  for (;;) {
    const one = await sides[0].next(turn), other = await sides[1].next(turn);
    now = [one?.count ?? sides[0].upTo, other?.count ?? sides[1].upTo];
    const isOver = !one || !other, line = one && lines.get(one.pc), goes = /** @type {[number, number]} */ ([line?.line ?? 0, (other && others.get(other.pc)?.other) ?? 0]);
    const isStop = isOver && one !== other && machines.some((machine, at) => !goes[at] && machine.part("stop")), all = { upTo: now, shifts, isLate: wasLate };
    if (isOver && !isStop) return { first: null, ...all };
    const [first, second] = shifts[shifts.length - 1];
    if (now[0] - first !== now[1] - second && shifts.length < MOST_SHIFTS) shifts.push(now);
    if (isOver || line?.to !== 4 * other.pc) return { first: { line: before?.other ?? 0, counts: now, did: null, goes }, ...all };
    if (!isSame(one, other, addresses)) return { first: { line: line.other, counts: now, did: [textOf(one), textOf(other)], goes }, ...all };
    before = line;
  }
}

/** Returns which words are among some.
 * @param {Map<number, unknown>} words */
function placesOf(words) {
  const places = new Uint8Array(WORDS);
  for (const word of words.keys()) places[word] = 1;
  return places;
}

/** Whether two instructions did the same.
 * @param {Did} one
 * @param {Did} other
 * @param {Addresses} addresses */
function isSame(one, other, addresses) {
  const isPlace = one.place === other.place || (one.what === "memory" && addresses.areSame(one.place, other.place));
  return one.what === other.what && isPlace && addresses.areSame(one.value, other.value);
}
