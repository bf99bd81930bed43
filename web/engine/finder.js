// @ts-check
/* Searches in the past of the live machine: when a condition holds, and which instruction wrote what is in memory or in a register. One
 * search is under way at a time. It is cut into pieces, which the search pool searches (searchpool.js), several at a time. */
import { BECOMES, CHANGE, LOAD, STOP, STORE, TAKES, WRITES } from "../formats/conditions.js";
import { copied, Pace } from "./emulator.js";
import { INPUT_BYTES } from "../formats/layout.js";
import { Refused } from "../formats/refused.js";
import { SearchPool } from "./searchpool.js";
import { SearchTask } from "./searchtask.js";
import { AT, DISK, field, firstDifference, KEY, MEMORY_BYTES, MOUSE, SERIAL, SWITCHES, WORDS } from "../formats/states.js";
import { isWhole } from "./tasks.js";

// What sets the parts of a state that are of devices: inputs of a kind, or accesses to a device word, by its address.
/** @type {{ [name: string]: { input?: number, kind?: number, word?: number } }} */
const DEVICE_PARTS = {
  switches: { input: SWITCHES }, mouse: { input: MOUSE }, LEDs: { kind: STORE, word: 0xffffc4 },
  serial: { input: SERIAL, kind: LOAD, word: 0xffffc8 }, keys: { input: KEY, kind: LOAD, word: 0xffffdc }, disk: { input: DISK },
};
const MOST_CONDITIONS = 64, H_NUMBER = 16, FLAGS_NUMBER = 17;
// How long a piece is to take, how many steps the first one has, since a hit may be near, and how many a piece has at most: a worker is
// not free for another search before its piece is searched.
const PIECE_MS = 60, FIRST_PIECE = 20000, MOST_PIECE = 5000000;

/** @typedef {import("../workers/past.js").History} History */
/** @typedef {import("./searchpool.js").Searched} Searched */
/** @typedef {{ from: number, end: number, value: number }} Bits */
/** @typedef {{ name: keyof typeof AT, input?: number, kind?: number, word?: number }} DevicePart */

export class Finder {
  searchPool = new SearchPool();
  /** @type {SearchTask | null} */
  search = null;

  /** @param {History} history */
  constructor(history) {
    this.history = history;
  }

  /** Ends the search that is under way. Its answer is that it was stopped. */
  stop() {
    this.search?.end();
    this.searchPool.clear();
    return true;
  }

  /** Finds the first or the last count in [from, to) at which a condition holds.
   * @param {Requests["find"][0]} given
   * @returns {Promise<Found>} */
  find({ generation, request, from = 0, to, last = false, conditions }) {
    if (!(isWhole(from) && isWhole(to))) throw new Refused("a search goes from a count up to a count");
    if (!conditions.length || conditions.length > MOST_CONDITIONS) throw new Refused(`want 1 to ${MOST_CONDITIONS} conditions`);
    return this.begin({ generation, request, to }, async (search, end) => {
      const hit = await (last ? this.findLast(from, end, conditions, search) : this.findFirst(from, end, conditions, search));
      return hit ?? { none: true };
    });
  }

  /** Finds the instruction that wrote what a register or a device has at a count, or what is in memory: a byte, some bits of it, or some
   * bits of the word at an address. It is the last one that changed it. `stored` is a later one that stored the same again. Of a device it
   * is the last one that wrote to it or took from it, or the last input.
   * @param {Requests["lastWriter"][0]} given
   * @returns {Promise<Written>} */
  lastWriter({ generation, request, before, register, device, ...bits }) {
    if (!isWhole(before)) throw new Refused(`${before} is not a count`);
    const find = this.finderOf({ register, device, ...bits });
    return this.begin({ generation, request, to: before }, async (search, end) => ({ ...(await find(end, search)), sure: true }));
  }

  /** Returns how to find what wrote something. What is no register, device or byte is refused.
   * @param {About} about
   * @returns {(before: number, search: SearchTask) => Promise<Written>} */
  finderOf({ register, device, ...bits }) {
    if (device === "stop") return (before, search) => this.writerOfStop(before, search);
    if (device !== undefined) {
      const part = deviceOf(device);
      return (before, search) => this.writerOfDevice(part, before, search);
    }
    if (register !== undefined) {
      const number = registerOf(register);
      return (before, search) => this.writerOfRegister(number, before, search);
    }
    const wanted = bitsOf(bits);
    return (before, search) => this.writerOfBits(wanted, before, search);
  }

  /** Runs the machine again from count 0, past all other keyframes, and compares it with what is shown at a count. Returns the first part
   * in which they differ, or null.
   * @param {Requests["recheck"][0]} given
   * @returns {Promise<Requests["recheck"][1]>} */
  recheck({ generation, at }) {
    if (!isWhole(at)) throw new Refused(`${at} is not a count`);
    return this.begin({ generation, to: at }, async (search, end) => {
      const { history } = this, { searcher, keyframes, inputs } = history, report = search.progress(end);
      await history.reach(searcher, end, search.turn);
      const shown = copied(searcher.at(searcher.address));
      searcher.load(keyframes, keyframes.items[0]);
      while (searcher.count < end) {
        report(searcher.count);
        searcher.advance(inputs, end);
        await search.turn();
      }
      const [one, other] = [shown, copied(searcher.at(searcher.address))].map((machine) => ({ ...machine, sent: new Uint8Array() }));
      return { at: end, part: firstDifference(one, other) };
    });
  }

  /** Begins a search that ends the one before. The task gets it, and the count up to which it may search.
   * @template T
   * @param {{ generation?: number, request?: number, to: number }} given
   * @param {(search: SearchTask, end: number) => Promise<T>} task
   * @returns {Promise<T | { stopped: boolean }>} */
  begin({ generation, request, to }, task) {
    const { history } = this;
    this.stop();
    const search = (this.search = new SearchTask(history, generation, request));
    return search.answered(async () => {
      await history.known(generation, to);
      search.epoch = history.epoch;
      await search.turn();
      return task(search, Math.min(to, history.end));
    });
  }

  /**
   * @param {number} from
   * @param {number} to
   * @param {Condition[]} conditions
   * @param {SearchTask} search
   */
  findFirst(from, to, conditions, search) {
    const pace = new Pace(PIECE_MS, FIRST_PIECE), pieces = this.forward(from, to, pace, search.turn);
    return this.searched(pieces, pace, { conditions, isLast: false }, search.progress(to - from));
  }

  /**
   * @param {number} from
   * @param {number} to
   * @param {Condition[]} conditions
   * @param {SearchTask} search
   */
  findLast(from, to, conditions, search) {
    const pace = new Pace(PIECE_MS, FIRST_PIECE), pieces = this.backward(from, to, pace, search.turn);
    return this.searched(pieces, pace, { conditions, isLast: true }, search.progress(to - from));
  }

  /** Searches pieces, as many at a time as the search pool can. Returns the hit of the first piece that has one, once all before it are known
   * to have none; or null.
   * @param {AsyncGenerator<Piece, void>} pieces
   * @param {Pace} pace
   * @param {{ conditions: Condition[], isLast: boolean }} wanted
   * @param {(done: number) => void} report
   * @returns {Promise<Hit | null>} */
  async searched(pieces, pace, wanted, report) {
    /** @type {{ steps: number, found: Promise<Searched> }[]} */
    const underWay = [];
    /** @type {Hit | null} */
    let hit = null;
    let done = 0;
    const takeFirst = async () => {
      const [{ steps, found }] = underWay.splice(0, 1), { hit: own, ms } = await found;
      pace.took(steps, ms);
      report((done += steps));
      hit = own;
    };
    for await (const piece of pieces) {
      underWay.push({ steps: piece.steps, found: this.searchPool.search({ ...piece, ...wanted }) });
      if (underWay.length > this.searchPool.size) await takeFirst();
      if (hit) return hit;
    }
    while (underWay.length && !hit) await takeFirst();
    return hit;
  }

  /** The pieces of a range from its beginning on. A machine that has stopped does nothing more.
   * @param {number} from
   * @param {number} to
   * @param {Pace} pace
   * @param {() => Promise<void>} turn
   * @returns {AsyncGenerator<Piece, void>} */
  async *forward(from, to, pace, turn) {
    const { history } = this, { searcher } = history;
    for (let at = from, end; at < to; at = end) {
      await history.reach(searcher, at, turn);
      if (searcher.part("stop")) return;
      end = Math.min(to, at + Math.min(pace.steps, MOST_PIECE));
      yield this.pieceTo(end);
    }
  }

  /** The pieces of a range from its end on. They begin at keyframes where there are some.
   * @param {number} from
   * @param {number} to
   * @param {Pace} pace
   * @param {() => Promise<void>} turn
   * @returns {AsyncGenerator<Piece, void>} */
  async *backward(from, to, pace, turn) {
    const { history } = this;
    for (let end = to, first; end > from; end = first) {
      const steps = Math.min(pace.steps, MOST_PIECE), least = Math.max(from, end - steps), { count } = history.nearest(least);
      first = least - count < steps ? Math.max(from, count) : least;
      await history.reach(history.searcher, first, turn);
      yield this.pieceTo(end);
    }
  }

  /** Returns the piece from where the searcher is up to a count.
   * @param {number} to
   * @returns {Piece} */
  pieceTo(to) {
    const { searcher, inputs } = this.history, { count } = searcher;
    const given = inputs.bytes.slice(INPUT_BYTES * inputs.from(count), INPUT_BYTES * inputs.from(to));
    return { ...copied(searcher.at(searcher.address)), inputs: given, to, steps: to - count };
  }

  /** Returns the instruction at a count, with the state before it.
   * @param {number} at
   * @param {SearchTask} search */
  async instructionAt(at, search) {
    const { history } = this, { searcher } = history;
    await history.reach(searcher, at, search.turn);
    const pc = searcher.part("PC");
    return { at, pc, word: pc < WORDS ? searcher.word(pc) : undefined, state: searcher.state.slice() };
  }

  /**
   * @param {number} register
   * @param {number} before
   * @param {SearchTask} search
   * @returns {Promise<Written>}
   */
  async writerOfRegister(register, before, search) {
    const { history } = this, { searcher } = history;
    await history.reach(searcher, before, search.turn);
    const value = registerIn(searcher.state, register);
    const hit = await this.findLast(0, before, [{ kind: BECOMES, from: register, value }], search);
    const changed = hit && (await this.instructionAt(hit.at, search));
    if (changed) search.report("lastWriter", { ...changed, sure: false });
    const again = await this.findLast(hit ? hit.at + 1 : 0, before, [{ kind: WRITES, from: register }], search);
    const stored = again ? { stored: await this.instructionAt(again.at, search) } : {};
    return { ...(changed ?? { initial: true }), ...stored };
  }

  /** Finds the instruction that stopped the machine. After it nothing changes, so it is in the last gap between keyframes that begins before.
   * @param {number} before
   * @param {SearchTask} search
   * @returns {Promise<Written>} */
  async writerOfStop(before, search) {
    const gap = await this.gapOfPart(AT.stop, before, search), conditions = [{ kind: STOP, from: 0, end: 1, value: 0 }];
    const hit = gap && (await this.findFirst(gap.from, gap.to, conditions, search));
    return hit ? this.instructionAt(hit.at, search) : { initial: true };
  }

  /** Finds what set a part of a device: an input, or a later access to its word.
   * @param {DevicePart} part
   * @param {number} before
   * @param {SearchTask} search
   * @returns {Promise<Written>} */
  async writerOfDevice({ name, input, kind, word }, before, search) {
    const given = input ? await this.lastInput(input, before, search) : null;
    if (!word || !kind) return given ?? { initial: true };
    const conditions = [{ kind, from: word, end: word + 4 }];
    const gap = input ? null : await this.gapOfPart(AT[name], before, search);
    const first = gap && (await this.findLast(gap.from, gap.to, conditions, search));
    if (first) search.report("lastWriter", { ...(await this.instructionAt(first.at, search)), sure: false });
    const hit = (await this.findLast(first ? first.at + 1 : given?.at ?? 0, before, conditions, search)) ?? first;
    return hit ? this.instructionAt(hit.at, search) : given ?? { initial: true };
  }

  /** Returns the last input of a kind that the machine has taken before a count, or null. One that has stopped takes none.
   * @param {number} kind
   * @param {number} before
   * @param {SearchTask} search */
  async lastInput(kind, before, search) {
    const { history } = this, { searcher, inputs } = history;
    await history.reach(searcher, before, search.turn);
    const taken = searcher.part("stop") ? await this.findLast(0, before, [{ kind: TAKES, value: kind }], search) : { at: before - 1 };
    let number = taken ? inputs.from(taken.at + 1) - 1 : -1;
    while (number >= 0 && inputs.kind(number) !== kind) number--;
    return number < 0 ? null : { at: inputs.count(number), input: inputs.item(number) };
  }

  /** Keyframes in which the bits are others say where they changed: the answer from there is posted first. Between the later ones they may
   * have changed and changed back.
   * @param {Bits} bits
   * @param {number} before
   * @param {SearchTask} search
   * @returns {Promise<Written>} */
  async writerOfBits({ from, end, value }, before, search) {
    const change = { kind: CHANGE, from, end, value }, store = { kind: STORE, from, end };
    const gap = await this.gapOfChange({ from, value }, before, search);
    let found = gap && (await this.findLast(gap.from, gap.to, [change], search));
    if (found) search.report("lastWriter", { ...(await this.instructionAt(found.at, search)), sure: false });
    const after = found ? found.at + 1 : 0;
    const last = await this.findLast(after, before, [change, store], search);
    const stored = last?.which === 1 ? last : null;
    found = (stored ? await this.findLast(after, stored.at, [change], search) : last) ?? found;
    const again = stored && (await this.instructionAt(stored.at, search));
    return { ...(found ? await this.instructionAt(found.at, search) : { initial: true }), stored: again };
  }

  /** Returns the last gap between keyframes, or between one and a count, at whose ends bits of a word are different; or null.
   * @param {Pick<Bits, "from" | "value">} bits
   * @param {number} before
   * @param {SearchTask} search */
  async gapOfChange({ from, value }, before, search) {
    const { history } = this, { searcher, keyframes } = history, number = Math.floor(from / 4);
    await history.reach(searcher, before, search.turn);
    const word = searcher.word(number);
    return this.gapWhere((keyframe) => (keyframes.word(keyframe, number) ^ word) & value, before);
  }

  /** Returns the last gap at whose ends a field of the state is different, or null.
   * @param {number} offset
   * @param {number} before
   * @param {SearchTask} search */
  async gapOfPart(offset, before, search) {
    const { history } = this, { searcher } = history;
    await history.reach(searcher, before, search.turn);
    const value = field(searcher.state, offset);
    return this.gapWhere(({ state }) => field(state, offset) !== value, before);
  }

  /** Returns the gap after the last keyframe that is other than what is at a count; or null.
   * @param {(keyframe: import("./keyframes.js").Keyframe) => unknown} isOther
   * @param {number} before */
  gapWhere(isOther, before) {
    const { keyframes } = this.history;
    let to = before;
    for (let at = keyframes.position(before); at >= 0; at--) {
      const keyframe = keyframes.items[at];
      if (keyframe.isClaimed) continue;
      if (isOther(keyframe)) return { from: keyframe.count, to };
      to = keyframe.count;
    }
    return null;
  }
}

/** Returns the range of bytes that is wanted, and the mask of their bits in their word.
 * @param {About} about
 * @returns {Bits} */
function bitsOf({ address, bit, mask }) {
  const isWord = mask !== undefined, isLawful = isWhole(address) && address < MEMORY_BYTES && (!isWord || address % 4 === 0);
  if (!isLawful || !(bit === undefined || (isWhole(bit) && bit < 8))) throw new Refused("want a byte of the memory, and a bit of it");
  const first = 8 * (address % 4);
  if (isWord) return { from: address, end: address + 4, value: mask >>> 0 };
  return { from: address, end: address + 1, value: ((bit === undefined ? 0xff : 1 << bit) << first) >>> 0 };
}

/** @param {number} register */
function registerOf(register) {
  if (!(isWhole(register) && register <= FLAGS_NUMBER)) throw new Refused(`${register} is not a register: want 0 to ${FLAGS_NUMBER}`);
  return register;
}

/**
 * @param {string} name
 * @returns {DevicePart}
 */
function deviceOf(name) {
  if (!Object.hasOwn(DEVICE_PARTS, name)) throw new Refused(`${name} is not a part of a device that something sets`);
  return { name: /** @type {keyof typeof AT} */ (name), ...DEVICE_PARTS[name] };
}

/** Returns what a register has: 0 to 15 for R0 to R15, 16 for H, 17 for the flags.
 * @param {Bytes} state
 * @param {number} register */
function registerIn(state, register) {
  if (register < H_NUMBER) return field(state, AT.R + 4 * register);
  return field(state, register === H_NUMBER ? AT.H : AT.flags);
}
