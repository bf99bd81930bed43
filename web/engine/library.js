// @ts-check
/* The proved library as a WebAssembly module: its exports, over the module's own memory. include/galluspa.h says what each does.
 * Pointers, lengths and counts have 64 bits, so they are passed as BigInt. */
import { INPUT_BYTES } from "../formats/layout.js";
import { Refused } from "../formats/refused.js";
import { PAGE_BYTES, PAGES, STATE_BYTES, WORDS } from "../formats/states.js";

export const DONE = 0, NO_ROOM = 2, NO_CHECKPOINT = 5;
export const ADVANCE_REFUSALS = ["", "a number is out of its range", "more is sent than there is room for", "no memory"];
/** Why a recording cannot be extended. */
export const LIMIT_REFUSALS = {
  inputs: "the recording has reached its limit of inputs", checkpoints: "the recording has reached its limit of checkpoints",
  sent: "the recording has reached its limit of sent bytes", pages: "the recording has reached its limit of pages",
};
const RECORD_REFUSALS = ["", "a number is out of its range", "", "no memory", "the bytes are not a recording", "", ...Object.values(LIMIT_REFUSALS),
                         "the recording has inputs at or after its last checkpoint"];
const RECORD_ROOM = 1 << 18, LINE_ROOM = 256;
const NOT_FOUND = 11, HIT_BYTES = 16;
// A checkpoint as galluspa_claims writes it: its state, how many bytes were sent, and the page of each slot.
export const CHECKPOINT_BYTES = STATE_BYTES + 8 + 4 * PAGES;
// What galluspa_records writes for each count: a state, and then what the instruction does, from these offsets on.
export const RECORD_BYTES = 184;
export const DOES = { inputs: 144, word: 160, address: 164, old: 168, new: 172, sent: 176, flags: 180 };

export class Library {
  /** @param {WebAssembly.Module} module */
  constructor(module) {
    const { exports } = new WebAssembly.Instance(module, {});
    this.exports = /** @type {{ [name: string]: (...given: (bigint | number)[]) => any }} */ (exports);
    this.ownMemory = /** @type {WebAssembly.Memory} */ (exports.memory);
  }

  /** Allocates a number of bytes of the module's memory; `leave` frees them. Returns their address.
   * @param {number} length */
  take(length) {
    const address = Number(BigInt.asUintN(32, BigInt(this.exports.web_room(BigInt(length)))));
    if (!address) throw new Refused("no memory");
    return address;
  }

  /** @param {number} address */
  leave(address) {
    this.exports.web_leave(BigInt(address));
  }

  /** Returns a view of the module's memory. The view is invalid once the memory has grown, so do not keep it.
   * @param {number} address
   * @param {number} length */
  bytes(address, length) {
    return new Uint8Array(this.ownMemory.buffer, address, length);
  }

  get view() {
    return new DataView(this.ownMemory.buffer);
  }

  get size() {
    return this.ownMemory.buffer.byteLength;
  }

  /** Copies bytes into memory that it allocates, and returns their address.
   * @param {Bytes} content */
  hold(content) {
    const address = this.take(Math.max(1, content.length));
    this.bytes(address, content.length).set(content);
    return address;
  }

  /** Returns the verdict line of a recording, and its status: 0 accepted, 1 false, 2 refused.
   * @param {Bytes} recording
   * @returns {Verdicted} */
  check(recording) {
    const [bytes, line, status] = [this.hold(recording), this.take(LINE_ROOM), this.take(8)];
    try {
      const length = Number(this.exports.galluspa_check(...[bytes, recording.length, line, LINE_ROOM, status].map(BigInt)));
      if (!length) throw new Refused("no memory");
      return { line: lineOf(this.bytes(line, length)), status: this.bytes(status, 1)[0] };
    } finally {
      for (const address of [bytes, line, status]) this.leave(address);
    }
  }

  /** Returns the recording that begins with the state and the words at an address.
   * @param {number} address */
  begin(address) {
    return this.written("galluspa_begin", [address, address + STATE_BYTES, WORDS], RECORD_ROOM);
  }

  /** Returns a recording extended by inputs and by a checkpoint that claims the state and the words at an address, and the bytes sent.
   * @param {Bytes} recording
   * @param {Bytes} inputs
   * @param {number} address
   * @param {Bytes} sent */
  extend(recording, inputs, address, sent) {
    const held = [recording, inputs, sent].map((content) => this.hold(content));
    const [bytes, list, output] = held;
    const given = [bytes, recording.length, list, inputs.length / INPUT_BYTES, address, address + STATE_BYTES, WORDS, output, sent.length];
    try {
      return this.written("galluspa_extend", given, recording.length + inputs.length + sent.length + RECORD_ROOM);
    } finally {
      for (const it of held) this.leave(it);
    }
  }

  /** Returns what a function writes that reports how much room it needs. If there is too little room, it is called a second time.
   * @param {string} name
   * @param {number[]} given
   * @param {number} room */
  written(name, given, room) {
    const count = this.take(8);
    try {
      for (;;) {
        const to = this.take(room);
        const code = this.exports[name](...[...given, to, room, count].map(BigInt)) & 255;
        const length = Number(this.view.getBigUint64(count, true)), content = code === DONE ? this.bytes(to, length).slice() : null;
        this.leave(to);
        if (content) return content;
        if (code !== NO_ROOM) throw new Refused(RECORD_REFUSALS[code]);
        room = length;
      }
    } finally {
      this.leave(count);
    }
  }

  /** Writes what a checkpoint of a recording claims to a state and words. Returns whether there is such a checkpoint.
   * @param {number} bytes
   * @param {number} length
   * @param {number} checkpoint
   * @param {number} state
   * @param {number} words */
  claim(bytes, length, checkpoint, state, words) {
    const given = [BigInt(bytes), BigInt(length), checkpoint, BigInt(state), BigInt(words), BigInt(WORDS)];
    const code = this.exports.galluspa_claim(...given) & 255;
    if (code !== DONE && code !== NO_CHECKPOINT) throw new Refused(code === 3 ? "no memory" : "the file is not a recording");
    return code === DONE;
  }

  /** Returns what all checkpoints of a recording claim, as the library writes it: the checkpoints, and the pages that they name.
   * @param {Bytes} recording */
  claims(recording) {
    const bytes = this.hold(recording), counts = this.take(16);
    try {
      for (let [checkpoints, pages] = [0, 0]; ; ) {
        const held = [this.take(CHECKPOINT_BYTES * checkpoints), this.take(PAGE_BYTES * pages)];
        const code = this.exports.galluspa_claims(...[bytes, recording.length, held[0], checkpoints, counts, held[1], pages, counts + 8].map(BigInt)) & 255;
        const [first, second] = [counts, counts + 8].map((at) => Number(this.view.getBigUint64(at, true)));
        const found = code === DONE && { checkpoints: this.bytes(held[0], CHECKPOINT_BYTES * first).slice(), pages: this.bytes(held[1], PAGE_BYTES * second).slice() };
        for (const it of held) this.leave(it);
        if (found) return found;
        if (code !== NO_ROOM) throw new Refused(code === 3 ? "no memory" : "the file is not a recording");
        [checkpoints, pages] = [first, second];
      }
    } finally {
      for (const it of [bytes, counts]) this.leave(it);
    }
  }

  /** Returns the first or the last hit of conditions in the run of the state and the words at an address, before a count; or null.
   * @param {number} address
   * @param {Bytes} inputs
   * @param {number} to
   * @param {Condition[]} conditions
   * @param {boolean} isLast
   * @returns {Hit | null} */
  find(address, inputs, to, conditions, isLast) {
    const held = [this.hold(inputs), this.hold(conditionBytes(conditions)), this.take(HIT_BYTES)];
    const [list, wanted, hit] = held.map(BigInt), machine = [address, address + STATE_BYTES, WORDS].map(BigInt);
    try {
      const many = BigInt(inputs.length / INPUT_BYTES), number = BigInt(conditions.length);
      const code = this.exports.galluspa_find(...machine, list, many, BigInt(to), wanted, number, isLast ? 1 : 0, hit) & 255;
      if (code !== DONE && code !== NOT_FOUND) throw new Refused(ADVANCE_REFUSALS[code]);
      /** @param {number} at */
      const read = (at) => Number(this.view.getBigUint64(held[2] + at, true));
      return code === DONE ? { at: read(0), which: read(8) } : null;
    } finally {
      for (const it of held) this.leave(it);
    }
  }

  /** Advances the state and the words at an address up to a count, or to the count after the last hit for which there is room, and returns the hits.
   * @param {number} address
   * @param {Bytes} inputs
   * @param {number} to
   * @param {Condition[]} conditions
   * @param {number} most
   * @returns {Hit[]} */
  hits(address, inputs, to, conditions, most) {
    const held = [this.hold(inputs), this.hold(conditionBytes(conditions)), this.take(HIT_BYTES * most), this.take(8)], [list, wanted, hits, number] = held;
    try {
      const given = [address, address + STATE_BYTES, WORDS, list, inputs.length / INPUT_BYTES, to, wanted, conditions.length, hits, most, number];
      const code = this.exports.galluspa_hits(...given.map(BigInt)) & 255;
      if (code !== DONE) throw new Refused(ADVANCE_REFUSALS[code]);
      const { view } = this;
      /** @param {number} at */
      const read = (at) => Number(view.getBigUint64(at, true));
      return Array.from({ length: read(number) }, (_, at) => ({ at: read(hits + HIT_BYTES * at), which: read(hits + HIT_BYTES * at + 8) }));
    } finally {
      for (const it of held) this.leave(it);
    }
  }

  /** Writes how often the run of the state and the words at an address executes each word before a count to `visits`, as 64 bits a word; and how
   * often it goes on elsewhere than at the next one to `departures`.
   * @param {number} address
   * @param {Bytes} inputs
   * @param {number} to
   * @param {number} visits
   * @param {number} departures */
  profile(address, inputs, to, visits, departures) {
    const list = this.hold(inputs), many = inputs.length / INPUT_BYTES;
    try {
      const given = [address, address + STATE_BYTES, WORDS, list, many, to, visits, WORDS, departures, WORDS];
      const code = this.exports.galluspa_profile(...given.map(BigInt)) & 255;
      if (code !== DONE) throw new Refused(ADVANCE_REFUSALS[code]);
    } finally {
      this.leave(list);
    }
  }

  /** Records what each of a number of instructions does, from the state at an address on, and advances that. Returns the records, as words.
   * @param {number} address
   * @param {Bytes} inputs
   * @param {number} many */
  records(address, inputs, many) {
    const held = [this.hold(inputs), this.take(RECORD_BYTES * many)], [list, records] = held;
    try {
      const given = [address, address + STATE_BYTES, WORDS, list, inputs.length / INPUT_BYTES, records, many];
      const code = this.exports.galluspa_records(...given.map(BigInt)) & 255;
      if (code !== DONE) throw new Refused(ADVANCE_REFUSALS[code]);
      return new Uint32Array(this.bytes(records, RECORD_BYTES * many).slice().buffer);
    } finally {
      for (const it of held) this.leave(it);
    }
  }
}

/** Returns conditions as the library reads them.
 * @param {Condition[]} conditions */
function conditionBytes(conditions) {
  return new Uint8Array(Uint32Array.from(conditions.flatMap(({ kind, from = 0, end = 0, value = 0, least = 0, most = 0 }) => [kind, from, end, value, least, most])).buffer);
}

/** Returns the text of a line without its line feed.
 * @param {Bytes} bytes */
function lineOf(bytes) {
  return new TextDecoder("latin1").decode(bytes).trimEnd();
}
