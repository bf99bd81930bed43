// @ts-check
/* The recording in progress. The library begins it with the machine's initial state, and extends it at each checkpoint by the
 * machine's state, and by the inputs and the bytes sent since the checkpoint before. So nothing is run a second time. */
import { chained, firstPages } from "./chains.js";
import { Inputs } from "../formats/inputs.js";
import { readRecording } from "../formats/recordings.js";
import { HEADER, INPUT_BYTES } from "../formats/layout.js";
import { LIMIT_REFUSALS } from "./library.js";
import { CHECKPOINT_LIMIT, INPUT_LIMIT, INPUT_LIMIT_WITH_DISK, POOL_LIMIT, SENT_LIMIT } from "../formats/limits.js";
import { Refused } from "../formats/refused.js";
import { DISK, joined, last, MEMORY_BYTES, PAGES, STATE_BYTES } from "../formats/states.js";
import { firstTable, sliceOf, tableAt } from "./slices.js";

// The recording ends with a checkpoint before one of its limits is reached: while this many bytes can still be sent, and while the
// pool has room for all the pages that a checkpoint may change.
const SENT_RESERVE = 1 << 16;
// The library reads and writes all that it extends. A part with PART_CHECKPOINTS stays as it is, and the next one begins.
const PART_CHECKPOINTS = 32;

export class Recorder {
  /** The recording so far is a chain of these.
   * @type {Bytes[]} */
  parts = [new Uint8Array()];
  // The count at which the last part begins, how many pages the parts before it add to the chain's pool, and how many the last one has from them.
  begun = 0;
  pagesBefore = 0;
  pagesBegun = 0;
  // The number of a checkpoint of the file that is played back from which on the recording is the file's, if it is. It is 0 if all of it is.
  /** @type {number | null} */
  ofFile = null;
  // What is still to be cut from the file: up to a checkpoint.
  /** @type {{ recording: Recording, number: number } | null} */
  uncut = null;
  // The counts of its checkpoints, how many inputs it has, and how many bytes were sent up to its last checkpoint.
  /** @type {number[]} */
  marks = [];
  taken = 0;
  sentBefore = 0;
  /** @type {Full | null} */
  full = null;
  // What was sent since its last checkpoint.
  /** @type {Bytes[]} */
  sent = [];
  sentLength = 0;

  /** @param {Library} library */
  constructor(library) {
    this.library = library;
  }

  /** The recording so far. */
  get bytes() {
    this.cutFile();
    if (this.parts.length > 1) this.place(chained(this.parts));
    return this.parts[0];
  }

  /** How many pages the recording has. */
  get pages() {
    this.cutFile();
    return this.pagesBefore + pagesOf(last(this.parts)) - this.pagesBegun;
  }

  /** Makes a recording the only part.
   * @param {Bytes} bytes */
  place(bytes) {
    Object.assign(this, { parts: [bytes], begun: 0, pagesBefore: 0, pagesBegun: 0 });
  }

  /** Goes on with a part that begins at a count.
   * @param {Bytes} bytes
   * @param {number} begun */
  push(bytes, begun) {
    Object.assign(this, { pagesBefore: this.pagesBefore + pagesOf(last(this.parts)) - this.pagesBegun, pagesBegun: firstPages(bytes), begun });
    this.parts.push(bytes);
  }

  /** Begins a part at the last checkpoint. */
  beginPart() {
    const { library } = this, part = last(this.parts), held = library.hold(part), state = library.take(STATE_BYTES + MEMORY_BYTES);
    try {
      library.claim(held, part.length, checkpointsOf(part) - 1, state, state + STATE_BYTES);
      library.view.setBigUint64(state, 0n, true);
      this.push(library.begin(state), last(this.marks));
    } finally {
      for (const address of [held, state]) library.leave(address);
    }
  }

  /** Cuts what was passed from the file. */
  cutFile() {
    const { uncut, ofFile: from } = this;
    if (!uncut || from === null) return;
    const { recording, number } = uncut, cut = sliceOf(recording, tableAt(recording, from), from, number);
    if (from) this.push(cut, recording.claims[from].count);
    else this.place(cut);
    Object.assign(this, { uncut: null, ofFile: from && number });
  }

  /** Goes on from a checkpoint of the file, at which the recording is, to a later one, which is true, as are those between: the recording goes
   * on as the file does, unless it has left the file or is full.
   * @param {Recording} recording
   * @param {number} from
   * @param {number} number */
  follow(recording, from, number) {
    if (this.ofFile === null) return;
    const passed = recording.claims.slice(from + 1, number + 1), length = passed.reduce((sum, { sent }) => sum + sent.length, 0);
    const rest = joined(this.sent).slice(length);
    this.uncut = { recording, number };
    this.marks.push(...passed.map(({ count }) => count));
    this.taken = recording.inputs.from(recording.claims[number].count);
    this.sentBefore += length;
    this.forgetSent();
    this.note(rest);
  }

  /** Whether the checkpoints of a slice of the file have room after those that are there. A recording that is all the file's is as lawful as that.
   * @param {Bytes} cut */
  hasRoomFor(cut) {
    if (this.ofFile === 0) return true;
    const checkpoints = this.marks.length + checkpointsOf(cut) - 1, pages = this.pages + pagesOf(cut) - firstPages(cut);
    return checkpoints <= CHECKPOINT_LIMIT && pages <= POOL_LIMIT;
  }

  /** Hears whether a checkpoint of the file claims what the last one of the recording does.
   * @param {number} number
   * @param {boolean} isSame */
  meet(number, isSame) {
    this.cutFile();
    this.ofFile = isSame ? (this.ofFile === 0 ? 0 : number) : null;
  }

  /** Leaves the file: the recording is another than the file's from here on. */
  leaveFile() {
    this.cutFile();
    this.ofFile = null;
  }

  /** Begins with the state and the words at an address. The state's count is 0.
   * @param {number} address */
  begin(address) {
    this.resume(this.library.begin(address), new Uint8Array());
  }

  /** Resumes a recording that was made so far, with the bytes sent since its last checkpoint.
   * @param {Bytes} bytes
   * @param {Bytes} sent */
  resume(bytes, sent) {
    const { claims, inputs } = readRecording(bytes);
    Object.assign(this, { uncut: null, ofFile: null });
    this.place(bytes);
    this.marks = claims.slice(1).map((claim) => claim.count);
    this.taken = inputs.length;
    this.full = null;
    this.sentBefore = claims.reduce((length, claim) => length + claim.sent.length, 0);
    this.forgetSent();
    this.note(sent);
  }

  /** Goes back to a count, before which a number of bytes were sent: to the last checkpoint that is not after it, and what was sent since.
   * @param {number} count
   * @param {number} sent */
  cut(count, sent) {
    const recording = readRecording(this.bytes), { claims } = recording, last = claims.findLastIndex((claim) => claim.count <= count);
    const output = joined([...claims.map((claim) => claim.sent), ...this.sent]);
    const before = claims.slice(0, last + 1).reduce((length, claim) => length + claim.sent.length, 0);
    this.resume(sliceOf(recording, firstTable(recording), 0, last), output.slice(before, sent));
  }

  forgetSent() {
    this.sent = [];
    this.sentLength = 0;
  }

  /** Adds bytes that the machine sent. Bytes beyond the limit of a recording are not kept: it is full then.
   * @param {Bytes} sent */
  note(sent) {
    if (!sent.length || this.sentLength > SENT_LIMIT) return;
    this.sent.push(sent);
    this.sentLength += sent.length;
  }

  /** How many bytes were sent, as far as the recording has them. */
  get sentTotal() {
    return this.sentBefore + this.sentLength;
  }

  /** How many more bytes the recording has room for. */
  get room() {
    return Math.max(0, SENT_LIMIT - this.sentTotal);
  }

  /** The limit of a recording that is so near that no more may fit than a checkpoint at this count, or null. */
  get nearLimit() {
    if (this.room < SENT_RESERVE) return "sent bytes";
    if (this.pages > POOL_LIMIT - PAGES) return "pages";
    return this.marks.length >= CHECKPOINT_LIMIT ? "checkpoints" : null;
  }

  /** Ends the recording for a reason. It is full, at the count of its last checkpoint.
   * @param {string} why */
  end(why) {
    this.leaveFile();
    this.full = { why, isEnd: true, count: this.marks.at(-1) ?? 0 };
  }

  /** Extends the recording by a checkpoint at the count of the state at an address, if that is above the last one's. `inputs` are
   * all inputs that the machine has taken. A recording that cannot be extended is full, and stays as it is. Returns whether there
   * is a new checkpoint.
   * @param {number} address
   * @param {number} count
   * @param {Bytes} inputs */
  extend(address, count, inputs) {
    if (this.full || count <= (this.marks.at(-1) ?? 0)) return false;
    try {
      this.extendLast(address, count, inputs);
    } catch (error) {
      if (!(error instanceof Refused)) throw error;
      this.end(error.message);
      return false;
    }
    this.marks.push(count);
    this.taken = inputs.length / INPUT_BYTES;
    this.sentBefore += this.sentLength;
    this.forgetSent();
    return true;
  }

  /** Extends the last part, whose counts begin at 0. It is refused as the library refuses to extend the whole.
   * @param {number} address
   * @param {number} count
   * @param {Bytes} inputs */
  extendLast(address, count, inputs) {
    const { library, marks } = this;
    this.cutFile();
    const most = inputs.length > INPUT_BYTES * INPUT_LIMIT && new Inputs(inputs).has(DISK) ? INPUT_LIMIT_WITH_DISK : INPUT_LIMIT;
    if (inputs.length > INPUT_BYTES * most) throw new Refused(LIMIT_REFUSALS.inputs);
    if (marks.length >= CHECKPOINT_LIMIT) throw new Refused(LIMIT_REFUSALS.checkpoints);
    if (this.sentTotal > SENT_LIMIT) throw new Refused(LIMIT_REFUSALS.sent);
    if (checkpointsOf(last(this.parts)) > PART_CHECKPOINTS) this.beginPart();
    const { begun, parts, pages } = this, part = last(parts), since = new Inputs(inputs.subarray(INPUT_BYTES * this.taken)).between(begun, Infinity);
    library.view.setBigUint64(address, BigInt(count - begun), true);
    try {
      const made = library.extend(part, since, address, joined(this.sent));
      if (pages + pagesOf(made) - pagesOf(part) > POOL_LIMIT) throw new Refused(LIMIT_REFUSALS.pages);
      parts.splice(-1, 1, made);
    } finally {
      library.view.setBigUint64(address, BigInt(count), true);
    }
  }

  /** Returns what the browser keeps of it. */
  get kept() {
    return { recording: this.bytes, sentSince: joined(this.sent) };
  }
}

/**
 * @param {Bytes} bytes
 * @param {number} field
 */
const numberIn = ({ buffer, byteOffset }, field) => new DataView(buffer, byteOffset).getUint32(field, true);

/** Returns how many pages a recording has.
 * @param {Bytes} bytes */
const pagesOf = (bytes) => numberIn(bytes, HEADER.pages);

/** Returns how many checkpoints a recording has, with its initial state.
 * @param {Bytes} bytes */
const checkpointsOf = (bytes) => numberIn(bytes, HEADER.checkpoints);
