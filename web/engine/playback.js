// @ts-check
/* A machine that plays back: its inputs up to a number, and the checkpoints that are planned. Those of a file are judged as the machine passes them: by one call
 * of the check for those that come soon after one another, else by comparing what is claimed with the machine. The recording in progress goes on as the file
 * does, for as long as all is true. */
import { Claims } from "./claims.js";
import { copied, Emulator } from "./emulator.js";
import { Inputs } from "../formats/inputs.js";
import { INPUT_BYTES } from "../formats/layout.js";
import { Recorder } from "./recorder.js";
import { readRecording } from "../formats/recordings.js";
import { MOST_COUNT } from "../formats/limits.js";
import { Refused } from "../formats/refused.js";
import { countOf, differingPages, DISPLAY_AT, DISPLAY_BYTES, firstDifference, joined, last, MEMORY_BYTES, sentText, STATE_BYTES } from "../formats/states.js";
import { sliceOf, tableAt } from "./slices.js";

// Checkpoints of a file that are near to one another are judged together: how many at most, within how many steps, how many at least.
const MOST_TOGETHER = 256, STEPS_TOGETHER = 1000000, LEAST_TOGETHER = 8;

export class Playback extends Emulator {
  inputs = new Inputs();
  // How many inputs are played back, and are taken; a count up to which what was kept is played back.
  given = 0;
  next = 0;
  until = 0;
  // The counts of the checkpoints that are planned, and that of the first false claim.
  /** @type {number[]} */
  planned = [];
  falseAt = Infinity;
  // The recording that is played back, the address of its bytes, and what was sent since its last claim.
  /** @type {Recording | null} */
  recording = null;
  recordingAt = 0;
  /** @type {Bytes[]} */
  sentSince = [];
  // The number of its last claim that was passed, up to which count the claims after it are known to be true, and up to which one they were tried.
  passed = 0;
  trueTo = 0;
  triedTo = 0;
  /** What its checkpoints claim.
   * @type {Claims | null} */
  claims = null;

  /** @param {Library} library */
  constructor(library) {
    super(library);
    // As large as a state with its words, for claims to compare with.
    this.other = library.take(STATE_BYTES + MEMORY_BYTES);
    this.recorder = new Recorder(library);
  }

  /** Reads the recording of a file. It is refused if the proved library finds it invalid.
   * @param {Bytes} bytes */
  lawful(bytes) {
    const address = this.library.hold(bytes);
    try {
      this.library.claim(address, bytes.length, 0, this.other, this.other + STATE_BYTES);
      return readRecording(bytes);
    } finally {
      this.library.leave(address);
    }
  }

  /** Returns the state and the words that a checkpoint of a recording claims, whose bytes are at an address.
   * @param {number} address
   * @param {{ bytes: Bytes }} recording
   * @param {number} checkpoint */
  claimedAt(address, { bytes }, checkpoint) {
    if (!this.library.claim(address, bytes.length, checkpoint, this.other, this.other + STATE_BYTES))
      throw new Refused(`no checkpoint ${checkpoint}`);
    return copied(this.at(this.other));
  }

  /** Returns the state that a checkpoint of a recording claims, with its words.
   * @param {Bytes} bytes
   * @param {number} checkpoint */
  claimOf(bytes, checkpoint) {
    const address = this.library.hold(bytes);
    try {
      return this.claimedAt(address, { bytes }, checkpoint);
    } finally {
      this.library.leave(address);
    }
  }

  /** Returns the initial state of a recording, with its words.
   * @param {Bytes} bytes */
  firstOf(bytes) {
    return this.claimOf(bytes, 0);
  }

  /** Refuses an invalid state, or one that has another count.
   * @param {Memory} kept
   * @param {number} count */
  tryState(kept, count) {
    if (countOf(kept.state) !== count) throw new Refused("what was kept does not fit together");
    this.put(this.other, kept);
    this.library.view.setBigUint64(this.other, 0n, true);
    this.library.begin(this.other);
  }

  forgetRecording() {
    if (this.recordingAt) this.library.leave(this.recordingAt);
    Object.assign(this, { recordingAt: 0, recording: null, claims: null });
  }

  /** Returns what a checkpoint of the replayed recording claims; valid until the next call.
   * @param {number} number */
  claimedBy(number) {
    if (!this.claims) throw new Refused("no recording is played back");
    this.claims.load(number, this.other);
    return this.at(this.other);
  }

  /** Returns what a checkpoint of the recording claims, and what has changed since the checkpoint before.
   * @param {number} number
   * @returns {Claimed} */
  claimed(number) {
    const { recording } = this, claim = recording?.claims[number];
    if (!recording || !claim) throw new Refused(`no checkpoint ${number}`);
    const { claims } = recording, now = copied(this.claimedBy(number));
    const { count, sent } = claim, dots = now.words.slice(DISPLAY_AT, DISPLAY_AT + DISPLAY_BYTES);
    const shown = { number, count, state: now.state, dots, sent: sentText(sent), sentLength: sent.length, pages: [], before: null };
    if (!number) return shown;
    const before = this.claimedBy(number - 1);
    return { ...shown, before: before.state.slice(), steps: count - claims[number - 1].count, pages: differingPages(now.words, before.words) };
  }

  /** The count at which what is played back is over: the inputs and the checkpoints of the file, or of what was kept. */
  get end() {
    const last = this.given ? this.inputs.count(this.given - 1) + 1 : 0;
    return Math.min(MOST_COUNT, Math.max(last, this.planned.at(-1) ?? 0, this.until));
  }

  /** Whether inputs or checkpoints that are played back are still to come. */
  get isReplay() {
    return this.next < this.given || (this.planned.at(-1) ?? 0) > this.count || this.until > this.count;
  }

  /** Whether the machine is at the last count that there is: no instruction comes after it, and no input. */
  get isAtLastCount() {
    return this.count >= MOST_COUNT;
  }

  /** Whether each claim of the file was true that was passed. */
  get isTrue() {
    return this.falseAt === Infinity;
  }

  get marks() {
    return this.recorder.marks;
  }

  /** Returns the bytes of the inputs that the machine has taken. */
  get takenInputs() {
    return this.inputs.bytes.subarray(0, INPUT_BYTES * this.next);
  }

  /** Judges claims of the file that are close to one another by one call of the check, before the machine runs past them. */
  foresee() {
    const { recording, passed, count } = this;
    if (!recording || !this.isReplay || this.recorder.ofFile === null || count < this.triedTo) return;
    const { claims } = recording, end = claims[passed].count + STEPS_TOGETHER;
    let last = passed;
    while (last + 1 < claims.length && last < passed + MOST_TOGETHER && claims[last + 1].count <= end) last++;
    if (last < passed + LEAST_TOGETHER) return;
    this.triedTo = claims[last].count;
    const cut = sliceOf(recording, tableAt(recording, passed), passed, last);
    if (this.recorder.hasRoomFor(cut) && this.library.check(cut).status === 0) this.trueTo = this.triedTo;
  }

  /** Passes the claims up to this count that are known to be true. Returns their numbers and counts.
   * @returns {Passed[]} */
  pass() {
    const { recording, passed } = this, end = Math.min(this.count, this.trueTo);
    let number = passed;
    while (recording && number + 1 < recording.claims.length && recording.claims[number + 1].count <= end) number++;
    if (!recording || number === passed) return [];
    const claims = recording.claims.slice(passed + 1, number + 1), length = claims.reduce((sum, { sent }) => sum + sent.length, 0);
    this.recorder.follow(recording, passed, number);
    Object.assign(this, { passed: number, sentSince: [joined(this.sentSince).slice(length)] });
    return claims.map(({ count }, at) => ({ number: passed + 1 + at, count, part: null }));
  }

  /** Compares the recording's claim at this count with the machine. Returns its number, and the name of the first part that
   * differs, or null. */
  judge() {
    const { recording, count, planned, recorder } = this;
    if (!recording || !planned.includes(count)) return null;
    const number = recording.claims.findIndex((claim) => claim.count === count);
    if (number < 1) return null;
    const claimed = this.claimedBy(number), own = { state: this.state, words: this.words, sent: joined(this.sentSince) };
    const part = firstDifference(own, { ...claimed, sent: recording.claims[number].sent });
    Object.assign(this, { sentSince: [], passed: number });
    recorder.meet(number, !part && last(this.marks) === count);
    if (part) this.falseAt = Math.min(this.falseAt, count);
    return { number, count, part };
  }
}
