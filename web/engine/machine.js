// @ts-check
/* The live machine: an emulator, the recording in progress, and the recording that is played back, if there is one. Each input is
 * stamped with the count of the instruction before which it comes. */
import { Arrivals } from "./arrivals.js";
import { Claims } from "./claims.js";
import { elsewhere } from "../formats/conditions.js";
import { copied } from "./emulator.js";
import { Inputs, isInput } from "../formats/inputs.js";
import { INPUT_BYTES } from "../formats/layout.js";
import { Playback } from "./playback.js";
import { Recorder } from "./recorder.js";
import { CHECKPOINT_LIMIT, INPUT_LIMIT, INPUT_LIMIT_WITH_DISK, MOST_COUNT, SERIAL_LIMIT } from "../formats/limits.js";
import { Refused } from "../formats/refused.js";
import { countOf, equalWords, joined, KEY, last, MOST_KEYS, MOUSE, PER_SECOND, SERIAL, wordsOf } from "../formats/states.js";
import { firstTable, sliceOf } from "./slices.js";

const RECEIVED = 256;

export class Machine extends Playback {
  arrivals = new Arrivals();
  // How many inputs are of a file, and how many bytes were sent so far.
  filed = 0;
  sentTotal = 0;
  isAlwaysKept = false;
  // How many of the last inputs are serial bytes that were given ahead of the run that takes them (serialline.js).
  ahead = 0;

  /** Begins a session. `checkpoints` are the counts of its checkpoints, at which the claims of a recording are compared.
   * @param {Session} session
   * @param {boolean} isAlwaysKept */
  begin({ state, words, inputs, checkpoints }, isAlwaysKept = false) {
    this.put(this.other, { state, words });
    this.recorder.begin(this.other);
    this.forgetRecording();
    this.start({ state, words, inputs, given: inputs.length, next: 0, planned: checkpoints, isAlwaysKept });
  }

  /** Starts at a state, after the bytes that the recording in progress says were sent. Of the inputs the first `given` are played back, the
   * first `filed` are of a file, and the first `next` are taken already. `until` is a count up to which what was kept is played back. A
   * machine that is one of several branches, or runs a source of the user, is kept even without inputs of the user.
   * @param {Memory & { inputs: Inputs, given: number, filed?: number, next: number, planned: number[], until?: number, waiting?: Waiting, isAlwaysKept?: boolean }} given */
  start({ state, words, inputs, given, filed = given, next, planned, until = 0, waiting, isAlwaysKept = false }) {
    this.put(this.address, { state, words });
    Object.assign(this, { inputs, given, filed, next, planned, until, isAlwaysKept, falseAt: Infinity, sentSince: [], trueTo: 0, triedTo: 0 });
    this.arrivals = new Arrivals(waiting);
    this.sentTotal = this.recorder.sentTotal;
    this.arrivals.forgetMouse(this.part("mouse"));
  }

  /** Begins with what a checkpoint of a recording claims. The recording in progress begins with the inputs and the claims up to
   * there. If that is refused, the machine stays as it was.
   * @param {Recording} recording
   * @param {number} checkpoint */
  beginRecording(recording, checkpoint) {
    const recordingAt = this.library.hold(recording.bytes);
    try {
      const claimed = this.claimedAt(recordingAt, recording, checkpoint);
      if (checkpoint) this.recorder.resume(sliceOf(recording, firstTable(recording), 0, checkpoint), new Uint8Array());
      else this.recorder.begin(this.other);
      const { inputs, claims } = recording, planned = claims.slice(1).map((claim) => claim.count);
      this.forgetRecording();
      this.start({ ...claimed, inputs, given: inputs.length, next: checkpoint ? inputs.from(countOf(claimed.state)) : 0, planned });
      Object.assign(this, { recordingAt, recording, claims: new Claims(this.library, recording), passed: checkpoint });
      this.recorder.ofFile = 0;
    } catch (error) {
      this.library.leave(recordingAt);
      throw error;
    }
  }

  /** Resumes a kept recording, at the state that the machine had, or at its last checkpoint if that was not kept. What came later is
   * played back, up to `until`. It is refused if the parts of what was kept do not fit together, and the machine stays as it was. The inputs are the user's, or those of a file. One that the browser is to keep on is kept though it has
   * no inputs: a note was pinned in it.
   * @param {Requests["resume"][0]["kept"]} kept
   * @param {{ isOfFile?: boolean, isKeptOn?: boolean }} how */
  resume({ recording, sentSince, live, inputs: bytes, marks = [], count, until = count, waiting, family, ran }, { isOfFile = false, isKeptOn = false } = {}) {
    const inputs = lawfulInputs(bytes);
    const recorded = this.lawful(recording), end = last(recorded.claims).count, from = live ? count : end;
    if (live) this.tryState(live, count);
    if (end > count || until < count || !isBeginning(recorded.inputs, inputs)) throw new Refused("what was kept does not fit together");
    const begun = live ?? this.claimOf(recording, recorded.claims.length - 1);
    this.recorder.resume(recording, live ? sentSince : new Uint8Array());
    this.forgetRecording();
    const planned = [...new Set(marks)].filter((mark) => mark > from && mark <= until).sort((one, other) => one - other);
    const given = until > from ? inputs.from(until) : 0, isAlwaysKept = isKeptOn || family !== undefined || ran !== undefined;
    this.start({ ...begun, inputs, given, filed: isOfFile ? inputs.length : 0, next: inputs.from(from), planned, until, waiting, isAlwaysKept });
  }

  /** How many inputs are the user's own. */
  get own() {
    return this.isReplay ? 0 : this.inputs.length - this.filed;
  }

  /** Whether the browser is to keep the machine: it has inputs of the user, is one of several branches, or runs a source of the user. */
  get isToKeep() {
    return !this.isReplay && (this.own + this.arrivals.typed > 0 || this.isAlwaysKept);
  }

  /** Ends the replay: from here on the inputs are the user's, and the later inputs and claims of the file are dropped. Of a run that is kept, what waits at
   * its end stays with it. */
  takeOver() {
    this.inputs = new Inputs(this.takenInputs);
    this.given = this.next;
    this.filed = Math.min(this.filed, this.next);
    if (this.isKept) Object.assign(this, { isAlwaysKept: true, arrivals: new Arrivals() });
    this.until = this.trueTo = 0;
    this.planned = this.planned.filter((count) => count <= this.count);
    this.arrivals.forgetMouse(this.part("mouse"));
  }

  /** Goes on from a moment of the past: its state, its words, and how many bytes were sent before it. Later inputs and claims are
   * dropped. The recording in progress is cut back to its last checkpoint that is not after the moment; what came since then is still
   * to be recorded. A recording that ended before the moment stays as it is. The machine is a branch from then on.
   * @param {number} at
   * @param {Memory & { sent: number }} moment */
  goBack(at, { state, words, sent }) {
    if (countOf(state) !== at || at > this.count) throw new Refused(`the machine has not come to ${at} yet`);
    const inputs = new Inputs(this.inputs.bytes.subarray(0, INPUT_BYTES * this.inputs.from(at)));
    const planned = this.planned.filter((count) => count <= at), given = Math.min(this.given, inputs.length);
    if (!this.recorder.full || this.recorder.full.count > at) this.recorder.cut(at, sent);
    const { falseAt } = this, filed = Math.min(this.filed, inputs.length);
    this.start({ state, words, inputs, given, filed, next: inputs.length, planned, isAlwaysKept: true });
    Object.assign(this, { sentTotal: sent, falseAt: falseAt <= at ? falseAt : Infinity });
  }

  /** Why the machine takes no inputs of the user, or null. */
  get inputRefusal() {
    if (this.isReplay) return "REPLAY: the inputs are the file's until you continue from here";
    if (this.part("stop")) return "STOPPED: a stopped machine takes no inputs";
    if (this.isAtLastCount) return "LIMIT REACHED: no count comes after this one";
    return this.inputs.length >= this.inputLimit ? "LIMIT REACHED: the machine takes no more inputs" : null;
  }

  /** Adds an input before an instruction that is not before the next one, nor before the last input.
   * @param {number} kind
   * @param {number} value
   * @param {number} count */
  input(kind, value, count = this.count) {
    if (this.inputRefusal) return;
    const last = this.inputs.length ? this.inputs.count(this.inputs.length - 1) : 0;
    this.inputs.push(Math.max(count, last, this.count), kind, value);
  }

  /** Changes the mouse or the switches of a machine that is paused.
   * @param {number} kind
   * @param {number} value */
  change(kind, value) {
    if (kind === MOUSE) this.arrivals.follow(value, this.count);
    this.input(kind, value);
  }

  /** Adds the changes that arrived with their counts, as far as these are before an end.
   * @param {(ms: number) => number} countAt
   * @param {number} end */
  stamp(countAt, end = Infinity) {
    this.arrivals.stamp(countAt, this.count, end, ({ kind, value }, count) => this.input(kind, value, count));
  }

  /** Passes on what was typed and sent, as fast as the machine takes it: it queues sixteen key codes, and holds one serial byte.
   * Returns whether more waits that it may get. */
  feed() {
    const { keys, serial, typed } = this.arrivals;
    if (!typed || this.inputRefusal) return false;
    const free = Math.min(MOST_KEYS - this.part("keys") - this.due(KEY), this.inputLimit - this.inputs.length);
    for (let key = 0; key < free && keys.length; key++) this.input(KEY, keys.take());
    if (this.serialWaits && !this.isReceiving) this.input(SERIAL, serial.take());
    return keys.length + this.serialWaits > 0;
  }

  /** The number of serial bytes that wait and have room in the recording. */
  get serialWaits() {
    return Math.max(0, Math.min(this.arrivals.serial.length, SERIAL_LIMIT - this.inputs.length));
  }

  /** Whether the receiver of the serial line holds a byte that the program has not read, or is about to get one. */
  get isReceiving() {
    return (this.part("serial") & RECEIVED) !== 0 || this.due(SERIAL) > 0;
  }

  /** Takes back the serial bytes that were given ahead, if the run has not come to them. They wait again. */
  takeBack() {
    const { inputs, ahead, arrivals: { serial } } = this, from = Math.max(this.next, inputs.length - ahead);
    serial.untake(Array.from({ length: inputs.length - from }, (_, at) => inputs.item(from + at)[2]));
    inputs.length = from;
    this.ahead = 0;
  }

  /** Returns how many inputs of a kind come before the next instruction, of those that the user made.
   * @param {number} kind */
  due(kind) {
    let number = 0;
    for (let at = this.next; at < this.inputs.length; at++) number += this.inputs.kind(at) === kind ? 1 : 0;
    return number;
  }

  /** Runs up to a count or less, and returns the bytes that the machine sent. If it is to stop where its program ends, a copy from before says where that is.
   * @param {number} to
   * @param {boolean} isToEnd */
  advance(to, isToEnd = false) {
    if (isToEnd) this.put(this.other, this.at(this.address));
    const all = this.run(this.inputs, this.next, to, this.sentRoom), sent = isToEnd && this.isAtEnd ? this.runToEnd() : all;
    this.next = this.inputs.from(this.count, this.next);
    this.recorder.note(sent);
    this.sentTotal += sent.length;
    if (this.recording && sent.length) this.sentSince.push(sent);
    return sent;
  }

  /** Runs from before once more, up to where the program has come to its end. */
  runToEnd() {
    const inputs = this.inputs.bytes.subarray(INPUT_BYTES * this.next, INPUT_BYTES * this.inputs.from(this.count, this.next));
    const last = this.library.find(this.other, inputs, this.count, elsewhere(this.part("PC")), true);
    this.put(this.address, this.at(this.other));
    return this.run(this.inputs, this.next, last ? last.at + 1 : this.count, this.sentRoom);
  }

  /** Returns the next count at which to stop: that of a checkpoint that is planned, the end of a replay, or a checkpoint that is
   * due by time. Checkpoints before a count are passed by.
   * @param {number} seconds
   * @param {number} from */
  nextStop(seconds, from = 0) {
    const { count } = this, step = seconds * PER_SECOND;
    if (this.isReplay) return this.planned.find((planned) => planned > count && planned >= from) ?? this.end;
    return step ? (Math.floor(count / step) + 1) * step : Infinity;
  }

  /** Whether the recording in progress is the machine's own: a replay of a recording keeps within the limits that its file
   * keeps. */
  get isOwnRecording() {
    return !this.recording || !this.isReplay;
  }

  /** The count up to which a live machine runs at once: as many counts as the recording has room for bytes, so that one that waits does not come to the
   * last count in a moment. */
  get roomEnd() {
    return this.isReplay || this.recorder.full || this.part("stop") ? Infinity : this.count + this.recorder.room;
  }

  /** How many bytes the machine may send in one run: those for which the recording has room, or that of one instruction. */
  get sentRoom() {
    return this.isOwnRecording && !this.recorder.full ? Math.max(1, this.recorder.room) : undefined;
  }

  /** Ends the recording with a checkpoint here if one of its limits is near. If there can be no more inputs, it has a checkpoint
   * after the last of them. Returns whether the recording has just become full. */
  endIfFull() {
    if (this.full || !this.isOwnRecording) return false;
    if (this.recorder.nearLimit) {
      this.mark();
      this.recorder.end(`the recording has reached its limit of ${this.recorder.nearLimit}`);
    } else if (this.hasAllInputs) this.mark();
    return this.full !== null;
  }

  /** The most inputs of its recording: only one of a disk has more than others may have. */
  get inputLimit() {
    return this.inputs.length > INPUT_LIMIT ? INPUT_LIMIT_WITH_DISK : INPUT_LIMIT;
  }

  /** Whether the machine has taken as many inputs as a recording has at most. */
  get hasAllInputs() {
    return this.next === this.inputLimit;
  }

  /** Why the recording is full, at which count, and whether it ends there, or null. */
  get full() {
    if (this.recorder.full) return this.recorder.full;
    const isMarked = this.hasAllInputs && (this.marks.at(-1) ?? 0) > this.inputs.count(this.inputLimit - 1);
    return isMarked ? { why: "the recording has reached its limit of inputs", isEnd: false, count: last(this.marks) } : null;
  }

  /** Whether only one more checkpoint has room in the recording, which is left for its end. */
  get hasLastRoom() {
    return this.marks.length >= CHECKPOINT_LIMIT - 1;
  }

  /** Extends the recording by a checkpoint at this count, if there is room for one. Returns whether there is a new checkpoint.
   * @param {number} most */
  mark(most = CHECKPOINT_LIMIT) {
    const isMade = this.marks.length < most && this.recorder.extend(this.address, this.count, this.takenInputs);
    // The recording is another than the file's from then on, up to the next checkpoint of the file.
    if (isMade && !this.planned.includes(this.count)) {
      this.recorder.leaveFile();
      this.trueTo = this.triedTo = 0;
    }
    return isMade;
  }

  /** Returns the recording up to here, with a last checkpoint at this count; or, if there is no room for one, up to its last
   * checkpoint. */
  recorded() {
    this.mark();
    return { bytes: this.recorder.bytes, count: this.marks.at(-1) ?? 0 };
  }

  /** Returns the recording up to a moment of the past, with a last checkpoint there, which is not in the recording in progress.
   * @param {Start} moment */
  recordedTo({ at, state, words, sent }) {
    const recorder = new Recorder(this.library), { bytes, sent: since } = this.recorder;
    recorder.resume(bytes, joined(since));
    recorder.cut(at, sent);
    this.put(this.other, { state, words });
    recorder.extend(this.other, at, this.inputs.bytes.subarray(0, INPUT_BYTES * this.inputs.from(at)));
    return recorder.bytes;
  }

  /** Whether what is still played back is kept already. */
  get isKept() {
    return this.until > this.count;
  }

  /** Returns what the browser keeps, so that the recording in progress survives a reload; or null if it keeps nothing of it. */
  kept() {
    return this.isToKeep ? this.whole() : null;
  }

  /** Returns all of the machine, as the browser keeps it. Inputs of a file that are still to come are left out. */
  whole() {
    return { ...this.begun(), live: copied(this.at(this.address)) };
  }

  /** Returns all of the machine but its state, which follows from the rest. */
  begun() {
    const inputs = (this.isReplay ? this.takenInputs : this.inputs.bytes).slice();
    return { ...this.recorder.kept, count: this.count, inputs, waiting: this.arrivals.waiting };
  }
}

/** Returns inputs whose bytes were kept. They are refused if one is out of its range, or before the one before it.
 * @param {Bytes} bytes */
function lawfulInputs(bytes) {
  const inputs = new Inputs(bytes);
  for (let at = 0; at < inputs.length; at++) {
    const [count, kind, value] = inputs.item(at);
    const isInOrder = count <= MOST_COUNT && (!at || inputs.count(at - 1) <= count);
    const isLawful = kind && isInput(inputs.kind(at), BigInt(value)) && isInOrder;
    if (!isLawful) throw new Refused("what was kept has inputs that no machine takes");
  }
  return inputs;
}

/** Whether inputs are the first of others.
 * @param {Inputs} some
 * @param {Inputs} others */
function isBeginning(some, others) {
  return some.length <= others.length && equalWords(wordsOf(some.bytes), wordsOf(others.bytes));
}
