// @ts-check
/* The live worker: the requests about the live machine. It runs in turns (turns.js), and posts frames (frames.js). */
import { Feed } from "../engine/feed.js";
import { beginRun, countMachine, fork, generation, show } from "./frames.js";
import { noRun, replaceRun, run } from "./run.js";
import { readImage, readSession } from "../formats/sessions.js";
import { Refused, unlessRefused } from "../formats/refused.js";
import { hashOf, wordsOf } from "../formats/states.js";
import { library, machine } from "./context.js";
import { connectFeed, endRun, feed, mark, reached, setBreaks, setPace, setRun, wake } from "./turns.js";

const NOTHING = new Uint8Array();

/** Says why there is no new checkpoint at this count. */
function whyUnmarked() {
  if (machine.full?.isEnd) return machine.full.why;
  if (machine.hasLastRoom) return "the recording has room for one more checkpoint, which is left for its end";
  return machine.count ? "there is a checkpoint at this count" : "a recording begins with its initial state, which needs no checkpoint";
}

/** Opens a machine in place of the one that is there, unless `begin` refuses: then that one stays as it is. Returns what was
 * opened, and what the browser is to keep of the one before.
 * @param {string} kind
 * @param {() => void} begin
 * @returns {Opened} */
function opened(kind, begin) {
  const left = machine.kept();
  begin();
  replaceRun(noRun());
  countMachine();
  beginRun();
  feed?.begin(generation);
  show(NOTHING, true);
  const { recording, planned, inputs } = machine, program = hashOf(wordsOf(machine.firstOf(machine.recorder.bytes).words));
  return { kind, program, claims: recording?.claims.map((claim) => claim.count) ?? null, version: recording?.version, inputs: inputs.length,
           checkpoints: planned.length, left, begun: begunLive(), generation, fork };
}

/** Returns all of the machine but its state, from which the page goes on to keep what comes; or null while something is played back. */
const begunLive = () => (machine.isReplay ? null : machine.begun());

/** Reads a recording; one that is not valid is refused with its verdict line.
 * @param {Bytes} bytes */
function recordingOf(bytes) {
  const recording = unlessRefused(() => machine.lawful(bytes));
  if (recording) return recording;
  const { line, status } = library.check(bytes);
  throw new Refused(status === 2 ? line : "the recording cannot be opened: no memory");
}

/** Returns what was made to be saved, at which count it ends, and, if that is before the machine's, why.
 * @param {Bytes} bytes
 * @returns {Made} */
function made(bytes) {
  machine.endIfFull();
  show(NOTHING);
  const count = machine.marks.at(-1) ?? 0;
  return { bytes, count, full: machine.full?.why, isWhole: count === machine.count };
}

export const LIVE = {
  /** @param {Requests["openRecording"][0]} given */
  openRecording({ bytes, checkpoint }) {
    const recording = recordingOf(bytes);
    return opened("recording", () => machine.beginRecording(recording, checkpoint));
  },
  /** @param {Requests["openSession"][0]} given */
  openSession({ bytes, isAlwaysKept }) {
    const session = readSession(bytes);
    return opened("session", () => machine.begin(session, isAlwaysKept));
  },
  /** @param {Requests["openImage"][0]} given */
  openImage({ image, address, registers }) {
    const session = readImage(image, address, registers);
    return opened("image", () => machine.begin(session));
  },
  /** @param {Requests["resume"][0]} given */
  resume({ kept, ...how }) {
    return opened("session", () => machine.resume(kept, how));
  },
  setRun,
  setPace,
  step() {
    endRun();
    machine.feed();
    const sent = machine.advance(machine.count + 1);
    reached();
    feed?.post();
    show(sent);
  },
  /** @param {Requests["toCheckpoint"][0]} given */
  toCheckpoint({ fast, seconds }) {
    const goal = machine.nextStop(seconds || 1);
    setRun({ on: true, fast, goal, seconds });
  },
  /** Ends a replay where it is; or goes on from a moment of the past, which `history` has. Returns the number of the new run, and what the
   * browser is to keep of the one that was left; or null if the replay is over already, or another machine was opened since that moment was asked for.
   * @param {Start | { at?: undefined }} given */
  takeOver(given) {
    const { at } = given;
    if (given.at === undefined ? !machine.isReplay : given.generation !== generation) return null;
    const left = at === undefined || machine.isKept ? null : machine.whole();
    if (given.at === undefined) machine.takeOver();
    else {
      machine.goBack(given.at, given);
      replaceRun(noRun());
    }
    beginRun();
    const shown = () => (show(NOTHING, at !== undefined), { left, begun: begunLive(), fork });
    return feed ? feed.cut().then(shown) : shown();
  },
  /** Has the browser keep the machine, though nothing came for it: something was done beside it. */
  keepToo() {
    machine.isAlwaysKept = true;
    show(NOTHING);
  },
  /** Reports to the past of this machine through a port from now on.
   * @param {{ port: MessagePort }} given */
  connect({ port }) {
    const made = new Feed(machine, port);
    connectFeed(made);
    if (generation) made.begin(generation);
  },
  /** @param {Requests["setBreaks"][0]} given */
  setBreaks({ conditions }) {
    setBreaks(conditions);
  },
  /** Takes changes of the mouse or of the switches, each with its value and its time since 1970 in ms. Returns why they have no
   * effect, or null.
   * @param {Requests["change"][0]} given */
  change({ kind, changes }) {
    if (machine.inputRefusal) return machine.inputRefusal;
    wake();
    for (const [value, at] of changes) {
      if (run.on) machine.arrivals.changes.push({ kind, value, ms: at - performance.timeOrigin });
      else machine.change(kind, value);
    }
    return null;
  },
  /** Returns the inputs that the machine took, in a replay also those to come, and its count. */
  inputs() {
    const { next, inputs, count, isReplay } = machine;
    return { inputs: Array.from({ length: isReplay ? inputs.length : next }, (_, at) => inputs.item(at)), count };
  },
  /** Takes key codes or serial bytes, which wait until the machine takes them. Returns the numbers of the first ones and that of the run which has them; or why
   * they have no effect.
   * @param {Requests["type"][0]} typed
   * @returns {Requests["type"][1]} */
  type(typed) {
    if (machine.inputRefusal) return machine.inputRefusal;
    wake();
    const first = machine.arrivals.type(typed);
    if (!run.on) show(NOTHING);
    return { fork, first };
  },
  /** Cancels the serial bytes that wait. */
  cancelSerial() {
    machine.arrivals.serial.cancel();
    show(NOTHING);
  },
  /** Makes a checkpoint. Returns why there is no new one, or null. */
  mark() {
    const why = mark() ? null : whyUnmarked();
    run.becameFull = machine.endIfFull();
    show(NOTHING);
    return why;
  },
  /** Returns what a checkpoint of the recording claims that was opened as a machine of this number, or null if that is gone.
   * @param {Requests["claimed"][0]} given */
  claimed({ number, of }) {
    return of === generation ? machine.claimed(number) : null;
  },
  recording() {
    return made(machine.recorded().bytes);
  },
  /** Returns the recording up to a moment of the past, or null if that is of a machine that is no longer open.
   * @param {Start} given
   * @returns {Made | null} */
  recordingTo(given) {
    if (given.generation !== generation) return null;
    return { bytes: machine.recordedTo(given), count: given.at, isWhole: true };
  },
  /** Returns what the browser keeps, or null if it keeps nothing. The page has heard of all inputs in it by then. */
  kept() {
    const kept = machine.kept();
    if (kept) show(NOTHING);
    return kept && { ...kept, fork };
  },
  /** Returns all of the machine but its state. The page has heard of all inputs in it by then. */
  begun() {
    show(NOTHING);
    return { ...machine.begun(), fork };
  },
};
