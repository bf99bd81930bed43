/* node typed.mjs : what was typed is held once. A page and a live worker, which are told of each other late, in turns that look random; at any moment the page is
 * gone, and what it would have written begins again. esbuild bundles it for node. */
import { Arrivals } from "../../web/engine/arrivals.js";
import { Typed } from "../../web/host/typed.js";

const NAMES = ["keys", "serial"], TURNS = 60000;

/** Numbers that look random, the same in each run. */
let state = 87;
function chance(below) {
  state = (Math.imul(state, 1664525) + 1013904223) >>> 0;
  return Math.floor((state / 2 ** 32) * below);
}

function expect(what, found, wanted) {
  const [one, other] = [found, wanted].map((value) => JSON.stringify(value));
  if (one !== other) throw new Error(`${what}: ${one} in place of ${other}`);
}

/** A run in the worker: what waits, and what the machine has taken. */
class Run {
  constructor(fork, { waiting, taken } = { taken: { keys: [], serial: [] } }) {
    Object.assign(this, { fork, arrivals: new Arrivals(waiting), taken: { keys: [...taken.keys], serial: [...taken.serial] }, cancelled: [] });
  }

  get begun() {
    return { waiting: this.arrivals.waiting, taken: { keys: [...this.taken.keys], serial: [...this.taken.serial] } };
  }

  take() {
    const name = NAMES[chance(2)], queue = this.arrivals[name];
    if (queue.length) this.taken[name].push(queue.take());
  }

  cancel() {
    this.cancelled.push(...this.arrivals.serial.rest);
    this.arrivals.serial.cancel();
  }
}

/** What the page knows of a run. */
class Work {
  constructor(fork, begun) {
    Object.assign(this, { fork, typed: new Typed(), taken: begun.taken });
    this.typed.begin(begun.waiting);
  }

  /** All that was typed for it, or the last of that: what the machine took, and what waits. */
  all(name, from = 0) {
    return [...this.taken[name].slice(from), ...this.typed.waiting[name]];
  }
}

/** The page and its worker, and the messages that are under way between them. */
class Desk {
  constructor(fork, begun) {
    this.run = new Run(fork, begun);
    this.work = new Work(fork, this.run.begun);
    Object.assign(this, { toWorker: [], toPage: [], said: { keys: this.run.taken.keys.length, serial: this.run.taken.serial.length } });
  }

  /** Types a few bytes, each of which is one more than the last one of its kind, so that the order is seen. */
  type(next) {
    const name = NAMES[chance(2)], codes = { [name]: Array.from({ length: 1 + chance(4) }, () => (next[name] = (next[name] + 1) % 256)) }, { work } = this;
    this.toWorker.push({ ask: "type", codes, work, piece: work.typed.post(codes), isRefused: chance(20) === 0 });
  }

  /** What the worker answers to the next request. */
  answer() {
    const { ask, codes, work, piece, isRefused } = this.toWorker.shift() ?? {}, { run } = this;
    if (ask === "type") this.toPage.push({ work, piece, answer: isRefused ? null : { fork: run.fork, first: run.arrivals.type(codes) } });
    if (ask === "cancel") run.cancel();
    if (ask === "begun") this.post(), this.toPage.push({ again: run.begun.waiting, fork: run.fork });
    if (ask !== "takeOver") return;
    this.run = new Run(run.fork + 1);
    // A key may come between the take-over and its answer.
    if (chance(2) && this.toWorker[0]?.ask === "type") this.answer();
    this.toPage.push({ begun: this.run.begun, fork: this.run.fork });
    this.said = { keys: this.run.taken.keys.length, serial: this.run.taken.serial.length };
  }

  /** A frame: what the machine took since the last one. */
  post() {
    const { run, said } = this, more = NAMES.map((name) => run.taken[name].slice(said[name]));
    this.said = { keys: run.taken.keys.length, serial: run.taken.serial.length };
    this.toPage.push({ frame: { fork: run.fork, more, taken: run.arrivals.taken } });
  }

  /** The page hears the next message, as host/work.js does. */
  hear() {
    const { work, piece, answer, frame, begun, again, fork } = this.toPage.shift() ?? {}, now = this.work;
    if (piece) work.typed.drop(piece);
    if (answer && answer.fork === now.fork) now.typed.number(piece, answer.first);
    if (begun) this.begin(fork, begun);
    if (again && fork === now.fork) now.typed.begin(again);
    if (frame?.fork !== now.fork) return;
    NAMES.forEach((name, at) => now.taken[name].push(...frame.more[at]));
    now.typed.hear(frame.taken);
  }

  /** Begins with a run that was taken over. What waits for the one before does not wait for this one. */
  begin(fork, begun) {
    const before = this.work;
    this.work = new Work(fork, begun);
    for (const name of NAMES) {
      const waits = new Set(before.typed.waiting[name]);
      expect(`the ${name} of two runs`, [...begun.waiting[name]].filter((byte) => waits.has(byte)), []);
    }
  }

  /** Delivers all that is under way. Then both have the same. */
  settle() {
    while (this.toWorker.length) this.answer();
    this.post();
    while (this.toPage.length) this.hear();
    const { run, work } = this;
    for (const name of NAMES) expect(`the ${name} of a run that settled`, work.all(name), [...run.taken[name], ...run.arrivals[name].rest]);
  }
}

/** Bytes in their order: each is later than the one before by less than half of all. */
function expectInOrder(what, bytes) {
  bytes.forEach((byte, at) => {
    const by = at ? (byte - bytes[at - 1] + 256) % 256 : 1;
    if (!by || by > 128) throw new Error(`${what}: ${bytes.slice(at - 2, at + 2)}`);
  });
}

const next = { keys: 0, serial: 0 }, seen = { typed: 0, crashes: 0, takeOvers: 0 };
let desk = new Desk(1);
for (let turn = 0; turn < TURNS; turn++) {
  const kind = chance(100);
  if (kind < 15) desk.type(next), seen.typed++;
  else if (kind < 45) desk.answer();
  else if (kind < 60) desk.run.take();
  else if (kind < 70) desk.post();
  else if (kind < 97) desk.hear();
  else if (kind < 98) desk.toWorker.push({ ask: "cancel" });
  else if (kind < 99) desk.toWorker.push({ ask: "begun" });
  else if (chance(10) === 0) desk.toWorker.push({ ask: "takeOver" }), seen.takeOvers++;
  const { work } = desk;
  for (const name of NAMES) expectInOrder(`the ${name} after ${turn} turns`, work.all(name, -4));
  expect("how many keys the machine took", work.typed.taken.keys, work.taken.keys.length);
  const posted = [...desk.toWorker, ...desk.toPage].filter((one) => one.piece && one.work === work);
  expect("whether all that has no answer is there", posted.every(({ piece }) => work.typed.pieces.includes(piece)), true);
  if (turn % 500 === 0) desk.settle();
  if (turn % 1700 === 0) {
    // The page is gone, with what is under way; another one begins with what it had.
    const { taken, typed: { waiting }, fork } = desk.work, before = NAMES.map((name) => desk.work.all(name));
    desk = new Desk(fork, { waiting, taken });
    expect("what is there after a crash", NAMES.map((name) => desk.work.all(name)), before);
    seen.crashes++;
  }
}
console.log(`typed: ${seen.typed} times in ${seen.takeOvers} take-overs and ${seen.crashes} crashes, each key there once and in its order`);
