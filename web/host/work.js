// @ts-check
/* A work: a run of the machine, as far as the page knows it and the browser keeps it. A run that is taken over from its past, and what it was before, are two works,
 * branches of one family.
 *
 * The body of a work is a machine at some count. What came since a machine was answered, its base, is in the page as well: so it can be written in the head at any
 * time, without an answer of the live machine, and the run follows from both. */
import { app, branches, setWork } from "./app.js";
import { attempt } from "./elements.js";
import { HEAD, Item, items, keepSoon, KEEP_MS, now, RUN, SOON_MS } from "./keeping.js";
import { symbolFile } from "./names.js";
import { pins } from "./pins.js";
import { packedMachine } from "./records.js";
import { breaks, cursor, watches } from "./shown.js";
import { database } from "./storage.js";
import { Typed } from "./typed.js";
import { shadesOf } from "../formats/dots.js";
import { INPUT_BYTES } from "../formats/layout.js";
import { countOf, DISPLAY_AT, DISPLAY_BYTES, joined } from "../formats/states.js";

// How often a machine that waits, with the inputs that were kept, is kept while it runs.
const WAITING_MS = 60000;
/** Who writes the bodies of this page: what came since then is of a body of the same one. */
const writer = `${Date.now()}-${Math.random()}`;

/** `generation` is the worker's number of the machine, and `fork` that of its run; `by` is who wrote its body. `kept` says what was kept last as a body, with its inputs
 * and when. `base` is what the machine was, and what came since; `typed` is what waits.
 * @extends {Item<RunHead>} */
export class Work extends Item {
  by = "";
  kept = "";
  inputs = "";
  at = -Infinity;
  isStored = false;
  isPinned = false;
  // Whether a note was pinned in it while it was a replay, of which the browser keeps nothing.
  isNoted = false;
  /** @type {Begun | null} */
  base = null;
  isFollowed = false;
  came = { inputs: /** @type {Bytes[]} */ ([]), marks: /** @type {number[]} */ ([]), count: 0 };
  typed = new Typed();
  // Of a branch: the id of its family, its number in it, where it parts from the others, and where it ends.
  /** @type {number | undefined} */
  family = undefined;
  number = 1;
  parent = 0;
  end = 0;
  // What it was when it was opened from a file, of which the browser keeps nothing before something is done in it.
  /** @type {Whole | null} */
  opened = null;
  /** What was kept beside it that is still to be shown: the names, and the count that was looked at. Until then it stays kept.
   * @type {{ symbols?: SymbolFile, cursor?: number | null }} */
  unshown = {};

  /**
   * @param {string} name
   * @param {{ generation?: number, fork?: number, sent?: string, program?: number, ran?: Ran }} of
   */
  constructor(name, { generation = 0, fork = 0, sent = "", program = 0, ran } = {}) {
    super(RUN);
    this.name = name;
    this.generation = generation;
    this.fork = fork;
    this.sent = sent;
    // What the memory was at first, as a number.
    this.program = program;
    // The source that it was run from, if it was.
    this.ran = ran;
  }

  get what() {
    return `the recording of ${this.name}, so save it to a file`;
  }

  /** What a branch is called. */
  get branch() {
    return `branch ${this.number}`;
  }

  /** Whether something came that is to be kept and is not, or was posted and has no number yet. */
  get isNewer() {
    const isNews = this.news > this.safe || this.typed.posted.length > 0;
    return isNews && app.work === this && Boolean(app.latest?.hasOwn || this.typed.pieces.length);
  }

  // What came

  /** Begins with what the live machine answered.
   * @param {Begun & { fork?: number }} base */
  begin({ fork, ...base }) {
    Object.assign(this, { base, came: { inputs: [], marks: [], count: base.count } });
  }

  /** Begins with the run, unless what is played back is not over: at once, if it is known what the machine began with.
   * @param {Begun | null} [begun] */
  async follow(begun) {
    if (this.base || this.isFollowed) return;
    // Nothing is typed while something is played back; a branch that one returns to begins anew.
    if (app.latest?.isReplay) return void (this.typed = new Typed());
    this.isFollowed = !begun;
    const base = begun ? { ...begun, fork: this.fork } : await app.live.ask("begun").finally(() => (this.isFollowed = false));
    if (base.fork === this.fork && !this.base) {
      this.begin(base);
      this.typed.begin(base.waiting);
    }
    // The connection is open by the time that it is needed; if not, the callers that need it get the error.
    database().catch(() => {});
  }

  /** Hears what a frame of the live machine brings. Returns whether that is to be kept.
   * @param {Frame} frame */
  hear({ fresh: { inputs, marks, taken }, state, hasOwn }) {
    if (this.base) {
      if (inputs.length) this.came.inputs.push(inputs);
      this.came.marks.push(...marks);
      this.came.count = countOf(state);
    }
    const isTaken = this.typed.hear(taken);
    if (hasOwn && (inputs.length || marks.length || isTaken)) this.noteNew();
  }

  /** Something came that is not kept, which is done soon. */
  noteNew() {
    this.news++;
    keepSoon();
  }

  /** Something beside the machine changed, which is kept with all of it. */
  keepAnew() {
    this.kept = "";
    return this.keep({ isSaidAgain: true });
  }

  /** Returns what came since a machine, which is the base or came later.
   * @param {Begun} machine
   * @returns {Since} */
  sinceOf({ inputs: { length }, count }) {
    const { base, came } = this, inputs = joined(came.inputs).subarray(length - (base?.inputs.length ?? length));
    return { from: length / INPUT_BYTES, inputs, marks: came.marks.filter((mark) => mark > count), until: came.count, waiting: this.typed.waiting };
  }

  // What is written

  /** What is looked at now.
   * @returns {DeskState} */
  get desk() {
    return { breaks: [...breaks], cursor: cursor.at ?? this.unshown.cursor ?? null, source: this.ran?.id ?? "", watches, notes: [...pins] };
  }

  /** Whether something else is looked at than is kept, or it has another name. Of a run that is not kept yet, as that of a copy, a place alone is nothing to keep. */
  get isMoved() {
    const { head, desk, name, isPinned } = this;
    if (!head) return desk.breaks.length + watches.length + pins.size > 0;
    return JSON.stringify([head.name, Boolean(head.pinned), head.desk]) !== JSON.stringify([name, isPinned, desk]);
  }

  /** Returns the head, with what is known of the run; the rest is as it was written last.
   * @param {Partial<RunHead>} known
   * @returns {RunHead} */
  headWith(known) {
    const { id, name, family, number, parent, isPinned: pinned, by, desk, end: until } = this, { family: _, ...before } = /** @type {RunHead} */ (this.head ?? { inputs: 0, size: 0, until });
    return { ...before, id: `${HEAD}${id}`, of: id, at: now(), by, name, ...(family === undefined ? {} : { family, number, parent }), pinned, desk, ...known };
  }

  /** Returns the records of a machine. One without its state is at its last checkpoint, and what it sent since then comes again.
   * @param {Begun & Partial<Whole>} machine
   * @param {Since} [since] what came since that machine
   * @returns {import("./keeping.js").Records<RunHead>} */
  recordsOf({ live = null, ...machine }, since) {
    const { id, ran, sent } = this, symbols = symbolFile() ?? this.unshown.symbols, { count, until = count, inputs, recording } = machine, kept = live && packedMachine(live);
    const dots = live?.words.subarray(DISPLAY_AT, DISPLAY_AT + DISPLAY_BYTES), size = inputs.length + recording.length + (kept?.words.length ?? 0);
    const body = { id, by: writer, sent: live ? sent : "", ...(ran ? { ran } : {}), ...(symbols ? { symbols } : {}), ...machine, ...(kept ? { live: kept } : {}) };
    return { body, head: this.headWith({ by: writer, since, size, ...this.reached(since ?? { until }, inputs), ...(dots ? { shades: shadesOf(dots) } : {}) }) };
  }

  /** Returns up to which count it is, and how many inputs it has.
   * @param {Partial<Since>} since
   * @param {Bytes} inputs */
  reached({ from, inputs: more, until = 0 }, inputs) {
    return { until, inputs: from === undefined || !more ? inputs.length / INPUT_BYTES : from + more.length / INPUT_BYTES };
  }

  /** Returns what is to be written at once: what came since the body was written, or, if this page did not write one, the machine without its state. */
  records() {
    const { base, left } = this;
    if (app.work !== this || left || !base) return left;
    if (!this.isNewer && !(app.latest?.hasOwn && this.isMoved)) return null;
    const { from, inputs, ...since } = this.sinceOf(base);
    if (!this.isStored) return this.recordsOf({ ...base, ...since, inputs: joined([base.inputs, inputs]) });
    const came = { ...since, from, inputs };
    return { head: this.headWith({ since: came, ...this.reached(came, base.inputs) }) };
  }

  /** Returns what is written of the run as it is left: all of it, if the live machine says what that is; else, of a branch, that it is one.
   * @param {Whole | null} machine */
  recordsLeft(machine) {
    const left = machine ?? (this.head ? null : this.opened);
    if (left) return this.recordsOf(left);
    return this.head && this.family !== undefined ? { head: this.headWith({ desk: /** @type {RunHead} */ (this.head).desk }) } : null;
  }

  /** Keeps what came: all of the machine by time, or if the user did something, or if that was not written lately. While it waits, it is kept less often unless the
   * user did something: a checkpoint by time is written beside what was kept.
   * @param {import("./keeping.js").How} how
   * @returns {Promise<unknown>} */
  async keep(how) {
    const { latest } = app, since = performance.now() - this.at, isDue = how.isByTime || how.isSaidAgain || (this.isNewer && (!this.isStored || since >= KEEP_MS));
    if (app.work !== this || how.isLeaving || !isDue || !latest?.hasOwn) return super.keep(how);
    const inputs = `${latest.inputs} ${latest.typed}`, kept = `${countOf(latest.state)} ${inputs}`, isWaiting = !how.isSaidAgain && latest.isQuiet && this.inputs === inputs && since < WAITING_MS;
    if (this.kept === kept || isWaiting) return super.keep(how);
    return (await this.keepWhole(how)) && Object.assign(this, { kept, inputs, at: performance.now() });
  }

  /** Keeps all of the machine. Returns whether it is kept.
   * @param {import("./keeping.js").How} how */
  async keepWhole(how) {
    const machine = await app.live.ask("kept");
    if (machine?.fork !== this.fork || app.work !== this) return false;
    const { live, fork, ...begun } = machine;
    if (!this.base) this.begin(begun);
    const isWritten = await this.write(this.recordsOf({ live, ...begun }, this.sinceOf(begun)), how);
    if (isWritten && this.base) {
      const { from, until: count, waiting, ...came } = this.sinceOf(begun);
      Object.assign(this, { base: begun, came: { count, inputs: [came.inputs], marks: came.marks } });
    }
    return isWritten;
  }

  /** Keeps a branch that was opened from a file, beside its run, which was worked on last.
   * @param {number} at
   * @param {import("./keeping.js").How} how */
  keepOpened(at, how) {
    if (this.head || this.left || !this.opened) return;
    const { head, body } = this.recordsOf(this.opened);
    this.leave({ head: { ...head, at }, body }, true, how);
  }

  /** @param {import("./keeping.js").Records<RunHead>} records
   * @param {import("./keeping.js").How} how */
  async write(records, how) {
    if (app.work === this && !this.head) for (const branch of branches.list) branch.keepOpened(records.head.at - 1, how);
    const isWritten = await super.write(records, how);
    if (isWritten && records.body) Object.assign(this, { isStored: true, by: writer });
    return isWritten;
  }
}

/** Takes the work that is open from now on.
 * @param {Work} work */
export function openWork(work) {
  items.add(work);
  setWork(work);
}

/** Hears what a frame of the live machine brings for what is kept.
 * @param {Frame} frame */
export function noteNews(frame) {
  const { work } = app;
  if (frame.fork !== work.fork) return;
  attempt(() => work.follow());
  work.hear(frame);
}

/** Types key codes, or sends serial bytes, and holds them until the machine takes them. Returns why they have no effect, or null.
 * @param {Partial<Waiting>} codes */
export async function type(codes) {
  const { work } = app, piece = work.typed.post(codes);
  keepSoon();
  const answer = await app.live.ask("type", codes);
  work.typed.drop(piece);
  if (typeof answer === "string") return answer;
  // Another run may have it by now. One of which the page has not heard yet begins with what waits.
  if (answer.fork === app.work.fork) {
    app.work.typed.number(piece, answer.first);
    app.work.noteNew();
  }
  return null;
}

/** Keeps the run that is open: the user did something. */
export const keepRun = () => attempt(() => app.work.keep({ isSaidAgain: true }));

/** Keeps soon what runs though nothing came for it. */
export function keepRunSoon() {
  setTimeout(() => attempt(() => app.work.keep({ isByTime: true })), SOON_MS);
}

/** Whether a note was pinned in a replay that is not over: it is kept with the recording once that is over, or the user continues from a count of it. */
export const isNoteUnsafe = () => app.work.isNoted && Boolean(app.latest?.isReplay);

setWork(new Work("live"));
