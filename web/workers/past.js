// @ts-check
/* The past of the live machine: its state at any count, run again from a keyframe. A worker of its own looks, so that the live machine
 * is never held up; the live one's feed (feed.js) posts it what it needs. Looks come one after the other, and before each piece of a
 * search (finder.js). */
import { Calls } from "../engine/calls.js";
import { Activity } from "../engine/activity.js";
import { Claims } from "../engine/claims.js";
import { copied } from "../engine/emulator.js";
import { KEYFRAME_MS, KEYFRAME_STEPS } from "../engine/feed.js";
import { Frames } from "../engine/frames.js";
import { HitLists } from "../engine/hitlists.js";
import { Inputs } from "../formats/inputs.js";
import { readRecording } from "../formats/recordings.js";
import { Keyframes } from "../engine/keyframes.js";
import { MOST_BEFORE, Recent } from "../engine/recent.js";
import { Refused } from "../formats/refused.js";
import { Replayer } from "../engine/replayer.js";
import { Finder } from "../engine/finder.js";
import { Stacks } from "../engine/stacks.js";
import { AT, field, joined, MEMORY_BYTES, PAGES, wordsOf } from "../formats/states.js";
import { Ended, isWhole, nextTask, unlessEnded } from "../engine/tasks.js";
import { Visits } from "../engine/visits.js";
import { Writers } from "../engine/writers.js";

// If a look takes longer, what is there comes first.
const SLOW_MS = 30;
// After a look there are keyframes about so far before it, so that steps back are short.
const NEAR = [262144, 16384, 1024, 64, 4];
const LISTED_BEFORE = 16, LISTED_AFTER = 32;

/** What is done with the machine at a count; `turn` lets others go first.
 * @template T
 * @typedef {(turn: () => Promise<void>) => Promise<T>} Looked */

/** What the live machine posts: how far it is, its inputs from a number on, and what else came.
 * @typedef {{ count: number, state: Bytes, sent: number, isCheckpoint: boolean, numbers: number[], bytes: Bytes }} LiveKeyframe
 * @typedef {{ generation: number, count: number, end: number, inputs: { from: number, bytes: Bytes }, begin?: Memory & { bytes: Bytes },
 *   keyframe?: LiveKeyframe, isCut?: boolean, isAnswer?: boolean }} Fed */

export class History {
  /** @type {MessagePort} */
  port = new MessageChannel().port1;
  keyframes = new Keyframes();
  stacks = new Stacks();
  inputs = new Inputs();
  /** @type {Claims | null} */
  claims = null;
  liveTable = new Uint32Array(PAGES);
  // The number of the machine; a number of the past as it is known, since a machine that goes back has another one; how far the live
  // machine is known to be, how far its inputs are known, and where it began if that is not at the beginning.
  generation = 0;
  epoch = 0;
  count = 0;
  end = 0;
  begun = 0;
  /** @type {((value?: unknown) => void)[]} */
  wakes = [];
  asked = 0;
  answered = 0;
  /** @type {Promise<unknown>} */
  looks = Promise.resolve();
  looking = 0;
  peeks = 0;
  // The count that was looked at last.
  /** @type {number | null} */
  cursor = null;
  isSettled = true;

  /** `report` posts news to the page.
   * @param {Library} library
   * @param {(news: PastNews) => void} report */
  constructor(library, report) {
    this.library = library;
    this.report = report;
    this.looker = new Replayer(library);
    this.searcher = new Replayer(library);
    this.finder = new Finder(this);
    this.activity = new Activity(this);
    this.visits = new Visits(this);
    this.calls = new Calls(this);
    this.frames = new Frames(this);
    this.lists = new HitLists(this);
    this.recent = new Recent(this);
    this.writers = new Writers(this);
  }

  /** The word at which the machine was before its first instruction. */
  get first() {
    return field(this.keyframes.items[0].state, AT.PC);
  }

  // What the live machine says

  /** Hears the live machine through a port.
   * @param {MessagePort} port */
  listen(port) {
    this.port = port;
    port.onmessage = ({ data }) => this.hear(data);
  }

  /** @param {Fed} fed */
  hear({ generation, count, end, inputs, begin, keyframe, isCut, isAnswer }) {
    if (begin) this.begin(generation, count, begin);
    if (isCut) this.cut(count);
    this.inputs.replace(inputs.from, inputs.bytes);
    Object.assign(this, { count, end, answered: this.answered + (isAnswer ? 1 : 0) });
    if (keyframe) this.addLive(keyframe);
    for (const wake of this.wakes.splice(0)) wake();
    if (isCut) this.port.postMessage({ isCut });
  }

  /** Begins with another machine, which began at a count: its initial state, and the recording of what came before, or of its file.
   * @param {number} generation
   * @param {number} begun
   * @param {Memory & { bytes: Bytes }} first */
  begin(generation, begun, { state, words, bytes }) {
    this.makeVoid();
    this.activity.forgetAfter(-1);
    this.visits.forgetAfter(-1);
    const keyframes = new Keyframes(this.keyframes.budget), table = keyframes.tableOf(wordsOf(words));
    keyframes.add({ count: 0, state, table, sent: 0, isCheckpoint: true, isClaimed: false });
    Object.assign(this, { generation, keyframes, liveTable: keyframes.copied(table), claims: new Claims(this.library, readRecording(bytes)) });
    Object.assign(this, { inputs: new Inputs(), stacks: new Stacks(), cursor: null, isSettled: true, begun });
  }

  /** Drops what came after a count: the machine runs differently from there.
   * @param {number} count */
  cut(count) {
    this.makeVoid();
    this.activity.forgetAfter(count);
    this.visits.forgetAfter(count);
    this.stacks.forgetAfter(count);
    this.keyframes.forgetAfter(count);
    this.begun = Math.min(this.begun, count);
    if (this.cursor !== null && this.cursor > count) Object.assign(this, { cursor: null, isSettled: true });
  }

  /** Ends what is under way, at its next turn. Requests that wait for this machine stay. */
  makeVoid() {
    this.epoch++;
    this.looker.forget();
    this.searcher.forget();
    for (const follower of [this.calls, this.frames]) follower.forget();
    this.lists.errand.forget();
  }

  /** @param {LiveKeyframe} keyframe */
  addLive({ count, state, sent, isCheckpoint, numbers, bytes }) {
    this.keyframes.change(this.liveTable, numbers, wordsOf(bytes));
    this.keyframes.add({ count, state, sent, isCheckpoint, isClaimed: false, table: this.keyframes.copied(this.liveTable) });
    this.keyframes.thin(this.cursor ?? count);
  }

  /** Returns once the machine of a number is the one that is known, and known up to a count, as far as it has come.
   * @param {number | undefined} generation
   * @param {number} count */
  async known(generation, count) {
    if (!generation) throw new Ended();
    while (this.generation < generation) await this.heard();
    if (this.generation !== generation) throw new Ended();
    if (count <= this.end) return;
    const number = ++this.asked;
    this.port.postMessage({});
    while (this.answered < number) await this.heard();
    if (this.generation !== generation) throw new Ended();
  }

  heard() {
    return new Promise((resolve) => this.wakes.push(resolve));
  }

  /** Returns the counts of the keyframes, how many bytes they take, and how far the past and its inputs are known. */
  extent() {
    const { counts, bytes } = this.keyframes;
    return { counts, bytes, count: this.count, end: this.end, generation: this.generation };
  }

  // Running again

  /** Whether the state at a count may come from a claim: only where the live machine has not run.
   * @param {number} count */
  mayBeClaimed(count) {
    return count > this.count || count < this.begun;
  }

  /** Returns the last keyframe at or below a count from which a replayer may start.
   * @param {number} count
   * @param {boolean} mayBeClaimed */
  nearest(count, mayBeClaimed = false) {
    let at = this.keyframes.position(count);
    while (!mayBeClaimed && this.keyframes.items[at].isClaimed) at--;
    return this.keyframes.items[at];
  }

  /** Starts a replayer as near below a count as there is something to start from.
   * @param {Replayer} replayer
   * @param {number} count
   * @param {boolean} mayBeClaimed */
  start(replayer, count, mayBeClaimed) {
    const { claims } = this, keyframe = this.nearest(count, mayBeClaimed), claim = claims && mayBeClaimed ? claims.before(count) : 0;
    const isUsable = replayer.isSet && replayer.count <= count && (mayBeClaimed || !replayer.isClaimed);
    const own = isUsable ? replayer.count : -1;
    if (claims && claims.counts[claim] > Math.max(own, keyframe.count)) replayer.loadClaim(claims, claim);
    else if (own < keyframe.count) replayer.load(this.keyframes, keyframe);
  }

  /** Brings a replayer to a count. First, and after each call, `turn` lets others go first, and throws where nobody waits any more: a search
   * that is over must not move the machine that the next one uses. Before each call `heard` hears of it. In a gap between keyframes that
   * takes long it leaves some.
   * @param {Replayer} replayer
   * @param {number} count
   * @param {() => Promise<void>} turn
   * @param {{ mayBeClaimed?: boolean, heard?: (replayer: Replayer) => void }} how */
  async reach(replayer, count, turn, { mayBeClaimed = false, heard = () => {} } = {}) {
    await turn();
    this.start(replayer, count, mayBeClaimed);
    while (replayer.count < count) {
      heard(replayer);
      const { count: now } = replayer, gap = now - this.nearest(now, replayer.isClaimed).count;
      const isSlow = replayer.msTo(now + KEYFRAME_STEPS) >= KEYFRAME_MS;
      if (isSlow && gap >= KEYFRAME_STEPS) this.keep(replayer);
      replayer.advance(this.inputs, isSlow ? Math.min(count, now + KEYFRAME_STEPS - (gap % KEYFRAME_STEPS)) : count);
      await turn();
    }
  }

  /** Makes a keyframe of where a replayer is.
   * @param {Replayer} replayer */
  keep(replayer) {
    const { count, sent, isClaimed } = replayer, { count: there, table } = this.nearest(count, true);
    if (there === count) return;
    const own = this.keyframes.tableOf(wordsOf(replayer.words), table);
    this.keyframes.add({ count, state: replayer.state.slice(), sent, isClaimed, isCheckpoint: false, table: own });
    this.keyframes.thin(this.cursor ?? count);
  }

  // Looks

  /** Does a task with the machine at a count, after the looks before it. Returns null if another machine is open meanwhile, or if
   * `isOver`.
   * @template T
   * @param {{ generation?: number, at: number }} given
   * @param {Looked<T>} task
   * @param {() => boolean} isOver
   * @returns {Promise<T | null>} */
  look({ generation, at }, task, isOver = () => false) {
    if (!isWhole(at)) throw new Refused(`${at} is not a count`);
    return this.inTurn(() => this.lookNow({ generation, at }, task, isOver)).catch(unlessEnded(null));
  }

  /** Does the task. It begins again if the machine went back meanwhile.
   * @template T
   * @param {{ generation?: number, at: number }} given
   * @param {Looked<T>} task
   * @param {() => boolean} isOver
   * @returns {Promise<T>} */
  async lookNow({ generation, at }, task, isOver) {
    await this.known(generation, at);
    if (isOver()) throw new Ended();
    if (at > this.end) throw new Refused(`the machine has not come to ${at} yet`);
    const { epoch } = this;
    const turn = async () => {
      await nextTask();
      if (this.epoch !== epoch || isOver()) throw new Ended();
    };
    try {
      return await task(turn);
    } catch (error) {
      if (!(error instanceof Ended) || this.epoch === epoch) throw error;
      return this.lookNow({ generation, at }, task, isOver);
    }
  }

  /** Does a task after the looks before it. After the last one, keyframes are made near the cursor.
   * @template T
   * @param {() => Promise<T>} task
   * @returns {Promise<T>} */
  inTurn(task) {
    this.looking++;
    const done = this.looks.then(task);
    this.looks = done.catch(() => {}).then(() => {
      this.looking--;
      if (!this.looking && !this.isSettled) this.inTurn(() => this.settle()).catch(() => {});
    });
    return done;
  }

  /** Looks at a count. If that takes long, the news have a nearby state first. `quick` looks are those of a cursor that moves. With `hasEffects` there is also what
   * the last instructions did, unless what is shown may come of a claim. A newer look ends this one.
   * @param {Requests["peek"][0]} given
   * @returns {Promise<Moment | null>} */
  peek({ generation, at, quick = false, hasEffects = false }) {
    const number = ++this.peeks, begun = performance.now(), { looker } = this;
    let isReported = false;
    const heard = () => {
      if (isReported || performance.now() - begun + looker.msTo(at) <= SLOW_MS) return;
      isReported = true;
      this.report({ peeked: { generation: Number(generation), at, exact: false, ...pictureOf(looker) } });
    };
    return this.look({ generation, at }, async (turn) => {
      const mayBeClaimed = this.mayBeClaimed(at), isRead = hasEffects && !quick && !mayBeClaimed;
      const effects = isRead ? await this.recent.effectsBefore(at, MOST_BEFORE, turn, heard) : null;
      await this.reach(looker, at, turn, { mayBeClaimed, heard });
      Object.assign(this, { cursor: at, isSettled: quick });
      const listing = quick ? null : looker.listing(LISTED_BEFORE, LISTED_AFTER).map(([pc, word]) => ({ pc, word }));
      return { at, exact: true, ...pictureOf(looker), listing, effects };
    }, () => number !== this.peeks);
  }

  /** Makes keyframes near before the cursor where there are none, unless another look waits. */
  async settle() {
    const { cursor: at, epoch } = this, cursor = at ?? 0, mayBeClaimed = this.mayBeClaimed(cursor);
    const turn = async () => {
      await nextTask();
      if (this.looking > 1 || this.epoch !== epoch) throw new Ended();
    };
    for (const [number, distance] of NEAR.entries()) {
      const from = cursor - distance, to = cursor - (NEAR[number + 1] ?? 0);
      if (from <= 0 || this.nearest(to, mayBeClaimed).count >= from) continue;
      await this.reach(this.looker, from, turn, { mayBeClaimed });
      this.keep(this.looker);
      await turn();
    }
    this.isSettled = true;
  }

  /** Returns bytes of the memory at a count.
   * @param {Requests["memory"][0]} given */
  memory({ generation, at, from, length }) {
    if (!(isWhole(from) && isWhole(length) && from + length <= MEMORY_BYTES)) throw new Refused("these bytes are beyond the memory");
    return this.reached({ generation, at }, (looker) => ({ at, bytes: looker.words.slice(from, from + length) }));
  }

  /** Returns the bytes that the machine sent from one count up to another.
   * @param {Requests["output"][0]} given
   * @returns {Promise<{ bytes: Bytes } | null>} */
  output({ generation, at, from }) {
    return this.look({ generation, at }, async (turn) => {
      const { looker } = this, parts = [];
      await this.reach(looker, from, turn, { mayBeClaimed: this.mayBeClaimed(at) });
      while (looker.count < at) {
        parts.push(looker.advance(this.inputs, at));
        await turn();
      }
      return { bytes: joined(parts) };
    });
  }

  /** Returns all that the live machine needs to go on from a count: state, words, and how many bytes were sent.
   * @param {Requests["moment"][0]} given */
  moment({ generation, at }) {
    return this.reached({ generation, at }, (looker) => ({ at, generation: this.generation, ...copied(looker.at(looker.address)), sent: looker.sent }));
  }

  /** Does something with the machine at a count.
   * @template T
   * @param {{ generation?: number, at: number }} given
   * @param {(looker: Replayer) => T} task
   * @returns {Promise<T | null>} */
  reached({ generation, at }, task) {
    return this.look({ generation, at }, async (turn) => {
      await this.reach(this.looker, at, turn, { mayBeClaimed: this.mayBeClaimed(at) });
      return task(this.looker);
    });
  }
}

/** Returns what is shown of a machine at a moment.
 * @param {Replayer} replayer */
function pictureOf(replayer) {
  const { state, dots, sent, isClaimed, count } = replayer;
  return { count, state: state.slice(), dots: dots.slice(), sent, isClaimed };
}
