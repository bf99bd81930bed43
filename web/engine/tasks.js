// @ts-check
/* Tasks of the worker that looks into the past: how they let others go first, and how they end. */
import { Refused } from "../formats/refused.js";
import { Replayer } from "./replayer.js";

/** Signals an obsolete request: something newer came, or another machine. */
export class Ended extends Error {}

const tasks = { channel: new MessageChannel(), waiting: /** @type {(() => void)[]} */ ([]) };
tasks.channel.port1.onmessage = () => tasks.waiting.shift()?.();

/** Lets the worker take its messages.
 * @returns {Promise<void>} */
export function nextTask() {
  return new Promise((resolve) => {
    tasks.waiting.push(resolve);
    tasks.channel.port2.postMessage(null);
  });
}

/** Whether a value is a whole number, as counts and addresses are.
 * @param {unknown} value
 * @returns {value is number} */
export const isWhole = (value) => typeof value === "number" && Number.isSafeInteger(value) && value >= 0;

/** Returns a handler of errors that answers an obsolete request with a value.
 * @template T
 * @param {T} answer
 * @returns {(error: unknown) => T} */
export function unlessEnded(answer) {
  return (error) => {
    if (!(error instanceof Ended)) throw error;
    return answer;
  };
}

/** Errands that use one machine, one after the other: looks come first, and a newer one ends the one that is under way. */
export class Errand {
  asked = 0;
  /** @type {Promise<unknown>} */
  underWay = Promise.resolve();
  /** @type {Replayer | null} */
  own = null;

  /** @param {import("../workers/past.js").History} history */
  constructor(history) {
    this.history = history;
  }

  /** The machine, which is made once it is needed. */
  get replayer() {
    return (this.own ??= new Replayer(this.history.library));
  }

  /** Forgets where the machine is. */
  forget() {
    this.own?.forget();
  }

  /** Does a task about the machine up to a count, with a turn between its pieces. Returns null if it was ended.
   * @template T
   * @param {{ generation?: number, to: number }} given
   * @param {(turn: () => Promise<void>) => Promise<T>} task
   * @returns {Promise<T | null>} */
  run(given, task) {
    const number = ++this.asked, isNewest = () => number === this.asked, done = this.underWay.then(() => this.begun(given, task, isNewest)).catch(unlessEnded(null));
    this.underWay = done.catch(() => {});
    return done;
  }

  /** Ends what is under way. */
  end() {
    this.asked++;
  }

  /**
   * @template T
   * @param {{ generation?: number, to: number }} given
   * @param {(turn: () => Promise<void>) => Promise<T>} task
   * @param {() => boolean} isNewest
   */
  async begun({ generation, to }, task, isNewest) {
    const { history } = this;
    if (!isNewest()) throw new Ended();
    await history.known(generation, to);
    if (to > history.end) throw new Refused(`the machine has not come to ${to} yet`);
    const { epoch } = history;
    return task(async () => {
      await nextTask();
      while (history.looking) await history.looks;
      if (history.epoch !== epoch || !isNewest()) throw new Ended();
    });
  }
}
