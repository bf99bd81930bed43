// @ts-check
/* A search in the past that is under way: how others go first, how it is ended, and how it says how far it is. */
import { CALL_MS } from "./replayer.js";
import { Ended, nextTask, unlessEnded } from "./tasks.js";

const PROGRESS_MS = 100;

/** A search that is under way, with the number that the page gave its request. */
export class SearchTask {
  turned = -Infinity;
  isOver = false;
  stop = () => {};
  // Others call it, too.
  turn = () => this.letOthersGoFirst();
  /** @type {Promise<{ stopped: boolean }>} */
  stopped = new Promise((resolve) => (this.stop = () => resolve({ stopped: true })));

  /**
   * @param {import("../workers/past.js").History} history
   * @param {number | undefined} generation
   * @param {number} [request]
   */
  constructor(history, generation, request) {
    this.history = history;
    this.generation = generation;
    this.request = request;
    this.epoch = history.epoch;
  }

  end() {
    this.isOver = true;
    this.stop();
  }

  /** Returns what a task answers, or that the search was stopped.
   * @template T
   * @param {() => Promise<T>} task
   * @returns {Promise<T | { stopped: boolean }>} */
  answered(task) {
    return Promise.race([task().catch(unlessEnded({ stopped: true })), this.stopped]);
  }

  /** Lets other tasks run first, looks before all. Throws if the search has ended, or the machine went back. */
  async letOthersGoFirst() {
    const { history } = this;
    if (performance.now() - this.turned > CALL_MS) {
      await nextTask();
      while (history.looking) await history.looks;
      this.turned = performance.now();
    }
    if (this.isOver || history.epoch !== this.epoch) throw new Ended();
  }

  /** Posts news, unless the search has ended.
   * @param {string} kind
   * @param {{}} news */
  report(kind, news) {
    const { history, generation, request } = this;
    if (!this.isOver) history.report({ [kind]: { generation, request, ...news } });
  }

  /** Returns a function that posts progress periodically.
   * @param {number} of
   * @returns {(done: number) => void} */
  progress(of) {
    let due = performance.now() + PROGRESS_MS;
    return (done) => {
      const now = performance.now();
      if (now < due) return;
      due = now + PROGRESS_MS;
      this.report("searched", { done, of });
    };
  }
}
