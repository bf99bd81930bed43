// @ts-check
/* Requests to a worker (worker.js). Each has an answer of its own, or a refusal of its own. */
import { el } from "./elements.js";
import { begunWorker } from "./packed.js";

// Where the workers have their script from, what kind of script it is, a worker that runs it already, and how many requests were made.
const scripts = { worker: "", type: /** @type {WorkerType} */ ("classic"), begun: /** @type {Begun | null} */ (null), asked: 0 };

/** Says where the workers have their script from.
 * @param {string} worker
 * @param {WorkerType} type */
function setWorkerScript(worker, type = "classic") {
  Object.assign(scripts, { worker, type });
}

/** Takes the script of the workers from the page that contains it. */
export async function placeWorker() {
  const { source } = el("worker").dataset;
  if (source) return setWorkerScript(source, "module");
  scripts.begun = await begunWorker("worker");
  setWorkerScript(scripts.begun.address);
}

/** Returns a worker: the one that was begun, once, with what that answers, or a new one. */
function takeWorker() {
  const { begun, worker: script, type } = scripts, worker = begun?.worker ?? null;
  scripts.begun = null;
  return { worker: worker ?? new Worker(script, { type }), started: worker && begun ? begun.started : null };
}

/** @typedef {import("./packed.js").Begun} Begun */

/** Bad input, or a request that cannot be met. Its message is one line for the user. */
export class Refusal extends Error {}

/** Returns the answer in what a worker posted, or throws its refusal.
 * @param {{ answer?: any } & Failure} data */
function answerIn(data) {
  if ("answer" in data) return data.answer;
  throw new Refusal(data.refused ?? data.broken);
}

/** A worker that answers requests. Messages that answer no request go to `news`. */
export class Helper {
  /** @type {Map<number, { resolve: (answer: any) => void, reject: (error: Refusal) => void }>} */
  waits = new Map();
  broken = "";

  /** The worker is made at once, and asked to start, unless it was begun with the module. Nothing else is asked before it is `ready`, with the module.
   * @param {WebAssembly.Module | (() => Promise<WebAssembly.Module>)} module what the worker starts with, or how to get it
   * @param {(news: any) => void} news */
  constructor(module, news) {
    const { worker, started } = takeWorker();
    this.worker = worker;
    this.worker.onmessage = ({ data }) => (data.id === undefined ? news(data) : this.settle(data));
    this.worker.onerror = (event) => this.fail(event);
    this.worker.onmessageerror = (event) => this.fail(event);
    this.ready = started?.then(answerIn) ?? this.start(module);
    // A worker that does not start rejects its requests, too: callers see that error.
    this.ready.catch(() => {});
  }

  /** @param {WebAssembly.Module | (() => Promise<WebAssembly.Module>)} given */
  async start(given) {
    const module = typeof given === "function" ? await given() : given;
    await this.ask("start", { module });
    return module;
  }

  /** Asks for something. A request that is refused, or that a broken worker cannot answer, is rejected with a refusal.
   * @template {RequestName} Name
   * @param {Name} ask
   * @param {Requests[Name][0]} given
   * @returns {Promise<Requests[Name][1]>} */
  ask(ask, given = {}) {
    if (this.broken) return Promise.reject(new Refusal(this.broken));
    const id = ++scripts.asked;
    const answer = new Promise((resolve, reject) => this.waits.set(id, { resolve, reject }));
    this.worker.postMessage({ id, ask, ...given });
    return answer;
  }

  /** @param {{ id: number, answer?: any } & Failure} data */
  settle(data) {
    const wait = this.waits.get(data.id);
    this.waits.delete(data.id);
    try {
      wait?.resolve(answerIn(data));
    } catch (error) {
      wait?.reject(/** @type {Refusal} */ (error));
    }
  }

  /** Rejects what waits, and all that is asked later: the worker is broken.
   * @param {ErrorEvent | MessageEvent} event */
  fail(event) {
    event.preventDefault();
    this.broken = `the worker failed: ${event instanceof ErrorEvent ? event.message : "a message could not be read"}`;
    for (const { reject } of this.waits.values()) reject(new Refusal(this.broken));
    this.waits.clear();
  }

  /** Ends the worker. Requests without an answer get undefined. */
  end() {
    this.worker.terminate();
    for (const { resolve } of this.waits.values()) resolve(undefined);
    this.waits.clear();
  }
}
