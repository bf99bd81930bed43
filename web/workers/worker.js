// @ts-check
/* The script of the workers: it answers the page's requests. Five kinds of workers run it. One has the live machine and records it
 * (live.js). Another checks (checking.js). A third one looks into the past (past.js), which the live one reports through a port;
 * the search pool searches it. The last one assembles sources (assembling.js). A request is `{id, ask, ..}`, and its answer
 * `{id, answer}`, `{id, refused}` with a line for the user, or `{id, broken}` for a bug in this script. Messages that answer no request
 * have no id, and a request without an id gets no answer. */
import { ASSEMBLER } from "./assembling.js";
import { CHECKING } from "./checking.js";
import { faultOf, library, machine, start, startPacked } from "./context.js";
import { LIVE } from "./live.js";
import { QUERIES } from "./livequeries.js";
import { History } from "./past.js";
import { searchedOn } from "../engine/searchpool.js";

// Only the worker of the past has it, once it is connected to the live machine.
/** @type {History} */
let history;

const PAST = {
  /** Hears the live machine through a port.
   * @param {{ port: MessagePort }} given */
  listen({ port }) {
    history ??= new History(library, (news) => postMessage(news));
    history.listen(port);
  },
  peek: (/** @type {Requests["peek"][0]} */ given) => history.peek(given),
  memory: (/** @type {Requests["memory"][0]} */ given) => history.memory(given),
  output: (/** @type {Requests["output"][0]} */ given) => history.output(given),
  moment: (/** @type {Requests["moment"][0]} */ given) => history.moment(given),
  around: (/** @type {Requests["around"][0]} */ given) => history.recent.around(given),
  effects: (/** @type {Requests["effects"][0]} */ given) => history.recent.effects(given),
  find: (/** @type {Requests["find"][0]} */ given) => history.finder.find(given),
  hits: (/** @type {Requests["hits"][0]} */ given) => history.lists.hits(given),
  lastWriter: (/** @type {Requests["lastWriter"][0]} */ given) => history.finder.lastWriter(given),
  why: (/** @type {Requests["why"][0]} */ given) => history.writers.why(given),
  recheck: (/** @type {Requests["recheck"][0]} */ given) => history.finder.recheck(given),
  changes: (/** @type {Requests["changes"][0]} */ given) => history.activity.changes(given),
  visits: (/** @type {Requests["visits"][0]} */ given) => history.visits.visits(given),
  calls: (/** @type {Requests["calls"][0]} */ given) => history.calls.open(given),
  ending: (/** @type {Requests["ending"][0]} */ given) => history.calls.ending(given),
  stopCalls: (/** @type {Requests["stopCalls"][0]} */ given) => history.calls.stop(given),
  frames: (/** @type {Requests["frames"][0]} */ given) => history.frames.frames(given),
  stopSearch: () => history.finder.stop(),
  /** Takes one more worker for searches, by its port.
   * @param {{ port: MessagePort }} given */
  addSearcher: ({ port }) => history.finder.searchPool.join(port),
  /** Returns the counts of the keyframes, how many bytes they take, and how far the past is known. */
  keyframes: () => history.extent(),
};

// The search pool

const SEARCH_POOL = {
  /** Searches the pieces that come through a port.
   * @param {{ port: MessagePort }} given */
  serve({ port }) {
    port.onmessage = ({ data }) => {
      try {
        port.postMessage({ found: searchedOn(machine, data) });
      } catch (error) {
        port.postMessage(faultOf(error));
      }
    };
  },
};

// All

/** @type {{ [ask: string]: (given: any) => unknown }} */
const TASKS = { start, startPacked, ...LIVE, ...QUERIES, ...CHECKING, ...PAST, ...SEARCH_POOL, ...ASSEMBLER };

onmessage = ({ data: { id, ask, ...given } }) => {
  /** @param {object} message */
  const answer = (message) => id !== undefined && postMessage({ id, ...message });
  try {
    const task = TASKS[ask], made = task(given);
    if (made instanceof Promise) made.then((later) => answer({ answer: later }), (error) => answer(faultOf(error)));
    else answer({ answer: made });
  } catch (error) {
    answer(faultOf(error));
  }
};
