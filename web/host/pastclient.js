// @ts-check
/* The page's way into the past of the live machine: it asks a worker that runs the past again (past.js), to which the live worker reports
 * through a channel between the two. Answers about a machine that is no longer open are null. */
import { Helper, Refusal } from "./requests.js";

// The search pool has at most MOST_SEARCHERS workers. The page's own thread and the worker of the past need a processor each.
const MOST_SEARCHERS = 3, OTHER_THREADS = 2;

/** @typedef {{ at: number, quick: boolean, hasEffects: boolean, resolve: (moment: Moment | null) => void, reject: (error: Error) => void }} Look */

export class Past {
  // It is there once the live machine is connected.
  /** @type {Helper} */
  helper = Object.create(null);
  generation = 0;
  // The look that waits, whether one is under way, and whether that takes long.
  /** @type {Look | null} */
  wanted = null;
  isLooking = false;
  isSlow = false;
  goOn = () => {};
  /** @type {Searcher[]} */
  searchPool = [];
  requests = 0;

  /** `news` receives what comes before an answer, `{peeked}`, `{searched}` and `{lastWriter}`, and that the worker is broken. The worker starts
   * when the live machine's is connected.
   * @param {WebAssembly.Module} module
   * @param {(news: PastNews) => void} news */
  constructor(module, news) {
    this.module = module;
    this.news = news;
  }

  /** Makes the worker of the live machine report its past from now on.
   * @param {Helper} live */
  connect(live) {
    this.helper = new Helper(this.module, (news) => this.heard(news));
    this.join(live, "connect", "listen");
  }

  /** Gives the two ends of a channel to another worker and to that of the past, each with what it is asked.
   * @param {Helper} other
   * @param {string} ask
   * @param {string} own */
  join(other, ask, own) {
    const { port1, port2 } = new MessageChannel();
    other.worker.postMessage({ ask, port: port1 }, [port1]);
    this.helper.worker.postMessage({ ask: own, port: port2 }, [port2]);
  }

  /** Starts the workers that search, the number of CPUs less those that the page needs. */
  startSearchers() {
    const size = Math.max(1, Math.min(MOST_SEARCHERS, (navigator.hardwareConcurrency || 1) - OTHER_THREADS));
    const failed = this.searchPool.find(({ broken }) => broken);
    if (failed) throw new Refusal(failed.broken);
    while (this.searchPool.length < size) {
      const searcher = new Searcher(this);
      this.searchPool.push(searcher);
      this.join(searcher, "serve", "addSearcher");
    }
  }

  /** Says that another machine is open, by its number. What is asked of the one before is void.
   * @param {number} generation */
  begin(generation) {
    this.generation = generation;
    this.wanted?.resolve(null);
    this.wanted = null;
  }

  /** @param {PastNews} news */
  heard(news) {
    const { generation } = Object.values(news)[0] ?? {};
    if (generation !== undefined && generation !== this.generation) return;
    if (news.peeked) this.isSlow = true;
    if (news.peeked && this.wanted) this.goOn();
    this.news(news);
  }

  /** Asks something about the machine that is open. Returns null if none is, or another one by the time of the answer: the first frame of a machine comes
   * before the answer that it is open.
   * @template {RequestName} Name
   * @param {Name} ask
   * @param {Requests[Name][0]} given
   * @returns {Promise<Requests[Name][1] | null>} */
  async ask(ask, given = {}) {
    const { generation } = this, answer = generation ? await this.helper.ask(ask, { generation, ...given }) : null;
    return generation === this.generation ? answer : null;
  }

  /** Looks at a count. One look is under way at a time, unless it takes long; of those that wait the newest one is done next, and the
   * others are null. A quick look is that of a cursor that moves, and has no listing.
   * @param {number} at
   * @param {{ quick?: boolean, hasEffects?: boolean }} how
   * @returns {Promise<Moment | null>} */
  peek(at, { quick = false, hasEffects = false } = {}) {
    this.wanted?.resolve(null);
    const answer = new Promise((resolve, reject) => (this.wanted = { at, quick, hasEffects, resolve, reject }));
    if (!this.isLooking) this.lookOn();
    else if (this.isSlow) this.goOn();
    return answer;
  }

  async lookOn() {
    this.isLooking = true;
    for (let look; (look = this.wanted); ) {
      const { at, quick, hasEffects, resolve, reject } = look;
      Object.assign(this, { wanted: null, isSlow: false });
      const isSlow = new Promise((goOn) => (this.goOn = () => goOn(undefined)));
      await Promise.race([this.ask("peek", { at, quick, hasEffects }).then(resolve, reject), isSlow]);
    }
    this.isLooking = false;
  }

  /** Returns bytes of the memory at a count.
   * @param {number} at
   * @param {number} from
   * @param {number} length */
  memory(at, from, length) {
    return this.ask("memory", { at, from, length });
  }

  /** Returns what the live machine needs to go on from a count: the request `takeOver` takes it.
   * @param {number} at */
  moment(at) {
    return this.ask("moment", { at });
  }

  /** Returns the instructions before and after a count.
   * @param {number} at
   * @param {number} before
   * @param {number} after */
  around(at, before, after) {
    return this.ask("around", { at, before, after });
  }

  /** Returns a number for a search: what is posted of it has that number. */
  numbered() {
    return ++this.requests;
  }

  /** Asks for something that the search pool searches.
   * @template {RequestName} Name
   * @param {Name} ask
   * @param {Requests[Name][0]} given */
  async searching(ask, given) {
    this.startSearchers();
    return this.ask(ask, given);
  }

  /** Finds the first count in [from, to) at which a condition holds, or the last one. What the past says of it between
   * has the number of the request.
   * @param {Requests["find"][0]} wanted */
  find({ from = 0, to, last = false, conditions, request }) {
    return this.searching("find", { from, to, last, conditions, request });
  }

  /** Finds the instruction that wrote what is there at a count.
   * @param {Requests["lastWriter"][0]} asked */
  lastWriter({ before, ...what }) {
    return this.searching("lastWriter", { before, ...what });
  }

  /** Finds where a value comes from, link by link.
   * @param {Requests["why"][0]} asked */
  why(asked) {
    return this.searching("why", asked);
  }

  /** Runs the machine again from count 0 to a count, and returns the first part in which it is not what is shown there, or null.
   * @param {number} at */
  recheck(at) {
    return this.ask("recheck", { at });
  }

  /** Ends the search that is under way. */
  stop() {
    return this.ask("stopSearch");
  }

  /** Returns the calls that are open at a count. A newer question for the same place ends this one, whose answer is null. What the past says of it between
   * has the number of the request.
   * @param {number} at
   * @param {string} place
   * @param {number} [request] */
  calls(at, place, request) {
    return this.ask("calls", { at, place, request });
  }

  /** Returns the first count after one, up to another, at which fewer than `open` of the calls are open that were open at the first; or null.
   * @param {Requests["ending"][0]} given */
  ending(given) {
    return this.ask("ending", given);
  }

  /** Returns the calls of a span, as far as they are known after a while.
   * @param {Requests["frames"][0]} given */
  frames(given) {
    return this.ask("frames", given);
  }

  /** Returns the counts of the keyframes, how many bytes they take, and how far the past is known. */
  keyframes() {
    return this.ask("keyframes");
  }
}

/** A worker of the search pool. If it fails, its search ends, and the page receives the error. */
class Searcher extends Helper {
  /** @param {Past} past */
  constructor(past) {
    super(past.module, past.news);
    this.past = past;
  }

  /** @param {ErrorEvent | MessageEvent} event */
  fail(event) {
    super.fail(event);
    this.past.news({ broken: this.broken });
    this.past.stop().catch(() => {});
  }
}
