/* The page's workers run by node, for past.js: the page's own script asks them, as it does in a browser. */
const { readFileSync } = require("fs");
const { join } = require("path");
const { gunzipSync } = require("zlib");
const threads = require("worker_threads");

const [, , PAGE_PATH, FOLDER] = process.argv;
const html = readFileSync(PAGE_PATH, "utf8");
const part = (name) => new RegExp(`<script[^>]* id="g-${name}">([^]*?)</script>`).exec(html)[1];
const unpacked = (name) => gunzipSync(Buffer.from(part(name), "base64"));
const wasm = new WebAssembly.Module(unpacked("module"));
const workerScript = unpacked("worker").toString();

// What a worker's thread runs: the page's worker script over node's messages. A browser takes its messages in turn; node would take all
// of a channel between two of the page's.
const THREAD = `
const { parentPort } = require("worker_threads");
globalThis.MessageChannel = class {
  constructor() {
    this.port1 = {};
    this.port2 = { postMessage: (data) => setImmediate(() => this.port1.onmessage({ data })) };
  }
};
globalThis.postMessage = (message) => parentPort.postMessage(message);
globalThis.onmessage = null;
parentPort.on("message", (data) => onmessage({ data }));
(0, eval)(require("worker_threads").workerData);
`;

globalThis.Worker = class {
  constructor(script) {
    this.thread = new threads.Worker(THREAD, { eval: true, workerData: script });
    this.thread.on("message", (data) => this.onmessage({ data }));
    this.thread.on("error", (error) => fail(`a worker failed: ${error.stack}`));
  }

  postMessage(message, transfer) {
    this.thread.postMessage(message, transfer);
  }

  terminate() {
    this.thread.terminate();
  }
};

globalThis.navigator ??= { hardwareConcurrency: 4 };

// The worker's classes, for runs that the answers are compared with; and the page's own, which waits for the whole page in a report.
globalThis.onmessage = null;
globalThis.postMessage = () => {};
globalThis.addEventListener = () => {};
const withLines = (script, lines) => script.replace(/\}\)\(\);\s*$/, (end) => `${lines}\n${end}`);
(0, eval)(withLines(workerScript, "globalThis.kit = { Library, Replayer, Keyframes, History, readSession, readRecording, callAt, countOf, field, AT };"));
globalThis.document = { readyState: "loading", getElementById: () => ({}) };
(0, eval)(withLines(unpacked("main").toString(), "globalThis.ofPage = { Past, Helper, setWorkerScript };"));
const { Library, Replayer, Keyframes, History, readSession, readRecording, callAt, countOf, field, AT } = kit;
const { Past, Helper, setWorkerScript } = ofPage;

function fail(why) {
  console.error(why);
  process.exit(1);
}

function expect(what, found, wanted) {
  const [one, other] = [found, wanted].map((value) => JSON.stringify(value, encoded));
  if (one !== other) fail(`${what}: ${one?.slice(0, 400)} in place of ${other?.slice(0, 400)}`);
}

const encoded = (_, value) => (ArrayBuffer.isView(value) ? Buffer.from(value.buffer, value.byteOffset, value.byteLength).toString("base64") : value);

/** Numbers that look random, the same in each run. */
function chance(seed) {
  let state = seed;
  return (below) => {
    state = (Math.imul(state, 1664525) + 1013904223) >>> 0;
    return Math.floor(state / 2 ** 32 * below);
  };
}

/** The page's two workers: that of the live machine, and that of its past. */
class Desk {
  constructor(script = workerScript) {
    setWorkerScript(script);
    this.news = [];
    this.frames = [];
    this.live = new Helper(wasm, (news) => this.frames.push(news));
    this.past = new Past(wasm, (news) => this.news.push(news));
    this.past.connect(this.live);
  }

  async open(ask, given) {
    const opened = await this.live.ask(ask, given);
    this.past.begin(opened.generation);
    return opened;
  }

  openSession(session) {
    return this.open("openSession", { bytes: new TextEncoder().encode(JSON.stringify(session)) });
  }

  /** Runs as fast as it goes up to a count, also over the end of a replay. */
  async run(goal, seconds = 0) {
    for (let last; !last || last.on || countOf(last.state) < goal; last = this.frames.findLast((news) => news.state)) {
      if (last && !last.on) await this.live.ask("setRun", { on: true, fast: true, goal, seconds });
      await new Promise((resolve) => setTimeout(resolve, 5));
    }
  }

  end() {
    this.live.end();
    this.past.helper.end();
  }
}

const example = (name) => JSON.parse(readFileSync(join(FOLDER, `${name}.json`)));
const labels = (name) => example("labels")[name];

/** A machine that is run from the beginning of a session. */
class Fresh {
  constructor(session) {
    const { state, words, inputs } = readSession(new TextEncoder().encode(JSON.stringify(session)));
    Object.assign(this, { machine: new Replayer(new Library(wasm)), first: { state, words }, inputs });
    this.begin();
  }

  begin() {
    this.machine.put(this.machine.address, this.first);
    this.machine.sent = 0;
  }

  /** The machine at a count that is not before the last one, or run from the beginning. */
  at(count) {
    const { machine } = this;
    if (machine.count > count) this.begin();
    while (machine.count < count) machine.advance(this.inputs, count);
    return machine;
  }

  /** The hit of a search from the beginning up to a count, by one call. */
  find(to, conditions, isLast) {
    const { machine, inputs } = this;
    this.begin();
    return machine.library.find(machine.address, inputs.bytes, to, conditions, isLast);
  }
}

/** Compares a moment with the machine that was run to it. */
function expectMoment(what, { state, dots }, machine) {
  expect(`${what}: the state`, state, machine.state);
  expect(`${what}: the dots`, Buffer.compare(dots, machine.dots), 0);
}

const sorted = (numbers) => [...numbers].sort((one, other) => one - other);

/** A part of the drawing program's run, with inputs that look random. */
function drawing(seed, many, apart) {
  const random = chance(seed);
  const value = { mouse: () => random(1024) + (random(700) << 12) + (random(2) << 26), key: () => 32 + random(90), serial: () => random(256) };
  const inputs = Array.from({ length: many }, (_, at) => {
    const kind = Object.keys(value)[random(3)];
    return [1000 + at * apart + random(apart - 1000), kind, value[kind]()];
  });
  return { ...example("draw"), inputs, checkpoints: [5000000, apart * many] };
}

/** The script of the workers with other numbers. */
function withNumbers(numbers) {
  let script = workerScript;
  for (const [name, value] of Object.entries(numbers)) {
    const pattern = new RegExp(`\\b${name}=[\\de]+`);
    if (!pattern.test(script)) fail(`the worker has no ${name}`);
    script = script.replace(pattern, `${name}=${value}`);
  }
  return script;
}

// Kinds of conditions, as include/galluspa.h numbers them, and of inputs.
const COUNTER = 1, STORE = 2, CHANGE = 3, LOAD = 4, BECOMES = 5, SENDS = 6, SENDS_BYTE = 7, TAKES = 8, STOPS = 9;
const KIND_NAMES = ["", "timer", "switches", "mouse", "key", "serial"];

/** Returns the workers' script in which keyframes but the first have a false bit of memory, in the word with this number. */
function withFalseKeyframes(number) {
  const [right, wrong] = ["this.state.set(keyframe.state);", `this.state.set(keyframe.state); if (keyframe.count) wordsOf(this.words)[${number}] ^= 1;`];
  if (workerScript.split(right).length !== 2) fail("the worker loads no keyframe");
  return workerScript.replace(right, wrong);
}

/** Asks something long three times, ends it each time, and returns the fewest ms that this took. */
async function stopped(desk, what, ask) {
  const took = [];
  for (let k = 0; k < 3; k++) {
    const asked = ask(k);
    await new Promise((resolve) => setTimeout(resolve, 150));
    const begun = performance.now();
    await desk.past.stop();
    expect(`${what} that was stopped`, await asked, { stopped: true });
    took.push(performance.now() - begun);
  }
  // (whole, it takes many seconds; what else runs may hold a worker up for some tenths)
  if (Math.min(...took) > 1000) fail(`to stop ${what} took ${took} ms`);
  return Math.min(...took).toFixed(0);
}

/** Runs tasks in their order, and ends node. */
async function main(tasks) {
  try {
    for (const task of tasks) await task();
  } catch (error) {
    fail(error.stack ?? error);
  }
  // An end before all is written would cut it off.
  process.stdout.write("", () => process.exit(0));
}

module.exports = {
  AT, FOLDER, Desk, Fresh, History, Keyframes, Library, callAt, chance, countOf, drawing, example, expect, expectMoment, fail, field, labels,
  main, readRecording, readSession, sorted, stopped, wasm, withFalseKeyframes, withNumbers, COUNTER, STORE, CHANGE, LOAD, BECOMES, SENDS, SENDS_BYTE, TAKES, STOPS, KIND_NAMES,
};
