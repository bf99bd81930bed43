/* node functions.mjs PAGE.html : functions of the page's modules over the module of a page. It reads lines of JSON, `[function, {..}]`, of which texts in base64
 * under the name `base64` become `bytes`, and prints what each returns, with bytes in base64. esbuild bundles it for node. */
import { readFileSync } from "fs";
import readline from "readline";
import { gunzipSync } from "zlib";
import { chained } from "../../web/engine/chains.js";
import { Library } from "../../web/engine/library.js";
import { Machine } from "../../web/engine/machine.js";
import { SerialLine } from "../../web/engine/serialline.js";
import { Checker, firstTable, sliceOf } from "../../web/engine/slices.js";
import { instruction, operandsOf } from "../../web/formats/instructions.js";
import { unlessRefused } from "../../web/formats/refused.js";
import { readSession } from "../../web/formats/sessions.js";
import { differingPages, MEMORY_BYTES } from "../../web/formats/states.js";

const TURN_STEPS = 25000000 / 60, PIECE_STEPS = Math.ceil(TURN_STEPS / 48);
const html = readFileSync(process.argv[2], "utf8"), [, packed] = /<script[^>]* id="g-module">([^]*?)<\/script>/.exec(html);
const machine = new Machine(new Library(new WebAssembly.Module(gunzipSync(Buffer.from(packed, "base64")))));

/** The slices of a recording between checkpoints of these numbers. */
function cut({ bytes, ends }) {
  const recording = machine.lawful(bytes), table = firstTable(recording);
  return ends.slice(1).map((end, at) => sliceOf(recording, table, ends[at], end));
}

/** The line that slices of about `size` steps make of a recording, and in how many pieces they are run. */
function join({ bytes, size }) {
  let pieces = 0;
  return unlessRefused(() => ({ ...new Checker(machine, size).line(machine.lawful(bytes), () => pieces++), pieces }));
}

/** What becomes of serial bytes that are sent to the machine of a session: its recording after some turns of 1/60 s, in how many pieces they ran, how many bytes
 * wait after each turn, and the processor's time in ms. */
function send({ bytes, serial, turns }) {
  const line = new SerialLine(), left = [], begun = process.cpuUsage();
  let pieces = 0;
  machine.begin(readSession(bytes));
  machine.arrivals.type({ serial: Buffer.from(serial, "base64") });
  for (let turn = 1; turn <= turns; turn++) {
    for (const to = Math.floor(turn * TURN_STEPS); machine.count < to; pieces++) {
      machine.advance(machine.feed() ? line.give(machine, to, machine.count + PIECE_STEPS) : to);
      machine.takeBack();
    }
    left.push(machine.arrivals.serial.length);
  }
  const { user, system } = process.cpuUsage(begun);
  return { recording: machine.recorded().bytes, pieces, left, ms: (user + system) / 1000 };
}

/** The least time of a processor that a task takes, in ms, of a few turns: what else the machine does meanwhile does not count. */
function leastTime(task) {
  return Math.min(...Array.from({ length: 30 }, () => {
    const begun = process.cpuUsage();
    task();
    const { user, system } = process.cpuUsage(begun);
    return (user + system) / 1000;
  }));
}

const FUNCTIONS = {
  cut,
  chain: (given) => chained(cut(given)),
  join,
  send,
  instruction: ({ word, at }) => [...instruction(word, at), operandsOf(word)],
  /** The time in which two memories are compared. */
  comparing: () => leastTime(() => differingPages(new Uint8Array(MEMORY_BYTES), new Uint8Array(MEMORY_BYTES))),
  /** How many inputs a recording has, and the time in which what was typed is passed on before them. */
  feeding({ bytes }) {
    machine.beginRecording(machine.lawful(bytes), 0);
    return [machine.inputs.length, leastTime(() => machine.feed())];
  },
};

const encoded = (_, value) => (value instanceof Uint8Array ? Buffer.from(value).toString("base64") : value);
for await (const line of readline.createInterface({ input: process.stdin })) {
  const [name, { base64, ...given }] = JSON.parse(line), bytes = base64 === undefined ? {} : { bytes: new Uint8Array(Buffer.from(base64, "base64")) };
  console.log(JSON.stringify(FUNCTIONS[name]({ ...given, ...bytes }), encoded));
}
