/* node answers.js PAGE.html : runs the script of the page's workers, as it is, without a browser. It reads lines of JSON, `[request, {..}]`, of which texts in
 * base64 under the name `base64` become `bytes`, and prints a line of JSON for each: `{answer}`, `{refused}` or `{broken}`, with bytes in base64. `record` opens a
 * session, runs it to its last checkpoint, and has the recording. */
"use strict";

const { readFileSync } = require("fs");
const { gunzipSync } = require("zlib");
const readline = require("readline");

const html = readFileSync(process.argv[2], "utf8");
const part = (name) => new RegExp(`<script[^>]* id="g-${name}">([^]*?)</script>`).exec(html)[1];
const unpacked = (name) => gunzipSync(Buffer.from(part(name), "base64"));

let said = null, frame = null;
globalThis.onmessage = null;
globalThis.postMessage = (news) => {
  if (news.id !== undefined) said = news;
  else if (news.state) frame = news;
};
(0, eval)(unpacked("worker").toString());

const encoded = (_, value) => (value instanceof Uint8Array ? Buffer.from(value).toString("base64") : value);

/** Waits until something is so: the worker works in turns. */
async function until(is) {
  while (!is()) await new Promise((done) => setImmediate(done));
}

/** Asks the worker, and returns what it says once it has answered. */
async function told(request) {
  said = null;
  onmessage({ data: { id: 1, ...request } });
  await until(() => said);
  return said;
}

/** Runs the session that was opened to its last checkpoint. Returns its recording. */
async function recorded({ generation }) {
  const { answer: { planned } } = await told({ ask: "lanes", from: 0, to: 1, columns: 1, of: generation });
  frame = null;
  await told({ ask: "setRun", on: true, fast: true, goal: planned.at(-1) ?? 0 });
  await until(() => frame && !frame.on);
  return told({ ask: "recording" });
}

async function answerTo([ask, { base64, ...given }]) {
  const bytes = base64 === undefined ? {} : { bytes: new Uint8Array(Buffer.from(base64, "base64")) };
  const answer = await told({ ask: ask === "record" ? "openSession" : ask, ...given, ...bytes });
  return ask === "record" && "answer" in answer ? recorded(answer.answer) : answer;
}

async function answerAll() {
  await told({ ask: "start", module: new WebAssembly.Module(unpacked("module")) });
  for await (const line of readline.createInterface({ input: process.stdin })) {
    console.log(JSON.stringify({ ...(await answerTo(JSON.parse(line))), id: undefined }, encoded));
  }
  // The worker's channel would keep node from ending; and an end before all is written would cut it off.
  process.stdout.write("", () => process.exit(0));
}

answerAll();
