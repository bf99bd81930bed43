/* node understanding.js PAGE.html FOLDER : what the page's workers answer of where values come from, on the sessions of a folder that
 * test_understanding.py makes. It prints `values NAME NUMBER JSON` for each question, and ends with status 1 at the first thing that is wrong. */
"use strict";

const { readFileSync } = require("fs");
const { join } = require("path");
const { FOLDER, COUNTER, Desk, example, expect, main, stopped, withNumbers } = require("./workers.js");

// Keyframes and searches have borders at few counts.
const SMALL = { KEYFRAME_STEPS: 100, KEYFRAME_MS: 0, FIRST_PIECE: 30, MOST_PIECE: 100, NEAR_STEPS: 16, FAR_STEPS: 64, SUMS_FIRST: 4, SUMS_AT_ONCE: 32 };

/** Asks all questions about a session, and prints the answers. The news come link by link, and the last has what is answered. */
async function ask({ name, session, end, isSmall, questions }) {
  const desk = new Desk(isSmall ? withNumbers(SMALL) : undefined);
  await desk.openSession({ ...session, checkpoints: [end] });
  await desk.run(end);
  for (const [number, question] of questions.entries()) {
    const { values } = await desk.past.why({ ...question, request: number + 1 }), news = desk.news.filter(({ why }) => why?.request === number + 1).map(({ why }) => why.values);
    expect(`news of ${name} ${number}, each of one more link`, news.map(linksIn), news.map((_, at) => at + 1));
    expect(`links of ${name} ${number}`, linksIn(values), news.length);
    console.log(`values ${name} ${number} ${JSON.stringify(values)}`);
  }
  desk.end();
}

/** How many values have the instruction that wrote them. */
const linksIn = (values) => values.reduce((sum, { from, step }) => sum + (step ? 1 : 0) + linksIn(from), 0);

async function refused() {
  const desk = new Desk();
  await desk.openSession(example("mixed"));
  await desk.run(100);
  const part = "want a register, the LEDs, bytes of a word, or a dot";
  for (const [asked, why] of [[{ register: 18 }, part], [{ device: "mouse" }, part], [{ address: 1048576 }, part], [{}, part], [{ register: 1, links: 0 }, "want 1 to 200 links"], [{ register: 1, before: -1 }, "-1 is not a count"]])
    expect("a question that is refused", await desk.past.why({ before: 50, links: 20, ...asked }).catch((error) => error.message), why);
  desk.end();
}

/** A long question is ended at once; a search ends it, too. */
async function stop() {
  const end = 150000000, desk = new Desk();
  await desk.openSession(example("counts"));
  await desk.run(end);
  const ask = () => desk.past.why({ register: 12, before: end, links: 20 }), took = await stopped(desk, "a question", ask);
  const asked = ask(), hit = await desk.past.find({ to: 100, conditions: [{ kind: COUNTER, from: 1, end: 2 }] });
  expect("a question that a search ended, and what that found", [await asked, hit.at], [{ stopped: true }, 1]);
  desk.end();
  console.log(`questions: ended in ${took} ms`);
}

main([refused, stop, ...JSON.parse(readFileSync(join(FOLDER, "cases.json"))).map((one) => () => ask(one))]);
