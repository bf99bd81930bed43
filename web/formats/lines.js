// @ts-check
/* Verdict lines, which docs/formats.md describes: each is read and written here. The page and the worker both use this file. */

/** Reads a verdict line. Returns what it accepts, `{ checkpoints, steps }`, and what is wrong, `{ number, count, part }` of the first false
 * checkpoint; each is null if the line does not say it. A line that refuses says neither.
 * @param {string} line
 * @returns {ReadLine} */
export function readLine(line) {
  const [, checkpoints, steps] = /^accepted (\d+) checkpoints (\d+) steps$/.exec(line) ?? [];
  const [, number, count, part] = /^false checkpoint (\d+) at (\d+) part (.+)$/.exec(line) ?? [];
  return {
    accepted: steps ? { checkpoints: Number(checkpoints), steps: Number(steps) } : null,
    wrong: part ? { number: Number(number), count: Number(count), part } : null,
  };
}

/** What the faults of a recording are, by the words of the lines that refuse it.
 * @type {{ [word: string]: string }} */
const FAULTS = {
  short: "It ends too early: a part of it is missing", magic: "It does not begin with ORSR", version: "Its version is not known here", limit: "A number of its header is out of range",
  event: "An input is out of range", checkpoint: "A checkpoint is out of range", page: "A page of a checkpoint is wrong", trailing: "There are bytes after its end",
};

/** Says in a sentence why a line refuses a recording; nothing if it does not.
 * @param {string} line */
export function faultText(line) {
  const [, word = "", at] = /^refused \d (\w+) at byte (\d+)$/.exec(line) ?? [];
  return word in FAULTS ? `${FAULTS[word]}, at byte ${at}.` : "";
}

/** @param {{ checkpoints: number, steps: number }} accepted */
export function acceptedLine({ checkpoints, steps }) {
  return `accepted ${checkpoints} checkpoints ${steps} steps`;
}

/** @param {Wrong} wrong */
export function falseLine({ number, count, part }) {
  return `false checkpoint ${number} at ${count} part ${part}`;
}
