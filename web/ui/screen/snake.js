// @ts-check
/* Snake: the page makes a checkpoint of each dot that is eaten, so that the score is claimed in the recording. After a game it shows
 * the score with a real check of that recording; and a claim of another score, which the same check finds false. */
import { app, send } from "../../host/app.js";
import { showCard } from "./card.js";
import { commands } from "../../host/commands.js";
import { SENDS_BYTE } from "../../formats/conditions.js";
import { isRunning, sendCodes } from "./devices.js";
import { attempt, button, el, made, paragraph } from "../../host/elements.js";
import { isSnake, SNAKE } from "./game.js";
import { CHANGE_BYTES, CLAIM, HEADER, HEADER_BYTES, INPUT, INPUT_BYTES } from "../../formats/layout.js";
import { Helper } from "../../host/requests.js";
import { nowCount, shownState } from "../../host/shown.js";
import { AT, field, hex, KEY, PAGE_BYTES, PER_SECOND } from "../../formats/states.js";
import { readLine } from "../../formats/lines.js";
import { grouped, many } from "../../formats/texts.js";
import { STATUSES } from "./verdicts.js";

const FIRST_LENGTH = 3, OVER = "over\n", BEFORE_CRASH = PER_SECOND, CHEATED = 100;
// How long the snake is, as the LEDs said last.
let snakeLength = FIRST_LENGTH;

/** Returns the points of a snake, whose length the LEDs show.
 * @param {number} length */
export function pointsOf(length) {
  return many(Math.max(0, length - FIRST_LENGTH), "point");
}

/** Begins the game of the example, without the keys of the game that somebody played. */
export function playSnake() {
  return commands.openExample(SNAKE, { inputs: [], checkpoints: [] });
}

export function beginGame() {
  snakeLength = FIRST_LENGTH;
}

/** Follows a game: the LEDs show the length of the snake, and the program sends a text at the end, in one frame or over several.
 * @param {Frame} frame
 * @param {boolean} [wasReplay] */
export function followGame({ state, sent, on, isReplay }, wasReplay) {
  if (!isSnake() || isReplay || wasReplay) return;
  if (sent && app.work.sent.endsWith(OVER)) return attempt(endGame);
  if (!on) return;
  // A program that has just begun shows nothing yet.
  const length = Math.max(FIRST_LENGTH, field(state, AT.LEDs));
  if (length > snakeLength) send("mark", {});
  snakeLength = length;
}

/** Pauses at the end of a game, and shows its card. */
async function endGame() {
  snakeLength = FIRST_LENGTH;
  await app.live.ask("setRun", { on: false });
  const { bytes } = await app.live.ask("recording"), crash = await crashCount();
  await commands.moveCursor(crash);
  const place = paragraph("checking ..", "line note");
  const summary = paragraph(many(bytes.length, "byte"));
  const back = button("Go back before the crash", () => commands.moveCursor(crash - BEFORE_CRASH)), again = button("Play again", playAgain);
  const cheat = button("Try to cheat", () => tryToCheat(bytes));
  showCard(`Game over: ${pointsOf(field(shownState(), AT.LEDs))}, ${many(keysIn(bytes), "key")}`, [summary, place, back, cheat, again, made("div", "", "cheat")]);
  const { accepted } = readLine(await showLine(bytes, place));
  if (accepted) summary.prepend(`Verified: ${many(accepted.checkpoints, "checkpoint")}, ${many(accepted.steps, "step")}; `);
}

/** Goes on from now: the program has begun another game. */
async function playAgain() {
  await commands.backToNow();
  await commands.setRun(true);
}

/** The count at which the last game was over: at which its text was sent. */
async function crashCount() {
  const first = { kind: SENDS_BYTE, from: 0, end: 1, value: OVER.charCodeAt(0) };
  const found = await app.past.find({ from: 0, to: nowCount(), last: true, conditions: [first] });
  return found?.at ?? nowCount();
}

/** Lets a worker check a recording, and shows its verdict line in a place.
 * @param {Bytes} bytes
 * @param {HTMLElement} place */
async function showLine(bytes, place) {
  const checker = new Helper(app.module, () => {});
  try {
    const { line, status } = await checker.ask("check", { bytes });
    place.textContent = line;
    place.className = `line ${STATUSES[status]}`;
    return line;
  } finally {
    checker.end();
  }
}

/** Claims another score in the last checkpoint, and has that checked: the line names the LEDs, and the machine has what they were.
 * @param {Bytes} bytes */
async function tryToCheat(bytes) {
  const place = /** @type {HTMLElement} */ (el("card").querySelector(".cheat")), line = paragraph("checking ..", "line note");
  const { forged, claimed, own, count } = forgedScore(bytes);
  place.replaceChildren(paragraph(`The same recording, which claims ${pointsOf(claimed)} at ${grouped(count)}:`), line);
  await showLine(forged, line);
  place.append(paragraph(`The machine has ${pointsOf(own)} there: the LEDs are ${hex(own, 2)}, and ${hex(claimed, 2)} is claimed.`));
}

/** Returns a recording whose checkpoint with the most points claims more.
 * @param {Bytes} bytes */
function forgedScore(bytes) {
  const { view, claims } = layoutOf(bytes), forged = bytes.slice();
  /** @param {number} claim */
  const ledsOf = (claim) => view.getUint32(claim + CLAIM.LEDs, true);
  const best = claims.slice(1).reduce((one, other) => (ledsOf(other) >= ledsOf(one) ? other : one));
  const own = ledsOf(best), claimed = Math.min(255, own + CHEATED);
  forged[best + CLAIM.LEDs] = claimed;
  return { forged, claimed, own, count: Number(view.getBigUint64(best, true)) };
}

/** Returns how many keys are in a recording.
 * @param {Bytes} bytes */
function keysIn(bytes) {
  const { view, inputs } = layoutOf(bytes);
  return inputs.filter((at) => view.getUint32(at + INPUT.kind, true) === KEY).length;
}

/** Returns where the inputs and the checkpoints of a recording of version 2 begin.
 * @param {Bytes} bytes */
function layoutOf(bytes) {
  const view = new DataView(bytes.buffer, bytes.byteOffset, bytes.length);
  /** @param {number} at */
  const number = (at) => view.getUint32(at, true);
  /** @type {number[]} */
  const claims = [];
  const first = HEADER_BYTES + PAGE_BYTES * number(HEADER.pages);
  const inputs = Array.from({ length: number(HEADER.inputs) }, (_, at) => first + INPUT_BYTES * at);
  let at = first + INPUT_BYTES * inputs.length;
  for (; claims.length < number(HEADER.checkpoints); at += CLAIM.list + CHANGE_BYTES * number(at + CLAIM.changes)) claims.push(at);
  return { view, inputs, claims };
}

/** Sends the key of a button below the screen, as on a phone.
 * @param {Event} event */
export function padPressed({ target }) {
  const key = target instanceof HTMLElement ? target.dataset.key : undefined;
  if (key && isRunning()) sendCodes([key.charCodeAt(0)]);
}
