// @ts-check
/* What the machine shows beside its screen: its LEDs, the bytes that it sent, and the status line. */
import { app } from "../../host/app.js";
import { el, write, writeWhole } from "../../host/elements.js";
import { isPast, stopText } from "../../host/shown.js";
import { pointsOf } from "./snake.js";
import { AT, countOf, field } from "../../formats/states.js";
import { many } from "../../formats/texts.js";

const STATUS_MS = 100, OUT_MOST = 20000;

/** @type {number | null} */
let lampsShown = null;
let statusDue = 0;

/** Shows more that was sent.
 * @param {string} text */
export function appendSent(text) {
  showSent((app.work.sent + text).slice(-OUT_MOST));
}

/** Returns the bytes of what was sent: each is a character, or a backslash and two digits. */
const bytesSent = () => app.work.sent.match(/\\[0-9a-f]{2}|[^]/g) ?? [];

/** Drops the last bytes of what was sent: the machine goes on from before them.
 * @param {number} bytes */
export function dropSent(bytes) {
  const written = bytesSent();
  showSent(written.slice(0, Math.max(0, written.length - bytes)).join(""));
}

/** Shows what was sent.
 * @param {string} text */
export function showSent(text) {
  app.work.sent = text;
  el("out").textContent = text;
  el("out").scrollTop = el("out").scrollHeight;
  if (!isPast()) showLastLine(text);
}

/** Shows the last line of the first bytes that were sent, if so many are known.
 * @param {number} bytes */
export const showSentBefore = (bytes) => showLastLine(app.work.sent.length < OUT_MOST ? bytesSent().slice(0, bytes).join("") : "");

/** Shows the last line of what was sent under the screen.
 * @param {string} text */
export const showLastLine = (text) => writeWhole("sent-line", text.split(/\n|\\0d/).findLast((line) => line.trim()) ?? "");

/** @param {number} value */
export function showLamps(value) {
  write("points", pointsOf(value));
  if (value === lampsShown) return;
  lampsShown = value;
  document.querySelectorAll("#galluspa .lamps i").forEach((lamp, at) => lamp.classList.toggle("lit", (value >> (7 - at % 8) & 1) === 1));
  const lit = [7, 6, 5, 4, 3, 2, 1, 0].filter((at) => value >> at & 1);
  el("leds").setAttribute("aria-label", `LEDs: ${lit.length ? `lit are ${lit.join(", ")}` : "none is lit"}`);
}

/** Writes the status line: while the machine runs, no more often than can be read. Returns whether it is written.
 * @param {Frame} frame */
export function showStatus(frame) {
  const now = performance.now();
  if (frame.on && now < statusDue) return false;
  statusDue = now + STATUS_MS;
  writeWhole("status", sayOf(frame));
  return true;
}

/** @param {Frame} frame */
function sayOf({ state, inputs, marks, speed, typed, hasLastRoom }) {
  const fast = speed ? `; ${Number((speed.perSecond / 1e6).toFixed(1))} MHz, ${(speed.busy * 100).toFixed(0)} % of a core` : "";
  const waits = typed ? `; ${typed} typed or sent bytes wait` : "", last = hasLastRoom ? ", no more by time: the last is left for the end" : "";
  return `${many(countOf(state), "instruction")}, ${many(inputs, "input")}, ${many(marks, "checkpoint")}${last}${fast}${waits}` +
    (field(state, AT.stop) ? `; stopped ${stopText(state)}` : "");
}
