// @ts-check
/* The hits that the timeline marks: of breakpoints and watches all in the span that is in sight, and those that were found of breakpoints and searches. */
import { app } from "../../host/app.js";
import { publish } from "../../host/events.js";
import { isAhead, nowCount } from "../../host/shown.js";
import { grouped } from "../../formats/texts.js";

/** A hit: its count, and what it is.
 * @typedef {[number, string]} Marked */
/** Those that were found.
 * @type {Marked[]} */
let hits = [];
/** The conditions whose hits the span shows, with what each is called.
 * @type {{ conditions: Condition[], names: string[] }} */
let wantedHits = { conditions: [], names: [] };
// All hits of that, what they were asked for, and the count up to which they are all.
const NO_LIST = { of: "", marks: /** @type {Marked[]} */ ([]), end: Infinity };
let listedHits = NO_LIST;

/** Forgets the hits after a count, or all of them.
 * @param {number} after */
export function forgetHits(after = -1) {
  hits = hits.filter(([count]) => count <= after);
  listedHits = NO_LIST;
  publish("forgot");
}

/** Says which hits are marked in the span that is in sight.
 * @param {Condition[]} conditions
 * @param {string[]} names */
export function wantHits(conditions, names) {
  wantedHits = { conditions, names };
  listedHits = NO_LIST;
}

/** Asks for the hits in a span, unless they are known or the machine runs, and has them drawn.
 * @param {number} from
 * @param {number} to
 * @param {() => void} draw */
export async function askHits(from, to, draw) {
  const begin = Math.max(0, Math.floor(from)), end = Math.min(Math.ceil(to), nowCount()), { conditions, names } = wantedHits, was = wantedHits;
  const of = [app.work.generation, app.work.fork, begin, end].join();
  if (!app.latest || app.latest.on || !conditions.length || isAhead() || end <= begin || listedHits.of === of) return;
  listedHits = { ...listedHits, of };
  const found = await app.past.ask("hits", { from: begin, to: end, conditions });
  if (!found || was !== wantedHits || listedHits.of !== of) return;
  listedHits = { of, marks: found.hits.map(({ at, which }) => [at, names[which]]), end: found.end < end ? found.end : Infinity };
  draw();
}

/** The hits that were found, the last one with a glyph of its own, and those of the span. */
export function hitMarks() {
  const found = new Set(hits.map(([count]) => count)), others = listedHits.marks.filter(([count]) => !found.has(count));
  /** @type {[number, string, string][]} */
  const marks = [...others.map(([count, what]) => hitMark(count, "●", what)), ...hits.map(([count, what], at) => hitMark(count, at === hits.length - 1 ? "◎" : "●", what))];
  return marks;
}

/** @type {(count: number, glyph: string, what: string) => [number, string, string]} */
const hitMark = (count, glyph, what) => [count, glyph, what];

/** Says that there are more hits than those that are marked; nothing if there are none. */
export const moreHits = () => (listedHits.end < Infinity ? [`more hits from ${grouped(listedHits.end)} on`] : []);

/** Notes a hit, of which some are kept.
 * @param {number} count
 * @param {string} what */
export function noteHit(count, what) {
  hits = [...hits.filter(([other]) => other !== count).slice(-30), [count, what]];
}
