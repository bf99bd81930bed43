// @ts-check
/* Who drew this dot, and who wrote this: a card with the instruction that wrote it last, and below that where the value comes from (why.js). */
import { bothOf } from "../../host/addresses.js";
import { app } from "../../host/app.js";
import { showCard } from "../screen/card.js";
import { showCalls } from "./calls.js";
import { offer } from "../../host/commands.js";
import { LINE_BYTES } from "../../formats/dots.js";
import { attempt, button, el, made, notice, paragraph, write } from "../../host/elements.js";
import { instruction } from "../../formats/instructions.js";
import { followCounter } from "./listing.js";
import { moveCursor } from "../timeline/cursormoves.js";
import { whereText } from "../../host/names.js";
import { dotAt } from "../screen/screen.js";
import { stopSearch } from "./search.js";
import { shownCount } from "../../host/shown.js";
import { AT, DISPLAY_AT, field, hex, REGISTERS } from "../../formats/states.js";
import { grouped } from "../../formats/texts.js";
import { followWhy, forgetWhy } from "./why.js";

/** @typedef {{ about: About, title: string, request: number, isOn: boolean, answer?: Written }} Asked */

// What was asked last: what it is about, the number of the request, which its answers have, and whether it is still searched for.
/** @type {Asked | null} */
export let asking = null;

/** @param {Asked | null} asked */
function setAsked(asked) {
  asking = asked;
}

/** Asks for the instruction that wrote something last before a count, which is that of the cursor if it is not given.
 * @param {About} about
 * @param {string} title
 * @param {number} before */
export async function askLastWriter(about, title, before = shownCount()) {
  if (!app.latest) return;
  if (app.latest.on) return notice("Pause the machine to see what wrote this.");
  forgetWhy();
  const request = app.past.numbered();
  setAsked({ about, title, request, isOn: true });
  showCard(title, [paragraph("searching ..", "hint"), ...partsOfSearch()], forgetAsked);
  const answer = await attempt(() => app.past.lastWriter({ ...about, before, request }));
  if (asking?.request === request) setAsked({ ...asking, isOn: false });
  showLastWriter({ ...(answer ?? { stopped: true }), request });
  const wrote = answer?.at ?? answer?.stored?.at;
  if (asking?.request === request && wrote !== undefined && !answer?.stopped && !answer?.input) await followWhy(about, before, jumpTo);
}

/** Shows an answer to what was asked last: an instruction, or that it was there from the beginning. It may be found while later counts are still searched:
 * once they are, only texts change, so that a press of a button stays one.
 * @param {Written} given */
export function showLastWriter(given) {
  if (!asking || asking.request !== given.request) return;
  // What was found stays there if the search for something later is cancelled.
  const answer = given.stopped && asking.answer ? { ...asking.answer, stopped: true } : given;
  const { at, stored } = answer, isShown = at !== undefined && asking.answer?.at === at;
  if (!isShown) showCard(asking.title, partsOfAnswer(answer, asking), forgetAsked);
  asking = { ...asking, answer };
  write("writer-where", answerText(answer));
  if (!isShown && at !== undefined && answer.word !== undefined) attempt(() => nameLastWriter(answer));
  write("writer-again", stored ? `Instruction ${grouped(Number(stored.at))} wrote the same again.` : "");
  if (!asking.isOn) el("writer-search")?.remove();
}

/** Says by name where the instruction of an answer is, and who called that.
 * @param {Written} answer */
async function nameLastWriter({ at = 0, pc, state }) {
  write("writer-name", whereText(4 * Number(pc)));
  if (state) await showCalls("writer-calls", at, state, () => asking?.answer?.at === at);
}

/** What a card has of a search that is under way: how far it is, and a button that cancels it. */
function partsOfSearch() {
  const place = Object.assign(made("div", "", "hint"), { id: "g-writer-search" }), far = Object.assign(made("span", ""), { id: "g-writer-far" });
  place.append(button("Cancel", stopSearch), " ", far);
  return [place];
}

/** Says how far the search for what was asked has come.
 * @param {NonNullable<PastNews["searched"]>} news */
export function showAsked({ request, done, of }) {
  if (asking?.isOn && request === asking.request) write("writer-far", `${grouped(done)} of ${grouped(of)} counts`);
}

/**
 * @param {Written} answer
 * @param {Asked} asked
 */
function partsOfAnswer(answer, { about, title, isOn }) {
  const { at, state } = answer, searching = isOn ? partsOfSearch() : [], where = Object.assign(paragraph("", ""), { id: "g-writer-where" });
  const name = Object.assign(made("bdi", "", "name"), { id: "g-writer-name" }), calls = Object.assign(made("bdi", "", "hint"), { id: "g-writer-calls" });
  const again = Object.assign(made("div", "", "hint"), { id: "g-writer-again" }), why = Object.assign(made("div", "", "why"), { id: "g-why" });
  if (at === undefined) return [where, again, ...searching, why];
  const buttons = [button("Jump", () => jumpTo(at)), button("Earlier", () => askLastWriter(about, title, at))];
  if (!state) return [where, ...buttons, again, ...searching];
  if (answer.word === undefined) return [where, paragraph("PC is outside memory.", "instruction"), ...buttons, ...searching];
  return [where, name, instructionLine(answer), calls, ...buttons, again, ...searching, why, made("code", registersText(state))];
}

/** Looks at a count, with the instruction there in sight.
 * @param {number} at */
export async function jumpTo(at) {
  await moveCursor(at);
  followCounter();
}

/** Says what wrote something: an instruction, an input, or none.
 * @param {Written} answer */
export function answerText({ at, pc, sure, input, stopped, stored }) {
  if (stopped && at === undefined) return "The search was cancelled.";
  if (input) return `The input ${input[1]} ${hex(input[2], 2)} before instruction ${grouped(at ?? 0)}: sure`;
  const soFar = stopped ? "so far; the search was cancelled" : "so far; still searching later counts";
  if (at !== undefined) return `Instruction ${grouped(at)}, PC ${bothOf(4 * Number(pc))}: ${sure ? "sure" : soFar}`;
  if (stored) return "No instruction changed it.";
  return "Never written since the start.";
}

/** @param {{ word?: number, pc?: number }} written */
export function instructionLine({ word, pc }) {
  const [mnemonic, meaning] = instruction(Number(word), Number(pc)), line = paragraph(`${mnemonic}  `, "instruction");
  line.append(made("span", meaning));
  return line;
}

/** @param {Bytes} state */
function registersText(state) {
  return REGISTERS.map((name, number) => `${name}\u00a0${hex(field(state, AT.R + 4 * number), 8)}`).join("  ");
}

/** Forgets what was asked, and ends the search for it. */
function forgetAsked() {
  if (asking?.isOn) attempt(stopSearch);
  asking = null;
  forgetWhy();
}

/** Asks who drew the dot under the mouse: its x, and its y from the bottom.
 * @param {PointerEvent} event */
export function askDot(event) {
  const [x, y] = dotAt(event, el("screen").getBoundingClientRect());
  return askLastWriter({ address: DISPLAY_AT + LINE_BYTES * y + (x >> 3), bit: x & 7 }, `Who drew the dot ${x},${y}`);
}

offer({ askDot });
