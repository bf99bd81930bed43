// @ts-check
/* What is false about a recording: the parts in which the machine differs from its first false checkpoint, the screens beside each other, who wrote the first part,
 * and the command that finds the instruction in the emulator that made the recording. It is in the order in which `galluspa explain` says it. */
import { bothOf } from "../../host/addresses.js";
import { app } from "../../host/app.js";
import { ALL_BITS } from "../../formats/conditions.js";
import { DOTS_WIDE, isSet, LINE_BYTES, LINES } from "../../formats/dots.js";
import { button, el, made, paragraph } from "../../host/elements.js";
import { askLastWriter } from "./lastwriter.js";
import { placeText } from "../../host/names.js";
import { falseClaim, isAhead, nowCount, shownCount, shownState } from "../../host/shown.js";
import { AT, DISPLAY_AT, DISPLAY_BYTES, equal, field, hex, MEMORY_BYTES, partsOf, sentText, wordsOf } from "../../formats/states.js";
import { aboutPart, markWrong } from "./statetab.js";
import { showTab } from "../screen/tabs.js";
import { moveCursor, runTo } from "../timeline/cursormoves.js";
import { grouped, many } from "../../formats/texts.js";
import { headlineOf } from "../screen/verdicts.js";

const LISTED = 16;
// The least part of a screen that is shown around dots that differ, in dots, and how many are left beside them.
const LEAST_WIDE = 128, LEAST_HIGH = 96, BESIDE = 8;
// The colours of dots, as pixels of a picture: clear and set, alike, and where they differ.
const ALIKE = [0xffffffff, 0xff000000], DIFFERENT = [0xffc8c8ff, 0xff2020d0];

/** A part of the machine that differs: its name with what symbols call it, what the machine has, what is claimed, and what one asks about it, or null.
 * @typedef {{ name: string, own: string, claimed: string, about: About | null }} Difference */

/** Shows a headline for a false checkpoint, and the way to what the machine has there; at its count, what differs. */
export async function showFalse() {
  const wrong = falseClaim(), place = el("false-claim"), isThere = wrong !== null && shownCount() === wrong.count && !isAhead();
  markWrong(isThere ? wrong.part : null);
  place.hidden = !wrong;
  if (!wrong) return;
  const headline = made("b", headlineOf({ wrong, accepted: null }));
  if (!isThere || app.latest?.on) return place.replaceChildren(headline, " ", button("What the machine has", () => toMachineAt(wrong.count)), whereWrong(wrong));
  const found = await differencesAt(wrong);
  if (found && shownCount() === wrong.count) place.replaceChildren(headline, ...explanation(wrong, found));
}

/** Goes to the false checkpoint of the file that is open, and shows the registers there. */
export async function showMe() {
  const wrong = falseClaim();
  if (!wrong) return;
  showTab("state");
  await toMachineAt(wrong.count);
}

/** Looks at what the machine has at a count, to which a replay runs first: before, there is only what the file claims.
 * @param {number} count */
export function toMachineAt(count) {
  return nowCount() < count ? runTo(count) : moveCursor(count);
}

/** Returns all in which the machine differs from a false checkpoint, which is looked at, by the order in which a check compares it; and both screens. Or null, if
 * another recording is open meanwhile.
 * @param {Wrong} wrong */
async function differencesAt({ number, count }) {
  const from = app.file?.claims[number - 1] ?? 0, claim = await app.live.ask("claimedWhole", { number, of: app.work.generation });
  const memory = await app.past.memory(count, 0, MEMORY_BYTES), sent = await app.past.ask("output", { at: count, from });
  if (!claim || !memory || !sent || shownCount() !== count) return null;
  const [own, claimed] = [memory.bytes, claim.words].map((bytes) => bytes.subarray(DISPLAY_AT, DISPLAY_AT + DISPLAY_BYTES));
  const list = [...partsThatDiffer(shownState(), claim.state), ...outputThatDiffers(sent.bytes, claim.sent, number), ...wordsThatDiffer(memory.bytes, claim.words)];
  return { list, screens: equal(own, claimed) ? null : { own, claimed } };
}

/** @param {Bytes} state
 * @param {Bytes} other
 * @returns {Difference[]} */
function partsThatDiffer(state, other) {
  const texts = new Map(partsOf(other)), named = (/** @type {Bytes} */ of) => `${bothOf(4 * field(of, AT.PC))} ${placeText(4 * field(of, AT.PC))}`.trim();
  const found = partsOf(state).map(([name, own]) => ({ name, own, claimed: texts.get(name) ?? "", about: aboutPart(name) })).filter(({ own, claimed }) => own !== claimed);
  return found.map((one) => (one.name === "PC" ? { ...one, own: named(state), claimed: named(other) } : one));
}

/** Returns the first byte that was sent since the checkpoint before and differs.
 * @param {Bytes} own
 * @param {Bytes} claimed
 * @param {number} number
 * @returns {Difference[]} */
function outputThatDiffers(own, claimed, number) {
  const length = Math.max(own.length, claimed.length);
  let at = 0;
  while (at < length && own[at] === claimed[at]) at++;
  if (at === length) return [];
  const [one, other] = [own, claimed].map((bytes) => `${at < bytes.length ? `${hex(bytes[at], 2)} (${sentText(bytes.subarray(at, at + 1))})` : "no more"} of ${grouped(bytes.length)}`);
  return [{ name: `byte ${grouped(at + 1)} sent after checkpoint ${number - 1}`, own: one, claimed: other, about: null }];
}

/** @param {Bytes} memory
 * @param {Bytes} other
 * @returns {Difference[]} */
function wordsThatDiffer(memory, other) {
  const [words, others] = [memory.slice(), other].map(wordsOf), found = [];
  for (const [at, word] of words.entries()) if (word !== others[at]) found.push(at);
  return found.map((at) => {
    const name = placeText(4 * at);
    return { name: `the word at ${hex(4 * at, 5)}${name && `, ${name}`}`, own: hex(words[at], 8), claimed: hex(others[at], 8), about: { address: 4 * at, mask: ALL_BITS } };
  });
}

/** Returns what is shown of a false checkpoint: the first part that differs, with the way to its cause; the screens; where the other emulator went wrong; and the
 * other parts.
 * @param {Wrong} wrong
 * @param {{ list: Difference[], screens: { own: Bytes, claimed: Bytes } | null }} found */
function explanation(wrong, { list: [first, ...others], screens }) {
  const cause = first?.about, line = paragraph("");
  if (first) line.append(made("span", `${lineOf(first)}.`, "both"), " ");
  if (cause) line.append(button("Find the cause", () => askLastWriter(cause, `Who wrote ${first.name}`)));
  return [line, ...(screens ? [bothScreens(screens)] : []), whereWrong(wrong), ...(others.length ? [detailsOf(others)] : [])];
}

/** @param {Difference} difference */
const lineOf = ({ name, own, claimed }) => `${name}: the machine has ${own}, the recording claims ${claimed}`;

/** @param {Difference[]} found */
function detailsOf(found) {
  const details = made("details", ""), list = made("ul", "");
  list.append(...found.slice(0, LISTED).map((one) => made("li", lineOf(one))));
  if (found.length > LISTED) list.append(made("li", `.. and ${grouped(found.length - LISTED)} more`));
  details.append(made("summary", `${grouped(found.length)} more differ`), list);
  return details;
}

/** Returns where the emulator that made the recording went wrong, and the command that finds the instruction.
 * @param {Wrong} wrong */
function whereWrong({ number, count }) {
  const from = app.file?.claims[number - 1] ?? 0, name = `'${(app.file?.name ?? "").replaceAll("'", "'\\''")}'`;
  const command = made("code", `galluspa bisect ${name} --from ${from} --to ${count} -- COMMAND {count}`);
  const said = paragraph(`Yours went wrong between ${grouped(from)} and ${grouped(count)}. `, "");
  said.append(command);
  return said;
}

// The screens

/** Returns the part of both screens around the dots that differ, which are red where they are set.
 * @param {{ own: Bytes, claimed: Bytes }} screens */
function bothScreens({ own, claimed }) {
  const both = made("div", "", "screens"), { number, ...box } = boxOf(own, claimed);
  both.append(pictureOf("claimed", claimed, own, box), pictureOf("the machine", own, claimed, box), paragraph(`${many(number, "dot")} of the screen differ: red where set.`, "hint"));
  return both;
}

/** Returns how many dots differ, and the part of a screen around them, counted from its left and from its top.
 * @param {Bytes} own
 * @param {Bytes} claimed */
function boxOf(own, claimed) {
  let number = 0, [left, right, top, bottom] = [DOTS_WIDE, 0, LINES, 0];
  for (let at = 0; at < own.length; at++) {
    const y = LINES - 1 - Math.floor(at / LINE_BYTES), x = 8 * (at % LINE_BYTES);
    for (let bits = own[at] ^ claimed[at], bit = 0; bits; bits >>= 1, bit++) {
      if (!(bits & 1)) continue;
      number++;
      [left, right, top, bottom] = [Math.min(left, x + bit), Math.max(right, x + bit), Math.min(top, y), Math.max(bottom, y)];
    }
  }
  const [x, wide] = spread(left, right, LEAST_WIDE, DOTS_WIDE), [y, high] = spread(top, bottom, LEAST_HIGH, LINES);
  return { number, x, y, wide, high };
}

/** Returns where a span of dots begins, and its length, with some beside it.
 * @param {number} first
 * @param {number} last
 * @param {number} least
 * @param {number} most
 * @returns {[number, number]} */
function spread(first, last, least, most) {
  const length = Math.min(most, Math.max(least, last + 1 - first + 2 * BESIDE)), from = Math.round((first + last + 1 - length) / 2);
  return [Math.max(0, Math.min(most - length, from)), length];
}

/** Returns a part of a screen with what it is.
 * @param {string} what
 * @param {Bytes} dots
 * @param {Bytes} others
 * @param {{ x: number, y: number, wide: number, high: number }} box */
function pictureOf(what, dots, others, { x, y, wide, high }) {
  const figure = made("figure", ""), canvas = Object.assign(made("canvas", ""), { width: wide, height: high, role: "img", ariaLabel: `The screen that is ${what === "claimed" ? "claimed" : "the machine's"}` });
  const image = new ImageData(wide, high), pixels = new Uint32Array(image.data.buffer);
  for (let at = 0; at < pixels.length; at++) {
    const [dot, other] = [dots, others].map((one) => isSet(one, x + (at % wide), y + Math.floor(at / wide)));
    pixels[at] = (dot === other ? ALIKE : DIFFERENT)[dot];
  }
  canvas.getContext("2d")?.putImageData(image, 0, 0);
  figure.append(canvas, made("figcaption", what));
  return figure;
}
