// @ts-check
/* Where the field *go to* leads: to a count, a time, a share of the timeline, so many counts from the cursor, or to the next count at which PC comes to a line,
 * a word or a name. What is none of these is refused by what is wrong with it. */
import { readCode } from "../host/addresses.js";
import { app } from "../host/app.js";
import { COUNTER } from "../formats/conditions.js";
import { closeMenus, el, notice } from "../host/elements.js";
import { addressOf, names } from "../host/names.js";
import { Refusal } from "../host/requests.js";
import { search } from "./code/search.js";
import { editor, sourceFile, wordOfLine } from "./source/desk.js";
import { perSecond, shownCount } from "../host/shown.js";
import { runningProgram } from "./source/sourceprogram.js";
import { WORDS } from "../formats/states.js";
import { shown } from "../formats/shownnames.js";
import { grouped, plainName } from "../formats/texts.js";
import { moveCursor } from "./timeline/cursormoves.js";
import { lanes } from "./timeline/lanes.js";

// A whole number, perhaps in groups of three digits; with a fraction, and with an exponent; a time with its unit; and a time as a clock shows it.
const WHOLE = String.raw`(?:\d{1,3}(?:,\d{3})+|\d+)`, COUNT = new RegExp(String.raw`^(?:${WHOLE}|0x[0-9a-f]+|\d+(?:\.\d+)?e\+?\d{1,2})$`, "i");
const TIME = new RegExp(String.raw`^(${WHOLE}(?:\.\d*)?) *(ms|s|min)$`), CLOCK = /^(?:(\d+):)?(\d{1,2}):(\d\d(?:\.\d+)?)$/;
/** @type {{ [unit: string]: number }} */
const SECONDS = { ms: 0.001, s: 1, min: 60 };
// What the page writes before a count, and a count with the time that it writes after it.
const SAID = /^(?:count|instruction|at)\s+(?=\d)/i, TOGETHER = /^([\d,]+) *· *(?:[\d.,]+ *s|\d+:\d\d:[\d.]+)$/;
const REGISTER = /^(?:R\d+|SP|LNK|H|NZCV)$/i, DEVICE = /^(?:TIMER|SWITCHES|LEDS|SERIAL|STATUS|MOUSE|KEY)$/i;
const FORMS = "a count (1,500, 1e6, +100), a time (1.5 s), a share (50%), a line (line 12), a word (·17) or a name";
/** What is wrong with texts that lead nowhere, by what they look like. The first one that fits is said.
 * @type {[RegExp, (text: string) => string][]} */
const MISTAKES = [
  [/^\d+(?: \d+)+$/, (text) => `${text} has spaces: write ${text.replaceAll(" ", "")}.`],
  [/^[\d,]*,[\d,]*(?:\.\d*)?(?: *\D*)$/, (text) => `${text}: commas are between groups of three digits, as in 1,234.`],
  [/^\d*\.\d*$/, (text) => `${text} is not a whole count: as a time it is written ${text} s.`],
  [/^[\d.]+e-?[\d.]*$/i, (text) => `${text} is not a whole count.`],
  [/^[0-9a-f]+h?$/i, (text) => `${text} is hexadecimal: write 0x${text.replace(/h$/i, "")} as a count, PC ${text.replace(/h$/i, "")} as an address of the code.`],
  [/^[\d.]+ *[a-zµ]+$/i, (text) => `${text}: a time is in ms, s or min.`],
  [REGISTER, (text) => `${text} is a register, and no place of the code.`],
  [DEVICE, (text) => `${text} is a device, and no place of the code.`],
  [/^[a-z_][\w.]*(?:\s*[+-]\s*\w+)?$/i, (text) => `There is no name ${text}${names.from ? ` in ${shown(names.from)}` : ": the machine has no names"}.`],
];

/** Returns how many counts a text says, as a number or as a time; or null.
 * @param {string} text */
function amountIn(text) {
  const [, number, unit] = TIME.exec(text) ?? [], [, hours = 0, minutes, seconds] = CLOCK.exec(text) ?? [];
  if (unit) return Math.round(Number(number.replaceAll(",", "")) * SECONDS[unit] * perSecond());
  if (minutes === undefined) return COUNT.test(text) && Number.isInteger(Number(text.replaceAll(",", ""))) ? Number(text.replaceAll(",", "")) : null;
  if (Number(seconds) >= 60 || (hours && Number(minutes) >= 60)) throw new Refusal(`${text}: minutes and seconds are below 60.`);
  return Math.round((3600 * Number(hours) + 60 * Number(minutes) + Number(seconds)) * perSecond());
}

/** Returns the count that a text says: by itself, from the cursor, or as a share of the timeline; or null.
 * @param {string} text */
function countIn(text) {
  const [, sign, rest] = /^([+-])\s*(.+)$/.exec(text) ?? [], [, share] = /^(\d+(?:\.\d*)?) *%$/.exec(text) ?? [], [, first] = TOGETHER.exec(text) ?? [];
  if (share !== undefined && Number(share) > 100) throw new Refusal(`${text} is more than all of the timeline, 100%.`);
  if (share !== undefined) return Math.round((lanes.end * Number(share)) / 100);
  if (!sign) return amountIn(first && COUNT.test(first) ? first : text);
  const amount = amountIn(rest), at = shownCount();
  if (amount === null) return null;
  if (sign === "-" && amount > at) throw new Refusal(`${text} from ${grouped(at)} is before count 0.`);
  return sign === "-" ? at - amount : at + amount;
}

/** Returns the word of the code that a text says: by a line of a source, as the page writes words (`0044 · 17`), or by a name; or null.
 * @param {string} text */
function wordIn(text) {
  const [, line, of] = /^line +(\d+)(?: +of +(.+))?$/i.exec(text) ?? [], [, file, number] = /^(.*[^:\d].*):(\d+)$/.exec(text) ?? [];
  if (line ?? number) return lineWord(Number(line ?? number), of ?? file ?? "");
  const [, address] = /^PC\s+(.+)$/i.exec(text) ?? [], isNamed = addressOf(text) !== null || !/^(?:0x)?[0-9a-f]+$/i.test(text);
  const word = readCode(address ?? (text.includes("·") || isNamed ? text : ""));
  if (word >= WORDS && !DEVICE.test(text)) throw new Refusal(`${text} is outside memory.`);
  return word >= 0 && word < WORDS ? word : null;
}

/** Returns the first word of a line of a source. Without a file it is the source that is shown.
 * @param {number} line
 * @param {string} file */
function lineWord(line, file) {
  const { lines, files } = names.symbols, own = editor && (runningProgram() || [...files].some((name) => isFile(name, sourceFile()))) ? sourceFile() : "";
  const of = file || own, all = [...files].filter((name) => isFile(name, of || name));
  if (!of && all.length > 1) throw new Refusal(`line ${line}: write of which file, as in ${shown(all[0])}:${line}.`);
  const word = of === own && runningProgram() ? wordOfLine(line - 1) : undefined;
  const [first] = lines.filter((one) => one.line === line && all.includes(one.file)).map(({ address }) => address).sort((one, other) => one - other);
  if (word === undefined && !all.length && (file || !runningProgram())) throw new Refusal(file ? `There is no source ${plainName(file)} of this machine.` : "The machine has no lines of a source.");
  if (word === undefined && first === undefined) throw new Refusal(`Line ${line}${of ? ` of ${plainName(of)}` : ""} has no instruction.`);
  return word ?? first >>> 2;
}

/** Whether a file is the one that is meant, with its folder or without it.
 * @param {string} name
 * @param {string} meant */
const isFile = (name, meant) => name === meant || name.endsWith(`/${meant}`);

/** Refuses a text that leads nowhere: says what is wrong with it.
 * @param {string} text */
function refuse(text) {
  const bare = text.replace(/^[+-]\s*/, ""), [, say] = MISTAKES.find(([form]) => form.test(bare)) ?? [];
  throw new Refusal(say ? say(shown(bare)) : `${shown(text)}: write ${FORMS}.`);
}

/** Goes to the next count at which PC comes to a word, or else to the last one before the cursor.
 * @param {number} word */
async function toWord(word) {
  const comes = [{ kind: COUNTER, from: word, end: word + 1, value: 0 }];
  if ((await search(comes, false)) === null) await search(comes, true);
}

/** Goes to what was written. */
export async function goToWritten() {
  const text = el("goto").value.trim().replaceAll("−", "-").replace(SAID, "");
  if (!text || !app.latest) return;
  const count = countIn(text), word = count === null ? wordIn(text) : null;
  if (count === null && word === null) refuse(text);
  notice();
  if (document.activeElement === el("goto")) el("cursor").focus({ preventScroll: true });
  closeMenus();
  if (word !== null) return toWord(word);
  await moveCursor(Number(count));
  if (Number(count) > lanes.end) notice(`${grouped(Number(count))} is after the last count, ${grouped(lanes.end)}.`);
}
