// @ts-check
/* The program that was run last from the source of the page: which line each instruction is of, and which line of the text as it is now that
 * is. Lines that were changed since are of no instruction. */
import { app } from "../../host/app.js";

// The upper halves of SUB R14, R14, N and of ADD R14, R14, -N, which make room on a stack.
const GROWS_STACK = [0x4ee9, 0x5ee8];

/** A source of the program that runs: its text, the first word of each of its lines, and the lines of its words. Lines are counted from 0.
 * @typedef {{ source: string[], words: Map<number, number>, lines: Map<number, number> }} Part */
/** The program that runs: the number of its machine, its session, its sources by the names of their files, the file that is shown with what it has as
 * a part, and whether it has a stack.
 * @typedef {Part & { generation: number, session: string, file: string, parts: Map<string, Part>, hasStack: boolean }} Running */
/** @type {Part} */
export const NO_PART = { source: [], words: new Map(), lines: new Map() };

/** @type {Running | null} */
let ranLast = null;
// Which version of the text was compared last, with how many lines are the same at its beginning and at its end.
let compared = { version: -1, before: 0, after: 0, generation: 0 };

/** The program of the source, if the machine that is open is one of it.
 * @returns {Running | null} */
export const runningProgram = () => (ranLast && ranLast.generation === app.work.generation ? ranLast : null);

/** Says which program runs from now on, and which of its sources is shown.
 * @param {AssembledProgram} program
 * @param {string} session
 * @param {[string, string][]} sources
 * @param {string} file */
export function setRunning({ lines, memory }, session, sources, file) {
  /** @type {Map<string, Part>} */
  const parts = new Map(sources.map(([name, text]) => [name, { source: text.split("\n"), words: new Map(), lines: new Map() }]));
  for (const [address, line, name] of lines) {
    const part = parts.get(name) ?? NO_PART;
    part.lines.set(address / 4, line - 1);
    if (!part.words.has(line - 1)) part.words.set(line - 1, address / 4);
  }
  const view = new DataView(memory.buffer, memory.byteOffset, memory.length), hasStack = lines.some(([address]) => GROWS_STACK.includes(view.getUint16(address + 2, true)));
  ranLast = { ...NO_PART, generation: app.work.generation, session, file, parts, hasStack };
  showPartOf(file);
}

/** Says which source of the program that runs is shown from now on.
 * @param {string} file */
export function showPartOf(file) {
  const part = ranLast?.parts.get(file);
  if (ranLast && part) ranLast = { ...ranLast, file, ...part };
  compared.version = -1;
}

/** Returns the file of the source that an instruction of the program that runs is of; nothing if it is of none.
 * @param {number} word */
export function fileOfWord(word) {
  return [...(runningProgram()?.parts ?? [])].find(([, { lines }]) => lines.has(word))?.[0] ?? "";
}

/** Returns how many lines two texts have in common at their beginnings and at their ends.
 * @param {string[]} lines
 * @param {string[]} source */
function inCommon(lines, source) {
  const most = Math.min(lines.length, source.length);
  let before = 0, after = 0;
  while (before < most && lines[before] === source[before]) before++;
  while (after < most - before && lines[lines.length - 1 - after] === source[source.length - 1 - after]) after++;
  return { before, after };
}

/** Returns the line of one of two texts that a line of the other one is, or null if it was changed.
 * @param {number} line
 * @param {number} from
 * @param {number} to
 * @param {{ before: number, after: number }} common */
function movedLine(line, from, to, { before, after }) {
  if (line < before) return line;
  return line >= from - after ? line - from + to : null;
}

/** Compares the text as it is now with that of the program.
 * @param {string[]} lines
 * @param {number} version */
function compareTexts(lines, version) {
  const own = runningProgram();
  if (!own || (compared.version === version && compared.generation === own.generation)) return;
  compared = { version, ...inCommon(lines, own.source), generation: own.generation };
}

/** Returns the line of the program that a line of the text is, or null.
 * @param {number} line
 * @param {{ lines: string[], version: number }} text */
export function programLine(line, { lines, version }) {
  compareTexts(lines, version);
  const own = runningProgram();
  return own && movedLine(line, lines.length, own.source.length, compared);
}

/** Returns the line of the text that a line of the program is, or null if it was changed.
 * @param {number} line
 * @param {{ lines: string[], version: number }} text */
export function textLine(line, { lines, version }) {
  compareTexts(lines, version);
  const own = runningProgram();
  return own && movedLine(line, own.source.length, lines.length, compared);
}

/** Returns the lines of the text of a source, as it is now, that instructions are of.
 * @param {Part} part
 * @param {string[]} text
 * @param {Iterable<number>} words */
export function linesOfWords({ source, lines }, text, words) {
  const common = inCommon(text, source);
  return [...words].flatMap((word) => movedLine(lines.get(word) ?? -1, source.length, text.length, common) ?? []).filter((line) => line >= 0);
}

/** Returns the first instructions of lines of the text of a source, as it is now, as far as they have any.
 * @param {Part} part
 * @param {string[]} text
 * @param {Iterable<number>} numbers */
export function wordsOfLines({ source, words }, text, numbers) {
  const common = inCommon(text, source);
  return [...numbers].flatMap((number) => words.get(movedLine(number, text.length, source.length, common) ?? -1) ?? []);
}
