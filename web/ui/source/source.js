// @ts-check
/* The tab with a source: it is assembled as one types, run, and run again with the inputs of the run before. */
import { app } from "../../host/app.js";
import { setBreaks, toggleBreak } from "../code/breakpoints.js";
import { commands, offer } from "../../host/commands.js";
import {
  assembler, breakLines, desk, editor, FIRST_FILE, FIRST_SOURCE, lineOfWord, linesNow, LONGEST_SOURCE, ownEditor, partOf, runningPart, setDesk, sourceEditor, sourcesNow, wordOfLine,
} from "./desk.js";
import { plainText } from "./editor.js";
import { attempt, button, download, el, made, named, notice, on, paragraph, set, write } from "../../host/elements.js";
import { forgetExplained } from "./explaining.js";
import { listenToHelp, offerSoon } from "./helping.js";
import { keepRunSoon } from "../../host/work.js";
import { oneAtATime } from "../../host/locks.js";
import { sessionText } from "../../assembler/written.js";
import { lineOf, names, setNames, setSource } from "../../host/names.js";
import { compareRuns, forgetOther } from "./runcomparison.js";
import { setRun } from "../timeline/running.js";
import { breaks, isFast, isTab, cursor, shownCount, shownState } from "../../host/shown.js";
import { beginSource, dropRun, emptyRun, keepSourceSoon, nameProject, openNewest, openRan, openSourceId } from "./sourceautosave.js";
import { fileOfWord, runningProgram, setRunning, showPartOf, wordsOfLines } from "./sourceprogram.js";
import { AT, field, hashOf, MEMORY_BYTES, wordsOf } from "../../formats/states.js";
import { shown } from "../../formats/shownnames.js";
import { readSymbols } from "../../formats/symbolreader.js";
import { showTab } from "../screen/tabs.js";
import { grouped, many, plainName } from "../../formats/texts.js";

const ASSEMBLE_MS = 300, EFFECTS_BEFORE = 4096, MOST_FILES = 5;
// Where the machine was when its line was put in sight last: who goes to another line or source after that stays there.
let followed = "";
/** Where the caret was as the text field was left. A screen that gets the focus drops the browser's selection.
 * @type {import("./editor.js").Spot} */
let caret = [0, 0];
// What the instructions did last, by their word numbers, at the count that is looked at.
let effects = { count: -1, of: /** @type {Map<number, string>} */ (new Map()) };

/** Shows a source in the tab, in place of what is there, which is kept.
 * @param {string} file
 * @param {string} text */
export function showSource(file, text) {
  showSources([{ name: file, text }]);
}

/** Shows the sources of a program in the tab, one of them in its field, in place of what is there.
 * @param {import("./sourceautosave.js").KeptPart[]} sources
 * @param {{ file?: string, isEdited?: boolean }} more */
export function showSources(sources, { file = sources[0].name, isEdited: wasEdited = false } = {}) {
  const long = sources.find(({ text }) => text.length > LONGEST_SOURCE);
  if (long) return notice(`${plainName(long.name)}: a source has at most ${grouped(LONGEST_SOURCE)} bytes.`);
  const parts = new Map(sources.map(({ name, text, done = [], breaks: lines = [] }) => [plainName(name), { text: plainText(text.replace(/^\ufeff/, "")), done, breaks: new Set(lines) }]));
  setDesk({ parts, made: null, version: -1, program: null, isEdited: wasEdited });
  followed = "";
  el("source-part").replaceChildren(...[...parts.keys()].map((name) => made("option", name)));
  set("source-part-label", { hidden: parts.size < 2 });
  showText(plainName(file));
  showTab("source");
  editor.box.scrollTo(0, 0);
  assembleSoon(0);
}

/** Puts a source of the program into the field.
 * @param {string} file */
function showText(file) {
  const { text, done } = partOf(file);
  setDesk({ file });
  showPartOf(file);
  sourceEditor().setText(text, done);
  set("source-part", { value: file });
}

/** Shows another source of the program in the field. Both keep their changes.
 * @param {string} file */
function showPart(file) {
  if (!desk.parts.has(file) || file === desk.file) return;
  const isMade = desk.version === editor.version, { text, done } = editor;
  Object.assign(partOf(desk.file), { text, done });
  showText(file);
  if (!isMade || !desk.made) return assembleSoon(0);
  setDesk({ version: editor.version });
  showMade(desk.made);
}

/** Begins a program, or continues with what was written last. */
export const writeProgram = () => oneAtATime("a program", writeNow);

async function writeNow() {
  if (!desk.isEdited) {
    await beginSource();
    showSource(FIRST_FILE, FIRST_SOURCE);
    editor.goTo(...editor.end);
    await openNewest();
  }
  showTab("source");
  if (document.activeElement !== editor.field) editor.goTo(...editor.end);
}

/** The text was changed. */
function changed() {
  setDesk({ isEdited: true });
  keepSourceSoon();
  assembleSoon();
  offerSoon();
}

/** @param {number} ms */
function assembleSoon(ms = ASSEMBLE_MS) {
  clearTimeout(desk.timer);
  setDesk({ timer: setTimeout(() => attempt(assemble), ms) });
}

/** Assembles the text as it is now, unless that was done. */
async function assemble() {
  clearTimeout(desk.timer);
  const { version, text: source } = sourceEditor(), sources = sourcesNow();
  if (desk.version === version && desk.made) return desk.made;
  if (source.length > LONGEST_SOURCE) return write("source-said", `A source has at most ${grouped(LONGEST_SOURCE)} bytes.`), null;
  const made = await assembler().ask("assemble", { source, file: desk.file, parts: sources });
  if (editor.version !== version) return null;
  setDesk({ made, version });
  if (made.program) setDesk({ program: { program: made.program, sources } });
  showMade(made);
  return made;
}

/** @param {Assembled} made */
function showMade({ problems, number, program }) {
  /** @type {Map<number, string[]>} */
  const lines = new Map(), missing = missingParts(), isPart = number > 0 && missing.length > 0, place = el("source-said"), [first] = problems;
  for (const { line, text, file } of problems) if (file === desk.file && !isPart) lines.set(line - 1, [...(lines.get(line - 1) ?? []), text]);
  editor.setMistakes(lines);
  place.classList.toggle("false", number > 0 && !isPart);
  if (isPart) return place.replaceChildren(named(desk.file), " is a part of a program. To assemble it, open it together with ", named(listedFiles(missing)), ".");
  const more = desk.parts.size > 1 ? ` and ${many(desk.parts.size - 1, "more file")}` : "";
  place.replaceChildren(named(desk.file), `${more}: ${program ? `${many(program.words, "word")}, ` : ""}${many(number, "problem")}`);
  if (first) place.append(" ", button(`line ${first.line}${first.file === desk.file ? "" : ` of ${first.file}`}`, () => goToProblem(first)));
}

/** Returns names of files, which the author of the symbol file claims, as a short list.
 * @param {string[]} files */
const listedFiles = (files) => files.slice(0, MOST_FILES).map(shown).join(", ") + (files.length > MOST_FILES ? `, and ${grouped(files.length - MOST_FILES)} more` : "");

/** @param {Problem} problem */
function goToProblem({ file, line, column }) {
  showPart(file);
  editor.goTo(line - 1, column - 1);
}

/** Returns the sources that the names of the machine are of and that are not open, if those that are open are of it, too, as they were opened. */
function missingParts() {
  const { files } = names.symbols, own = [...desk.parts.keys()];
  return desk.isEdited || !own.some((file) => files.has(file)) ? [] : [...files].filter((file) => isSourceName(file) && !own.includes(file));
}

/** Takes the source for that of the machine that is open, if the memory of its program is what the machine began with. */
export async function findProgram() {
  const made = await assemble(), { program } = desk;
  if (made?.program && program && !runningProgram()) await takeProgram(program);
}

/** Opens the sources that a resumed machine was run from, and takes their program for that of the machine.
 * @param {Ran} ran */
export async function resumeProgram(ran) {
  await openRan(ran);
  await takeSources(ran.file, ran.sources);
}

/** Takes the program of sources for that of the machine that is open, if it is.
 * @param {string} file
 * @param {[string, string][]} sources */
export async function takeSources(file, sources) {
  const { program } = await assembler().ask("assemble", { source: "", file, parts: sources });
  if (program) await takeProgram({ program, sources });
}

/** Takes a program for that of the machine that is open, if its memory is what the machine began with.
 * @param {{ program: AssembledProgram, sources: [string, string][] }} given */
async function takeProgram({ program, sources }) {
  const { work } = app, whole = new Uint8Array(MEMORY_BYTES);
  whole.set(program.memory);
  if (!work.generation || hashOf(wordsOf(whole)) !== work.program) return;
  setRunning(program, program.session, sources, desk.file);
  noteRan(sources);
  showSourceNow();
  await giveNames(program, sources);
  showSourceNow();
}

/** Notes which sources the machine that is open was run from.
 * @param {[string, string][]} sources */
function noteRan(sources) {
  app.work.ran = { id: openSourceId(), file: desk.file, sources };
}

/** Gives the names of the program to the machine that is open, unless a symbol file gave it some, and the texts of its sources.
 * @param {AssembledProgram} program
 * @param {[string, string][]} sources */
async function giveNames({ symbols }, sources) {
  const bytes = new TextEncoder().encode(symbols), { generation } = app.work, [[file]] = sources, made = await readSymbols(bytes);
  if (generation !== app.work.generation) return;
  if (!names.from || isSourceName(names.from)) setNames(made, file, bytes);
  for (const [name, text] of sources) setSource(name, text);
}

/** Ties what is open together, in whichever order that came: the texts of the sources are shown where the names have their lines, and the program is that
 * of the machine if it has its memory. */
export async function tieSources() {
  if (!editor?.text) return;
  for (const [file, text] of desk.isEdited ? [] : sourcesNow()) if (names.symbols.files.has(file)) setSource(file, text);
  await findProgram();
  if (desk.made) showMade(desk.made);
  showSourceNow();
}

// Running

/** Runs the program from its beginning; while the text has problems, the last program without any, and says so. */
export const runSource = () => oneAtATime("a run", runNow);

async function runNow() {
  const found = await programToRun();
  if (!found) return;
  forgetOther();
  forgetExplained();
  await runProgram(found, found.program.session);
}

/** Returns the program to run, or says why there is none. */
async function programToRun() {
  const made = (await assemble()) ?? desk.made, { program } = desk, problems = made?.number ?? 0;
  if (!program || (problems && !program.program.words)) return notice(`There is no program yet: ${many(problems, "problem")}, the first in line ${made?.problems[0]?.line ?? 1}.`), null;
  if (!program.program.words) return notice(`${desk.file} has no instructions yet.`), null;
  return { ...program, problems };
}

/** Opens a program in place of what is open, and runs it: first with the inputs of its session, and then live.
 * @param {{ program: AssembledProgram, sources: [string, string][], problems: number }} given
 * @param {string} session
 * @param {number | null} goal */
async function runProgram({ program, sources, problems }, session, goal = null) {
  const waiting = [...desk.parts.keys()].map((file) => ({ file, text: linesNow(file), lines: breakLines(file) })), bytes = new TextEncoder().encode(session), name = `${nameProject(sources[0][0])}.asm`, empty = emptyRun();
  if (!(await commands.replaced(name, "openSession", { bytes, isAlwaysKept: true }))) return null;
  setRunning(program, session, sources, desk.file);
  noteRan(sources);
  if (empty) attempt(() => dropRun(empty));
  attempt(() => giveNames(program, sources));
  for (const { breaks: lines } of desk.parts.values()) lines.clear();
  setBreaks(waiting.flatMap(({ file, text, lines }) => wordsOfLines(runningPart(file), text, lines)));
  effects = { count: -1, of: new Map() };
  await setRun(true, { goal, fast: goal !== null || isFast(), then: { fast: isFast() } });
  if (problems) notice(`${many(problems, "problem")}: the program before them was run.`);
  showSourceNow(), keepRunSoon();
  return app.work.generation;
}

/** Runs the edited program with the inputs of the run before, each at its count, and then live; and finds the first line that does something else. While that is
 * looked for, a text that did not change is not run again. */
export const runAgain = () => oneAtATime(`version ${sourceEditor().version}`, async () => {
  const runs = await oneAtATime("a run", runAgainNow);
  if (!runs?.now) return;
  el("source-parts").replaceChildren(paragraph("Looking for the first line that does something else ..", "hint"));
  await compareRuns(runs.first, runs.now, runs.count);
});

/** Returns the run before, the one that runs now, and the count up to which they are compared; or null, if none was run. */
async function runAgainNow() {
  const found = await programToRun(), before = runningProgram();
  if (!found) return null;
  if (!before) return notice("Run this source once first."), null;
  const { inputs, count } = await app.live.ask("inputs"), session = sessionWith(found.program.session, inputs);
  const goal = inputs.length ? inputs[inputs.length - 1][0] + 1 : null, first = { ...before, session: sessionWith(before.session, inputs) };
  return (await runProgram(found, session, goal)) === null ? null : { first, now: runningProgram(), count: Math.max(count, goal ?? 0) };
}

/** Returns a session with other inputs.
 * @param {string} session
 * @param {Input[]} inputs */
function sessionWith(session, inputs) {
  const { start: { disk, ...start }, pages } = JSON.parse(session);
  return sessionText(start, pages, inputs);
}

/** Saves the source. */
export async function saveSource() {
  notice();
  download(desk.file, `${sourceEditor().text.replace(/\n$/, "")}\n`, "text/plain");
}

// Breakpoints, the current line, and what lines did

/** Sets a breakpoint in a line, or takes it away. Without a program it waits for one.
 * @param {number} line */
function pressLine(line) {
  const word = wordOfLine(line), { breaks: lines } = partOf(desk.file);
  if (word !== undefined) toggleBreak(word);
  else if (!runningProgram() && !lines.delete(line)) lines.add(line);
  editor.showBeside();
}

/** What is beside a line: a breakpoint, the mark of the current line, and what it did last.
 * @param {number} line
 * @returns {import("./gutter.js").Beside} */
function beside(line) {
  const own = runningProgram(), word = own ? wordOfLine(line) : undefined, isHere = own ? word !== undefined && word === currentWord() : isNamedHere(line);
  const isBreak = word === undefined ? !own && partOf(desk.file).breaks.has(line) : breaks.has(word), did = word === undefined ? "" : effects.of.get(word) ?? "";
  return { isBreak, isHere, hasCode: word !== undefined || !own, did };
}

/** Whether the names of the machine say that the instruction that is looked at is of a line of the source that is shown, as it was opened.
 * @param {number} line */
function isNamedHere(line) {
  if (desk.isEdited || !app.latest || !names.symbols.files.has(desk.file)) return false;
  const place = currentPlace();
  return place.file === desk.file && place.line === line;
}

const currentWord = () => (app.latest?.on ? -1 : field(shownState(), AT.PC));

/** Shows what the tab says of the count that is looked at: the current line, and what the lines did last before it. */
export function showSourceNow() {
  if (!editor || !isTab("source")) return;
  set("source-again", { disabled: !runningProgram() });
  const { moment } = cursor, isStill = app.latest !== null && !app.latest.on, isRun = isStill && runningProgram() !== null;
  if (isStill) showCurrentLine();
  if (isRun && moment?.effects && moment.at === shownCount()) effects = { count: moment.at, of: new Map(moment.effects) };
  editor.showBeside();
  if (isRun && effects.count !== shownCount()) attempt(lookAtEffects);
}

/** Puts the current line in sight once the machine comes to it, in whichever source of the program it is; not while someone writes. */
function showCurrentLine() {
  const { file, line } = currentPlace(), place = [app.work.generation, shownCount(), currentWord()].join();
  if (place === followed || document.activeElement === editor.field || line === null || (desk.isEdited && !runningProgram())) return;
  followed = place;
  showPart(file);
  keepLineInSight();
}

/** Keeps the current line in sight if it is in the source that is shown; not while someone writes. */
export function keepLineInSight() {
  if (!editor || !isTab("source") || !app.latest || document.activeElement === editor.field) return;
  const { file, line } = currentPlace();
  if (file === desk.file && line !== null) editor.show(line);
}

/** Returns the file and the line of the instruction that is looked at: of the program of the source, or as the names have them. */
function currentPlace() {
  const word = currentWord(), own = runningProgram(), named = own || word < 0 ? null : lineOf(4 * word);
  if (!own) return named ? { file: named.file.slice(named.file.lastIndexOf("/") + 1), line: named.line - 1 } : { file: desk.file, line: null };
  const file = fileOfWord(word) || desk.file;
  return { file, line: file === desk.file ? lineOfWord(word) : own.parts.get(file)?.lines.get(word) ?? null };
}

/** Asks what the instructions before the count that is looked at did, and shows it. */
async function lookAtEffects() {
  const count = shownCount(), { generation } = app.work, done = await app.past.ask("effects", { at: count, before: EFFECTS_BEFORE });
  if (!done || count !== shownCount() || app.latest?.on || generation !== app.work.generation) return;
  effects = { count, of: new Map(done) };
  editor.showBeside();
}

/** Goes from the screen of the program to its source by Escape, while the tab is in sight: the machine does not get that key.
 * @param {KeyboardEvent} event */
function leaveScreen(event) {
  if (event.key !== "Escape" || event.isComposing || event.target !== el("screen") || !isTab("source") || !runningProgram()) return;
  event.preventDefault();
  event.stopPropagation();
  const line = Math.min(caret[0], editor.lines.length - 1);
  editor.field.focus({ preventScroll: true });
  editor.select([line, Math.min(caret[1], editor.lines[line].length)]);
}

/** Whether a name is that of a source.
 * @param {string} name */
export const isSourceName = (name) => /\.(?:asm|inc)$/i.test(name);

export function listenToSource() {
  ownEditor({ changed, beside, pressed: pressLine });
  on("source-run", "click", runSource);
  on("source-again", "click", ({ detail }) => (detail > 1 ? undefined : runAgain()));
  on("source-save", "click", saveSource);
  on("source-part", "change", ({ target }) => showPart(target.value));
  on("write", "click", writeProgram);
  listenToHelp();
  el("desk").addEventListener("keydown", leaveScreen, { capture: true });
  el("source").addEventListener("focusout", () => {
    if (editor.field.contains(getSelection()?.anchorNode ?? null)) caret = editor.selected[1];
  });
  el("panel-source").addEventListener("keydown", (event) => {
    if (event.key === "Escape" && document.activeElement === editor?.field) return el(runningProgram() ? "screen" : "source-run").focus({ preventScroll: true });
    if (event.key !== "Enter" || !event.ctrlKey || event.shiftKey || event.altKey) return;
    event.preventDefault();
    attempt(runSource);
  });
}

offer({ showSources });
