// @ts-check
/* The board of hand-ins: exported projects that came together, each with its last screen, the verdict on its recording, what a model's checkpoints or a lesson's
 * claims say of it, and where it parts from the model: by the lines of both sources, if these are known. Comparing lines may take long, so that comes last, in turns. */
import { app } from "../../host/app.js";
import { offer } from "../../host/commands.js";
import { shadesOf } from "../../formats/dots.js";
import { attempt, button, closer, el, made, named } from "../../host/elements.js";
import { readLine } from "../../formats/lines.js";
import { refusing } from "./opening.js";
import { readExported } from "./projectfile.js";
import { openProject } from "./projects.js";
import { Helper, Refusal } from "../../host/requests.js";
import { differenceText, sameText } from "../source/runcomparison.js";
import { smallPicture } from "../screen/screen.js";
import { shown } from "../../formats/shownnames.js";
import { grouped, many } from "../../formats/texts.js";
import { headlineOf } from "../screen/verdicts.js";

const MOST = 200, SECONDS = 30;
// How long a hand-in is compared with the model at most: in its first turn, and, if that is not enough, anew in later ones, each after all other hand-ins.
const LAST = 60, TURNS = [2, 10, LAST];
const HEADS = ["", "project", "its recording", "by the model's checkpoints", "parts from the model", "by the lesson"], BY_LESSON = 5;
/** A file that was handed in: what it has, or why it is refused; its row of cells; and whether it is known where it parts from the model.
 * @typedef {{ name: string, exported: import("./projectfile.js").Exported | null, cells: HTMLElement[], row: HTMLElement, isParted: boolean }} HandIn */

// The worker that judges, those that were handed in, and the one that is the model; the number of what is judged, which changes once that is to end; and the cell of
// the hand-in that is compared now.
const board = { worker: /** @type {Helper | null} */ (null), all: /** @type {HandIn[]} */ ([]), model: /** @type {HandIn | null} */ (null), turn: 0, now: /** @type {HTMLElement | null} */ (null) };

/** Shows files that came together. One that is named as a model, or as a solution, is the model until another is chosen.
 * @param {{ name: string, bytes: Bytes }[]} files */
async function showBoard(files) {
  const said = made("p", `${many(Math.min(files.length, MOST), "hand-in")}${files.length > MOST ? ` of ${grouped(files.length)} files` : ""}. A model is run beside each other one, with the model's inputs: by its checkpoints the screen, the LEDs and the sent bytes are compared, and then what each line does.`, "hint");
  const table = document.createElement("table"), heads = made("tr", ""), close = closer("Close the board", () => el("board").close());
  heads.append(...HEADS.map((head) => made("th", head)));
  const turn = endJudging();
  board.all = files.slice(0, MOST).map(({ name }) => handIn(name));
  table.append(heads, ...board.all.map(({ row }) => row));
  /** @param {boolean} isShown */
  const showByLesson = (isShown) => [...table.rows].forEach(({ cells }) => (cells[BY_LESSON].hidden = !isShown));
  showByLesson(false);
  el("board").replaceChildren(close, made("h2", "Hand-ins"), said, table);
  if (!el("board").open) el("board").showModal();
  el("board").onclose = endBoard;
  for (const [at, one] of board.all.entries()) {
    await read(one, files[at].bytes);
    if (turn !== board.turn) return;
  }
  showByLesson(board.all.some(({ exported }) => exported?.project.lesson));
  board.model = board.all.find(({ name, exported }) => exported && /model|solution/i.test(name)) ?? null;
  // What else came with them does not wait for that.
  attempt(judgeAll);
}

/** @param {string} name
 * @returns {HandIn} */
function handIn(name) {
  const row = made("tr", ""), cells = HEADS.map((title) => Object.assign(made("td", ""), { title }));
  row.append(...cells);
  cells[1].replaceChildren(named(name));
  return { name, exported: null, cells, row, isParted: false };
}

/** Reads a file that was handed in. One that is refused says why in its row.
 * @param {HandIn} one
 * @param {Bytes} bytes */
async function read(one, bytes) {
  try {
    one.exported = await readExported(bytes);
  } catch (error) {
    if (!(error instanceof Refusal)) throw error;
    one.exported = null;
    one.cells[2].replaceChildren(`refused: ${error.message}`);
  }
}

/** Judges all of them, one by one, and then compares each with the model, in turns. Choosing another model begins anew. */
async function judgeAll() {
  const turn = endJudging(), judged = board.all.filter(({ exported }) => exported);
  board.worker = new Helper(app.module, ({ sameUpTo }) => board.now?.replaceChildren(soFar(sameUpTo)));
  for (const one of judged) if (turn === board.turn) await attempt(() => judge(one, turn));
  for (const seconds of TURNS) for (const one of judged) if (turn === board.turn && !one.isParted) await attempt(() => part(one, seconds, turn));
  if (turn === board.turn) endJudging();
}

/** Ends what is judged. Returns the number of what is judged next. */
function endJudging() {
  board.worker?.end();
  board.worker = board.now = null;
  return ++board.turn;
}

/** The board was closed, and may be open again by now. */
function endBoard() {
  if (!el("board").open) endJudging();
}

/** @param {HandIn} one
 * @param {number} turn */
async function judge(one, turn) {
  const { name, exported, cells } = one, { model, worker } = board;
  if (!exported || !worker) return;
  const { project } = exported;
  const isModel = one === model, choose = button(isModel ? "It is the model" : "Use as the model", () => {
    board.model = isModel ? null : one;
    return judgeAll();
  });
  choose.setAttribute("aria-pressed", `${isModel}`);
  cells[1].replaceChildren(button(project.name, () => openFrom(name, exported)), made("br", ""), named(name), made("br", ""), choose);
  for (const cell of cells.slice(2)) cell.replaceChildren("..");
  one.isParted = false;
  const seen = await worker.ask("seen", { bytes: exported.recording }).catch(refusalOf);
  if (turn !== board.turn || !seen) return;
  cells[2].replaceChildren("refused" in seen ? seen.refused : headlineOf(readLine(seen.line)) || seen.line);
  if ("dots" in seen) cells[0].replaceChildren(smallPicture(shadesOf(seen.dots)));
  await compare(one, turn);
  await judgeLesson(one, turn);
}

/** @param {Error} error
 * @returns {{ refused: string }} */
function refusalOf(error) {
  if (!(error instanceof Refusal)) throw error;
  return { refused: error.message };
}

/** Compares the program of one with the model.
 * @param {HandIn} one
 * @param {number} turn */
async function compare({ exported, cells }, turn) {
  const { model, worker } = board, by = model?.exported;
  if (!by || !exported || by === exported || !worker) return cells[3].replaceChildren(by && by === exported ? "the model" : "");
  const found = await worker.ask("handIn", { model: by.recording, own: exported.recording, seconds: SECONDS }).catch(refusalOf);
  if (turn !== board.turn || !found) return;
  if ("refused" in found) return cells[3].replaceChildren(found.refused);
  const { line, counts } = found, { accepted, wrong } = readLine(line);
  cells[3].replaceChildren(accepted ? (counts.length === 1 ? "the same at its checkpoint" : `the same at all ${grouped(counts.length)} checkpoints`) : wrong ? `not the same at checkpoint ${wrong.number} of ${counts.length}, at ${grouped(wrong.count)}: ${wrong.part}` : line);
}

/** Finds where one parts from the model, within some seconds.
 * @param {HandIn} one
 * @param {number} seconds
 * @param {number} turn */
async function part(one, seconds, turn) {
  const { exported, cells } = one, { model, worker } = board, by = model?.exported;
  one.isParted = !by || !exported || by === exported;
  if (!by || !exported || one.isParted || !worker) return cells[4].replaceChildren();
  const sources = [by, exported].map(({ project }) => project.ran ?? project.sources);
  board.now = cells[4];
  const found = await worker.ask("handInParting", { model: by.recording, own: exported.recording, sources, seconds }).catch(refusalOf);
  if (turn !== board.turn || !found) return;
  one.isParted = seconds === LAST || !("refused" in found || (found.lines?.isLate && !found.lines.first));
  const text = "refused" in found ? found.refused : one.isParted ? partingText(found, sources.some(({ length }) => length > 1)) : soFar(found.lines?.upTo[1] ?? 0);
  if (one.isParted || !("refused" in found)) cells[4].replaceChildren(text);
}

/** @param {number} upTo */
const soFar = (upTo) => `so far the same up to ${grouped(upTo)} ..`;

/** Says where a hand-in parts from the model.
 * @param {NonNullable<Requests["handInParting"][1]>} found
 * @param {boolean} areSeveral whether a program has several sources */
function partingText({ at, lines, where }, areSeveral) {
  const textOf = (/** @type {LinePlace} */ { file, line }) => `line ${line}${areSeveral ? ` of ${shown(file)}` : ""}`;
  if (lines?.first) return `${differenceText(lines.first, ["the model", "this one"], textOf)}.`;
  if (lines) return `${lines.isLate ? `not found in ${LAST} s` : "nowhere"}. ${sameText(lines.upTo, "the model")}`;
  return at === null ? "nowhere" : `at ${grouped(at)}${where ? `, after ${textOf(where)}` : ""}`;
}

/** Judges the program of one by each claim of the lesson: that of the model, or else its own.
 * @param {HandIn} one
 * @param {number} turn */
async function judgeLesson({ exported, cells }, turn) {
  const project = exported?.project, lesson = board.model?.exported?.project.lesson ?? project?.lesson, { worker } = board;
  if (!project || !lesson || !worker) return cells[BY_LESSON].replaceChildren();
  const { file } = project, parts = project.ran ?? project.sources;
  let done = 0, first = "";
  for (const [at, { claim }] of lesson.steps.entries()) {
    const found = await worker.ask("judge", { source: "", file, parts, claim, seconds: SECONDS }).catch(refusalOf);
    if (turn !== board.turn || !found) return;
    if (!("refused" in found) && found.line && readLine(found.line).accepted) done++;
    else first ||= `; step ${at + 1}: ${"refused" in found ? found.refused : found.line ?? many(found.number, "problem")}`;
  }
  cells[BY_LESSON].replaceChildren(`${done} of ${many(lesson.steps.length, "step")}${first}`);
}

/** Opens one of them.
 * @param {string} name
 * @param {import("./projectfile.js").Exported} exported */
async function openFrom(name, exported) {
  el("board").close();
  await refusing(name, () => openProject(exported));
}

offer({ showBoard });
