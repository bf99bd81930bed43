// @ts-check
/* Lessons and examples: a chooser of sources, and the steps of a lesson beside its source, each with its task and what must be seen. */
import { offer } from "../../host/commands.js";
import { assembler, FIRST_SOURCE, setDesk, sourceEditor, sourceFile, sourcesNow } from "./desk.js";
import { button, closeMenus, closer, el, made, notice, paragraph, set } from "../../host/elements.js";
import { unpacked } from "../../host/packed.js";
import { app } from "../../host/app.js";
import { isDone, nowCount } from "../../host/shown.js";
import { showSource } from "./source.js";
import { beginSource } from "./sourceautosave.js";
import { writeLesson } from "./teaching.js";
import { runningProgram } from "./sourceprogram.js";
import { grouped, many } from "../../formats/texts.js";

const JUDGE_SECONDS = 30;
/** @typedef {import("../../formats/project.js").Lesson} Lesson */
/** @typedef {{ examples: { [name: string]: string }, lessons: (Lesson & { example: string })[] }} Offered */
/** @type {Promise<Offered> | null} */
let read = null;
/** @returns {Promise<Offered>} */
const offeredSources = () => (read ??= unpacked("sources").then((bytes) => JSON.parse(new TextDecoder().decode(bytes))));

/** Fills the chooser, once it is opened. */
export async function showLessons() {
  if (el("lessons-list").childElementCount) return;
  const { lessons, examples } = await offers();
  el("lessons-list").replaceChildren(button("A new program", openNew), paragraph("Lessons", "hint"), ...lessons, button("Write a lesson", writeLesson), paragraph("Examples", "hint"), ...examples);
}

/** Offers lessons and examples beside an empty screen. */
export async function showFirst() {
  const { lessons, examples } = await offers();
  el("first").replaceChildren(made("h2", "Lessons"), ...lessons, made("h2", "Examples"), ...examples);
}

/** Returns a button for each lesson and each example. */
async function offers() {
  const { examples, lessons } = await offeredSources();
  return {
    lessons: lessons.map((lesson, at) => button(`${at + 1}. ${lesson.title}`, () => openLesson(lesson, 0))),
    examples: Object.keys(examples).map((name) => button(name, () => openExampleSource(name))),
  };
}

/** Begins an empty program. */
async function openNew() {
  closeMenus();
  await beginSource();
  showSource("program.asm", FIRST_SOURCE);
}

/** Opens the source of an example.
 * @param {string} name */
async function openExampleSource(name) {
  const { examples, lessons } = await offeredSources();
  closeMenus();
  await beginSource();
  showSource(`${name}.asm`, examples[name]);
  if (name === "snake") showStep(lessons[lessons.length - 1], 0);
}

/** Opens a lesson of this page at a step.
 * @param {Lesson & { example: string }} lesson
 * @param {number} at */
async function openLesson(lesson, at) {
  const { examples } = await offeredSources();
  closeMenus();
  await beginSource();
  showSource(`${lesson.example}.asm`, examples[lesson.example]);
  showStep(lesson, at);
}

/** Shows the lesson of a file, if the user wants to see it: its author may have written anything there.
 * @param {Lesson} lesson */
export function offerLesson(lesson) {
  const { title, steps } = lesson;
  if (confirm(`This project is an answer to a lesson, or is one: "${title}", ${many(steps.length, "step")}, in words of its author. Show it?`)) showStep(lesson, 0);
}

/** @param {Lesson} lesson @param {number} at */
export function showStep(lesson, at) {
  setDesk({ lesson: { title: lesson.title, steps: lesson.steps } });
  const { title, steps } = lesson, { task, see } = steps[at], said = paragraph("", "line note"), seen = paragraph("", "hint");
  const next = at + 1 < steps.length ? [button("Next step", async () => showStep(lesson, at + 1))] : [];
  const test = button("Check it", () => judge(steps[at].claim, said, () => (seen.textContent = see)));
  const close = closer("Close the lesson", () => (setDesk({ lesson: null }), set("lesson", { hidden: true })));
  said.hidden = true;
  el("lesson").hidden = false;
  el("lesson").replaceChildren(close, paragraph(`${title}, step ${at + 1} of ${steps.length}`, "hint"), paragraph(task), test, " ", ...next, said, seen);
}

/** Returns why a step cannot be checked yet: it asks what a run of the source as it is now has at a count. Or null.
 * @param {number} at */
function notRun(at) {
  const own = runningProgram();
  if (!own) return "Run the program first.";
  if (own.source.join("\n") !== sourceEditor().text) return "The source was changed since it ran: run it first.";
  return nowCount() < at && !(app.latest && isDone(app.latest)) ? `The run is at count ${grouped(nowCount())}, and this step asks about count ${grouped(at)}: run on first.` : null;
}

/** Lets the check judge the claim of a step, once the program was run: the verdict line of a recording of the program says whether it did what is wanted. If not, the
 * page says what was found, what is wanted, and where.
 * @param {Wanted} claim
 * @param {HTMLElement} said
 * @param {() => void} accepted */
async function judge(claim, said, accepted) {
  notice();
  const why = notRun(claim.at);
  Object.assign(said, { hidden: false, textContent: why ?? "checking ..", title: "", className: "line note" });
  if (why) return;
  const answer = await assembler().ask("judge", { source: "", file: sourceFile(), parts: sourcesNow(), claim, seconds: JUDGE_SECONDS });
  if (!answer) return;
  const { line, number, differing, after } = answer, isTrue = line?.startsWith("accepted");
  const differ = differing.map(([name, found, wanted]) => `${name} is ${found}, wanted is ${wanted}`).join("; ");
  const where = `at count ${grouped(claim.at)}${after === null ? "" : `, after line ${after}`}`;
  said.textContent = line === null ? `There is no program: ${many(number, "problem")}.` : isTrue || !differ ? line : `Not yet: ${where}, ${differ}.`;
  Object.assign(said, { title: line ?? "", className: `line ${isTrue ? "accepted" : "false"}` });
  if (isTrue) accepted();
}

offer({ showLesson: (lesson) => showStep(lesson, 0) });
