// @ts-check
/* Where somebody writes a lesson for the source that is open: its steps, each with its task, what is seen, and what it claims, which is what the page shows as
 * that is claimed. It is kept with the source, and exported with its project. */
import { commands } from "../../host/commands.js";
import { desk, setDesk } from "./desk.js";
import { button, closeMenus, closer, el, made, notice, paragraph, set } from "../../host/elements.js";
import { Refusal } from "../../host/requests.js";
import { isPast, shownCount, shownState } from "../../host/shown.js";
import { keepSourceSoon } from "./sourceautosave.js";
import { AT, field } from "../../formats/states.js";
import { grouped, plainName } from "../../formats/texts.js";

/** @typedef {{ task: string, see: string, claim: Wanted | null }} Draft */
const EMPTY = { task: "", see: "", claim: null };

/** Shows the form in which a lesson is written: with the steps of the one that is open, or with an empty step. */
export async function writeLesson() {
  closeMenus();
  const { title, steps } = desk.lesson ?? { title: "", steps: [] };
  showForm(title, steps.length ? steps : [EMPTY]);
}

/** @param {string} title
 * @param {Draft[]} drafts */
function showForm(title, drafts) {
  const name = Object.assign(document.createElement("input"), { value: title, maxLength: 200, ariaLabel: "Title of the lesson", placeholder: "title of the lesson" });
  const steps = drafts.map(stepForm), more = button("One more step", () => showForm(name.value, [...steps.map(({ read }) => read()), EMPTY]));
  const done = button("Show the lesson", () => take(name.value, steps.map(({ read }) => read())));
  const close = closer("Close the form", () => (desk.lesson ? commands.showLesson(desk.lesson) : set("lesson", { hidden: true })));
  done.className = "main";
  el("lesson").hidden = false;
  el("lesson").replaceChildren(close, name, ...steps.flatMap(({ parts }) => parts), " ", more, " ", done, paragraph("Export, under Saved, writes one file with the lesson.", "hint"));
}

/** Returns the fields of a step, and how to read them.
 * @param {Draft} draft
 * @param {number} at */
function stepForm({ task, see, claim }, at) {
  const [first, second] = [["task", task], ["what is seen once it is done", see]].map(([placeholder, value]) =>
    Object.assign(made("textarea", "", "wide"), { value, placeholder, rows: 2, ariaLabel: `Step ${at + 1}: ${placeholder}` }));
  const said = paragraph(claimText(claim), "hint"), here = button("Claim what is shown", () => write((claim = claimHere())));
  const write = (/** @type {Wanted} */ it) => void (said.textContent = claimText(it));
  return { parts: [paragraph(`Step ${at + 1}`, "hint"), first, second, here, said], read: () => ({ task: first.value, see: second.value, claim }) };
}

/** Says what a step claims.
 * @param {Wanted | null} claim */
function claimText(claim) {
  if (!claim) return "It claims nothing yet: go to a count, and claim what is shown there.";
  const { at, ...parts } = claim;
  return `At count ${grouped(at)}: ${JSON.stringify(parts).slice(1, -1)}`;
}

/** Returns a claim of what is seen from outside at the count that is looked at: the LEDs, and now what was sent.
 * @returns {Wanted} */
function claimHere() {
  if (!shownCount()) throw new Refusal("A step claims what is shown at a count above 0.");
  const sent = isPast() ? "" : el("out").textContent;
  return { at: shownCount(), LEDs: field(shownState(), AT.LEDs), ...(sent ? { sent } : {}) };
}

/** Takes a lesson that was written, or refuses it by its first step that is wrong.
 * @param {string} title
 * @param {Draft[]} drafts */
function take(title, drafts) {
  notice();
  if (!title.trim()) throw new Refusal("A lesson needs a title.");
  const steps = drafts.map(({ task, see, claim }, at) => {
    if (!claim) throw new Refusal(`Step ${at + 1} claims nothing: press "Claim what is shown".`);
    return { task: task.trim(), see: see.trim(), claim };
  });
  setDesk({ lesson: { title: plainName(title.trim()), steps }, isEdited: true });
  keepSourceSoon();
  if (desk.lesson) commands.showLesson(desk.lesson);
}
