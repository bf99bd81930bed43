// @ts-check
/* Projects: what the browser keeps of one source, or of one family of branches, as the list says it. A run that is pinned is listed by itself. */
import { isSourceId } from "./keeping.js";
import { many, plainName } from "../formats/texts.js";

export const MOST_NAME = 80;

/** A project that is kept: its source, if that is kept and not open here, and its runs, those first that were worked on last.
 * @typedef {{ key: string, source: SourceHead | null, runs: RunHead[] }} Project */

/** @param {Head} head
 * @returns {head is SourceHead} */
export const isSource = (head) => isSourceId(head.of);

/** @param {Head} head */
function keyOf(head) {
  if (isSource(head)) return head.of;
  if (head.pinned) return `pinned ${head.of}`;
  return head.desk.source || (head.family === undefined ? head.of : `family ${head.family}`);
}

/** Returns the projects of what is kept, in the order of the heads.
 * @param {Head[]} heads
 * @returns {Project[]} */
export function projectsOf(heads) {
  /** @type {Map<string, Project>} */
  const projects = new Map();
  for (const head of heads) {
    const key = keyOf(head), project = projects.get(key) ?? { key, source: null, runs: [] };
    projects.set(key, project);
    if (isSource(head)) project.source = head;
    else project.runs.push(head);
  }
  return [...projects.values()];
}

/** Returns what a project is opened by: its last run, or its source if it has none.
 * @param {Project} project
 * @returns {Head} */
export const headOf = ({ source, runs: [newest] }) => newest ?? source;

/** Returns all that is kept of a project.
 * @param {Project} project
 * @returns {Head[]} */
export const partsOf = ({ source, runs }) => [...runs, ...(source ? [source] : [])];

/** @param {Project} project */
export const nameOf = (project) => nameIn(project.source?.name ? project.source : headOf(project));

/** Returns what an item is called: by its project, or a source without one by its file.
 * @param {Head} head */
export const nameIn = (head) => plainName((head.name || (isSource(head) ? head.desk.file : "")).slice(0, MOST_NAME));

/** @param {number} files */
export const filesText = (files) => (files > 1 ? ` and ${many(files - 1, "more file")}` : "");

/** Returns what the list says of an item after its name.
 * @param {Head} head
 * @param {boolean} isHereOnly */
export function textOf(head, isHereOnly = false) {
  const time = `of ${new Date(head.at).toLocaleString()}`, size = `${sizeText(head.size)}${isHereOnly ? "; it is in this page only, since this browser cannot keep it" : ""}`;
  if (isSource(head)) return `${filesText(head.files)}, ${time}: ${many(head.lines, "line")}, ${size}`;
  return `${head.family === undefined ? "" : `, branch ${head.number}`}, ${time}: ${many(head.until, "instruction")}, ${many(head.inputs, "input")}, ${size}`;
}

/** @param {number} bytes */
export const sizeText = (bytes) => (bytes < 1e5 ? `${Math.ceil(bytes / 1e3)} kB` : `${(bytes / 1e6).toFixed(1)} MB`);
