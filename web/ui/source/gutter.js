// @ts-check
/* What is beside the lines of a source: their numbers with the places of breakpoints, which line is the current one, and what lines did. Only what is in sight
 * has elements. */
import { made } from "../../host/elements.js";

/** What is shown beside a line.
 * @typedef {{ isBreak: boolean, isHere: boolean, hasCode: boolean, did: string }} Beside */
/** Says what is beside a line, by its number from 0, and hears of a click on its number.
 * @typedef {{ beside: (line: number) => Beside, pressed: (line: number) => void }} Owner */

// How many lines more have elements than are in sight, above and below; and how many rows of mistakes a line has at most.
const OVERSCAN = 20;
export const MOST_ROWS = 3;

export class Gutter {
  /** The elements that are there, by the numbers of their lines.
   * @type {Map<number, { line: HTMLElement, button: HTMLButtonElement }>} */
  shown = new Map();
  /** The lines that have something at their ends.
   * @type {Set<HTMLElement>} */
  marked = new Set();
  element = made("div", "", "numbers");

  /**
   * @param {import("./editor.js").Editor} editor
   * @param {Owner} owner
   */
  constructor(editor, owner) {
    this.editor = editor;
    this.owner = owner;
    editor.box.addEventListener("scroll", () => this.show(), { passive: true });
    this.element.addEventListener("click", ({ target }) => {
      const button = target instanceof Element ? target.closest("button") : null;
      if (button) owner.pressed(Number(button.dataset.line));
    });
  }

  /** Shows what is beside the lines in sight: numbers, breakpoints, the current line, mistakes, and what they did. */
  show() {
    const { editor } = this, { high, box, mistakes } = editor, { scrollTop, clientHeight } = box;
    if (!box.offsetParent) return;
    const from = Math.max(0, this.lineAt(scrollTop) - OVERSCAN), to = Math.min(editor.lines.length, this.lineAt(scrollTop + clientHeight) + OVERSCAN);
    const width = `${`${editor.lines.length}`.length + 3}ch`;
    if (box.style.getPropertyValue("--gutter") !== width) box.style.setProperty("--gutter", width);
    for (const [at, { line }] of this.shown) if (at < from || at >= to) line.remove(), this.shown.delete(at);
    for (const row of this.marked) row.classList.remove("here"), delete row.dataset.did;
    this.marked.clear();
    let top = editor.topOf(from);
    for (let at = from; at < to; at++) {
      this.showLine(at, top, this.owner.beside(at));
      top += high * (1 + Math.min(mistakes.get(at)?.length ?? 0, MOST_ROWS));
    }
  }

  /** @param {number} top */
  lineAt(top) {
    const { editor } = this, { high } = editor;
    let line = Math.floor(top / high);
    if (editor.mistakes.size) while (line > 0 && editor.topOf(line) > top) line -= Math.max(1, Math.floor((editor.topOf(line) - top) / high / 2));
    return Math.max(0, Math.min(line, editor.lines.length - 1));
  }

  /** @param {number} at @param {number} top @param {Beside} beside */
  showLine(at, top, { isBreak, isHere, hasCode, did }) {
    const { mistakes, rows } = this.editor, { line, button } = this.shown.get(at) ?? this.newNumber(at), row = rows[at];
    line.style.top = `${top}px`;
    line.classList.toggle("bad", mistakes.has(at));
    line.classList.toggle("here", isHere);
    button.disabled = !hasCode && !isBreak;
    button.setAttribute("aria-pressed", `${isBreak}`);
    if (!isHere && !did) return;
    row.classList.toggle("here", isHere);
    if (did && !mistakes.has(at)) row.dataset.did = did;
    this.marked.add(row);
  }

  /** @param {number} at */
  newNumber(at) {
    const line = made("div", "", "number"), button = made("button", "", "gutter"), parts = { line, button };
    Object.assign(button, { type: "button", tabIndex: -1, ariaLabel: `breakpoint in line ${at + 1}` });
    button.dataset.line = `${at}`;
    line.append(button, `${at + 1}`);
    this.element.append(line);
    this.shown.set(at, parts);
    return parts;
  }
}
