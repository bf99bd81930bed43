// @ts-check
/* A text field for sources: lines with numbers and a gutter (gutter.js), a row below a line that has a mistake, and what is said at the end of a line.
 * The text is a list of lines, and each line an element, so that the browser's own search, selection and screen readers have all of it;
 * what is typed (typing.js) changes the list and then the elements. */
import { made } from "../../host/elements.js";
import { Gutter, MOST_ROWS } from "./gutter.js";
import { Typing } from "./typing.js";

/** A place in the text: its line and its column, both from 0.
 * @typedef {[number, number]} Spot */
/** A change of the text: what was put in place of what, where, and when.
 * @typedef {{ at: Spot, removed: string, inserted: string, ms: number }} Change */

const TYPED_TOGETHER_MS = 1500, MOST_CHANGES = 500, MOST_CHANGED = 1 << 20;
// Lines are in chunks, of which the browser lays out only those in sight; a larger one is cut in two. The width of a line's end beyond its text.
const CHUNK = 100, LARGEST_CHUNK = 250, MOST_INSERTED = 500, BEYOND = 40, LONGEST_SHOWN = 5000;

/** @param {Spot} one @param {Spot} other */
const isBefore = (one, other) => one[0] < other[0] || (one[0] === other[0] && one[1] < other[1]);

export class Editor {
  /** @type {string[]} */
  lines = [""];
  /** @type {HTMLElement[]} */
  rows = [];
  /** @type {Change[]} */
  done = [];
  /** @type {Change[]} */
  undone = [];
  // How often the text was changed, so that one sees whether it is another one.
  version = 0;
  /** The lines that have mistakes, by their numbers from 0.
   * @type {Map<number, string[]>} */
  mistakes = new Map();
  // How high a line is, how many characters the widest one has, and how many rows of mistakes are in each chunk.
  lineHeight = 0;
  widest = 0;
  /** @type {WeakMap<Element, number>} */
  extra = new WeakMap();

  /** `changed` is called after each change of the text, and `beside` says what is shown beside a line, by its number from 0. A click in the
   * gutter calls `pressed`.
   * @param {HTMLElement} box
   * @param {{ changed: () => void } & import("./gutter.js").Owner} owner */
  constructor(box, owner) {
    this.box = box;
    this.owner = owner;
    this.gutter = new Gutter(this, owner);
    this.field = made("div", "", "text");
    Object.assign(this.field, { contentEditable: "true", spellcheck: false, role: "textbox" });
    for (const [name, value] of [["aria-multiline", "true"], ["aria-label", "Source"], ["aria-description", "Esc leaves. Tab indents after another key."], ["autocapitalize", "off"], ["autocorrect", "off"]]) this.field.setAttribute(name, value);
    box.replaceChildren(this.gutter.element, this.field);
    this.typing = new Typing(this);
    this.setText("");
  }

  get text() {
    return this.lines.join("\n");
  }

  /** Puts a text in place of the one that is there, with the changes that led to it.
   * @param {string} text
   * @param {Change[]} done */
  setText(text, done = []) {
    this.lines = plainLines(text);
    Object.assign(this, { done: [...done], undone: [], mistakes: new Map() });
    this.drawAll();
  }

  /** Makes all elements anew. */
  drawAll() {
    this.rows = this.lines.map(lineElement);
    const chunks = Array.from({ length: Math.ceil(this.rows.length / CHUNK) }, (_, at) => this.chunkOf(this.rows.slice(at * CHUNK, (at + 1) * CHUNK)));
    this.field.replaceChildren(...chunks);
    this.version++;
    this.widen();
    this.showBeside();
  }

  /** Makes a chunk of lines.
   * @param {HTMLElement[]} rows */
  chunkOf(rows) {
    const chunk = made("div", "", "chunk");
    for (const row of rows) chunk.append(row);
    return this.sizeChunk(chunk);
  }

  /** Says how high a chunk is, which the browser need not lay out for it.
   * @template {Element} T
   * @param {T} chunk */
  sizeChunk(chunk) {
    if (chunk instanceof HTMLElement) chunk.style.setProperty("contain-intrinsic-height", `${(chunk.childElementCount + (this.extra.get(chunk) ?? 0)) * this.high}px`);
    return chunk;
  }

  /** Keeps changed chunks neither empty nor too large.
   * @param {Iterable<Element | null>} chunks */
  tidy(chunks) {
    for (const chunk of chunks) {
      if (!chunk?.childElementCount) chunk?.remove();
      else if (chunk.childElementCount > LARGEST_CHUNK) chunk.after(this.chunkOf(/** @type {HTMLElement[]} */ ([...chunk.children].slice(CHUNK))));
      if (chunk?.childElementCount) this.sizeChunk(chunk);
    }
  }

  /** Makes room for the widest line: a line in a chunk is cut off at its end. */
  widen() {
    const widest = Math.min(LONGEST_SHOWN, this.lines.reduce((most, line) => Math.max(most, line.length), 0));
    if (widest !== this.widest) this.field.style.minWidth = `${widest + BEYOND}ch`;
    this.widest = widest;
  }

  // Where the caret is

  /** Returns the place of a node and an offset in it.
   * @param {Node | null} node
   * @param {number} offset
   * @returns {Spot} */
  spotOf(node, offset) {
    if (!node) return this.end;
    if (node === this.field) return this.field.childNodes[offset] ? this.spotOf(this.field.childNodes[offset], 0) : this.end;
    /** @type {Node} */
    let row = node;
    while (row.parentNode && row.parentNode.parentNode !== this.field) row = row.parentNode;
    // In a chunk, and in no line of it.
    if (row.parentNode === null) return this.spotInChunk(node, offset);
    const line = this.rows.indexOf(/** @type {HTMLElement} */ (row));
    if (line < 0) return this.spotInChunk(node, offset);
    return [line, node === row ? (offset ? this.lines[line].length : 0) : Math.min(offset, this.lines[line].length)];
  }

  /** @param {Node} chunk @param {number} offset
   * @returns {Spot} */
  spotInChunk(chunk, offset) {
    const row = chunk.childNodes[offset] ?? chunk.nextSibling?.firstChild, line = this.rows.indexOf(/** @type {HTMLElement} */ (row));
    return line < 0 ? this.end : [line, 0];
  }

  /** @returns {Spot} */
  get end() {
    return [this.lines.length - 1, this.lines[this.lines.length - 1].length];
  }

  /** Returns what is selected: where it begins, and where it ends.
   * @returns {[Spot, Spot]} */
  get selected() {
    const found = getSelection();
    if (!found?.anchorNode || !this.field.contains(found.anchorNode)) return [this.end, this.end];
    const one = this.spotOf(found.anchorNode, found.anchorOffset), other = this.spotOf(found.focusNode, found.focusOffset);
    return isBefore(other, one) ? [other, one] : [one, other];
  }

  /** @param {Spot} from @param {Spot} to */
  select(from, to = from) {
    const [one, other] = [from, to].map(([line, column]) => {
      const row = this.rows[line], text = row.firstChild;
      return text instanceof Text ? { node: text, offset: Math.min(column, text.length) } : { node: row, offset: 0 };
    });
    getSelection()?.setBaseAndExtent(one.node, one.offset, other.node, other.offset);
  }

  /** Shows a line, with the caret at a column of it.
   * @param {number} line
   * @param {number} column */
  goTo(line, column = 0) {
    const at = Math.max(0, Math.min(line, this.lines.length - 1));
    this.field.focus({ preventScroll: true });
    this.select([at, Math.min(column, this.lines[at].length)]);
    this.rows[at].scrollIntoView({ block: "nearest" });
    this.showCaret();
  }

  /** Scrolls sideways to the beginning of the line with the caret, or as far as the caret needs it. An empty line has no place for it. */
  showCaret() {
    const { box } = this, { left, width } = box.getBoundingClientRect(), caret = getSelection()?.getRangeAt(0).getBoundingClientRect();
    const column = caret?.height ? caret.left - left + box.scrollLeft : 0;
    box.scrollLeft = column > width ? column - width / 2 : 0;
  }

  /** Brings a line into sight, unless it is.
   * @param {number} line */
  show(line) {
    const { high } = this, top = this.topOf(line), { scrollTop, clientHeight } = this.box;
    if (top < scrollTop || top + 2 * high > scrollTop + clientHeight) this.box.scrollTop = top - clientHeight / 3;
  }

  // Changes

  /** Returns the text between two places.
   * @param {Spot} from
   * @param {Spot} to */
  textBetween(from, to) {
    if (from[0] === to[0]) return this.lines[from[0]].slice(from[1], to[1]);
    return [this.lines[from[0]].slice(from[1]), ...this.lines.slice(from[0] + 1, to[0]), this.lines[to[0]].slice(0, to[1])].join("\n");
  }

  /** Puts a text in place of what is between two places, and the caret after it. It can be undone.
   * @param {Spot} from
   * @param {Spot} to
   * @param {string} text */
  replace(from, to, text) {
    const inserted = plainLines(text).join("\n"), removed = this.textBetween(from, to);
    if (!inserted && !removed) return;
    this.note({ at: from, removed, inserted, ms: performance.now() });
    this.undone = [];
    this.select(this.put(from, to, inserted));
    this.owner.changed();
  }

  /** Notes a change, with the one before if both were typed at once.
   * @param {Change} change */
  note(change) {
    const last = this.done[this.done.length - 1], { at, removed, inserted, ms } = change;
    const isTyped = last && !removed && !last.removed && inserted.length === 1 && /\S/.test(inserted) && ms - last.ms < TYPED_TOGETHER_MS;
    const isNext = isTyped && at[0] === last.at[0] && at[1] === last.at[1] + last.inserted.length && !last.inserted.includes("\n");
    if (isNext) Object.assign(last, { inserted: last.inserted + inserted, ms });
    else this.done.push(change);
    for (let size = this.done.reduce((sum, one) => sum + one.removed.length + one.inserted.length, 0); this.done.length > MOST_CHANGES || size > MOST_CHANGED; ) {
      const dropped = this.done.shift();
      if (!dropped) return;
      size -= dropped.removed.length + dropped.inserted.length;
    }
  }

  /** Puts a text in place of another one. Returns where it ends.
   * @param {Spot} from
   * @param {Spot} to
   * @param {string} text
   * @returns {Spot} */
  put([line, column], [lastLine, lastColumn], text) {
    const before = this.lines[line].slice(0, column), after = this.lines[lastLine].slice(lastColumn), parts = text.split("\n"), { length } = parts;
    /** @type {Spot} */
    const end = [line + length - 1, (length === 1 ? column : 0) + parts[length - 1].length];
    parts[0] = before + parts[0];
    parts[length - 1] += after;
    // A splice with very many items would pass each as an argument.
    this.lines = [...this.lines.slice(0, line), ...parts, ...this.lines.slice(lastLine + 1)];
    this.shiftMistakes(line, length - 1 - (lastLine - line));
    if (length + lastLine - line > MOST_INSERTED) {
      this.drawAll();
      return end;
    }
    const more = parts.slice(1).map(lineElement), gone = this.rows.slice(line + 1, lastLine + 1), chunks = new Set([this.rows[line], ...gone].map((row) => row.parentElement));
    fillRow(this.rows[line], parts[0]);
    for (const row of gone) row.remove();
    this.rows[line].after(...more);
    this.rows = [...this.rows.slice(0, line + 1), ...more, ...this.rows.slice(lastLine + 1)];
    if (more.length || gone.length) this.tidy(chunks);
    this.version++;
    this.widen();
    this.showBeside();
    return end;
  }

  /** Moves mistakes with their lines, until the source is assembled anew.
   * @param {number} line
   * @param {number} by */
  shiftMistakes(line, by) {
    if (by) this.mistakes = new Map([...this.mistakes].map(([at, texts]) => [at > line ? at + by : at, texts]));
  }

  undo() {
    const change = this.done.pop();
    if (!change) return;
    // What was kept may have been changed by others.
    if (!this.has(change.at, change.inserted)) return void (this.done = []);
    this.undone.push(change);
    this.select(this.put(change.at, endOf(change.at, change.inserted), change.removed));
    this.owner.changed();
  }

  /** Whether a text is at a place.
   * @param {Spot} at
   * @param {string} text */
  has(at, text) {
    const end = endOf(at, text);
    return end[0] < this.lines.length && this.textBetween(at, end) === text;
  }

  redo() {
    const change = this.undone.pop();
    if (!change) return;
    this.done.push(change);
    this.select(this.put(change.at, endOf(change.at, change.removed), change.inserted));
    this.owner.changed();
  }

  // What is beside the lines

  /** How high a line is. */
  get high() {
    if (!this.lineHeight && this.box.offsetParent) this.lineHeight = parseFloat(getComputedStyle(this.field).lineHeight);
    return this.lineHeight || 18;
  }

  /** Where a line begins.
   * @param {number} line */
  topOf(line) {
    let rows = line;
    for (const [at, texts] of this.mistakes) if (at < line) rows += Math.min(texts.length, MOST_ROWS);
    return rows * this.high;
  }

  /** Says which lines have mistakes, by their numbers from 0.
   * @param {Map<number, string[]>} mistakes */
  setMistakes(mistakes) {
    const before = this.field.querySelectorAll("[data-wrong]"), chunks = new Set([...before].map((row) => row.parentElement));
    for (const row of before) row.removeAttribute("data-wrong");
    for (const chunk of chunks) if (chunk) this.extra.delete(chunk);
    this.mistakes = new Map([...mistakes].filter(([at]) => at < this.rows.length));
    for (const [at, texts] of this.mistakes) {
      const chunk = this.rows[at].parentElement;
      if (chunk) this.extra.set(chunk, (this.extra.get(chunk) ?? 0) + Math.min(texts.length, MOST_ROWS)), chunks.add(chunk);
      const more = texts.length - MOST_ROWS, said = more > 0 ? [...texts.slice(0, MOST_ROWS - 1), `and ${more + 1} more`] : texts;
      this.rows[at].dataset.wrong = said.map((text) => `^ ${text}`).join("\n");
    }
    for (const chunk of chunks) if (chunk) this.sizeChunk(chunk);
    this.showBeside();
  }

  /** Shows what is beside the lines in sight. */
  showBeside() {
    this.gutter.show();
  }
}

/** Returns a text, whose lines may end in any way, with one end of a line.
 * @param {string} text */
export const plainText = (text) => text.replace(/\r\n?/g, "\n");
/** @param {string} text */
const plainLines = (text) => plainText(text).split("\n");

/** Makes the element of a line.
 * @param {string} text */
function lineElement(text) {
  const row = document.createElement("div");
  fillRow(row, text);
  return row;
}

/** Writes a line to its element. An empty line has a break, so that it is as high as others, and the caret can be in it.
 * @param {HTMLElement} row
 * @param {string} text */
function fillRow(row, text) {
  // Of a very long line the browser gets the beginning, which cannot be changed.
  const isCut = text.length > LONGEST_SHOWN;
  row.classList.toggle("cut", isCut);
  if (isCut) row.contentEditable = "false";
  else row.removeAttribute("contenteditable");
  if (text) row.textContent = text.slice(0, LONGEST_SHOWN);
  else row.replaceChildren(document.createElement("br"));
}

/** Returns where a text ends that begins at a place.
 * @param {Spot} at
 * @param {string} text
 * @returns {Spot} */
function endOf([line, column], text) {
  const parts = text.split("\n"), { length } = parts;
  return [line + length - 1, (length === 1 ? column : 0) + parts[length - 1].length];
}
