// @ts-check
/* What is typed into the field for sources: it is taken from the browser's events, which change the text and then the elements. A composition is the
 * browser's own, and is read back. */

/** @typedef {import("./editor.js").Editor} Editor */
/** @typedef {import("./editor.js").Spot} Spot */

const WIDTH_OF_TAB = 8, PAIRS = new Map([["(", ")"], ['"', '"'], ["'", "'"]]);

export class Typing {
  isComposing = false;
  // Whether Tab goes on to the next control: it came here by Tab, and nothing else was pressed since.
  isPassed = false;

  /** @param {Editor} editor */
  constructor(editor) {
    this.editor = editor;
    const { field } = editor;
    this.listenToTab();
    field.addEventListener("beforeinput", (event) => this.typed(event));
    field.addEventListener("input", () => this.isComposing || this.readBack());
    field.addEventListener("compositionstart", () => (this.isComposing = true));
    field.addEventListener("compositionend", () => ((this.isComposing = false), this.readBack()));
    field.addEventListener("keydown", (event) => this.pressed(event));
    field.addEventListener("paste", (event) => this.pasted(event));
    for (const type of ["copy", "cut"]) field.addEventListener(type, (event) => this.copied(/** @type {ClipboardEvent} */ (event)));
    for (const type of ["dragstart", "dragover"]) field.addEventListener(type, (event) => event.preventDefault());
  }

  /** Notes whether the focus comes by Tab. Then Tab goes on to the next control, until another key or the mouse is pressed here: so nobody is caught. */
  listenToTab() {
    const { field } = this.editor;
    let isTab = false;
    addEventListener("keydown", ({ key }) => (isTab = key === "Tab"), true);
    addEventListener("keyup", () => (isTab = false), true);
    field.addEventListener("focus", () => (this.isPassed = isTab));
    field.addEventListener("pointerdown", () => (this.isPassed = false));
  }

  /** @param {InputEvent} event */
  typed(event) {
    const { inputType, data } = event, [range] = event.getTargetRanges();
    if (inputType === "insertCompositionText" || this.isComposing) return;
    event.preventDefault();
    if (inputType === "historyUndo") return this.editor.undo();
    if (inputType === "historyRedo") return this.editor.redo();
    const [from, to] = range ? this.spotsOf(range) : this.editor.selected;
    if (inputType.startsWith("delete")) return this.editor.replace(from, to, "");
    if (inputType === "insertParagraph" || inputType === "insertLineBreak") return this.editor.replace(from, to, `\n${this.indentAfter(from)}`);
    if (data === ":" && this.outdented(from, to)) return;
    const text = data ?? event.dataTransfer?.getData("text/plain") ?? "", closing = PAIRS.get(text), inside = this.editor.textBetween(from, to);
    return this.editor.replace(from, to, closing && inside && !inside.includes("\n") ? text + inside + closing : text);
  }

  /** Puts a label whose colon is typed where its line begins.
   * @param {Spot} from
   * @param {Spot} to */
  outdented([line, column], to) {
    const found = /^[ \t]+([A-Za-z_][\w.]*)$/.exec(this.editor.lines[line].slice(0, column));
    if (found) this.editor.replace([line, 0], to, `${found[1]}:`);
    return found !== null;
  }

  /** @param {StaticRange} range
   * @returns {[Spot, Spot]} */
  spotsOf({ startContainer, startOffset, endContainer, endOffset }) {
    return [this.editor.spotOf(startContainer, startOffset), this.editor.spotOf(endContainer, endOffset)];
  }

  /** Returns the blanks with which the line after a place begins.
   * @param {Spot} spot */
  indentAfter([line, column]) {
    const before = this.editor.lines[line].slice(0, column), [blanks] = /^[ \t]*/.exec(before) ?? [""];
    return /^[A-Za-z_][\w.]*:\s*\S/.test(before) ? " ".repeat(WIDTH_OF_TAB) : blanks;
  }

  /** @param {KeyboardEvent} event */
  pressed(event) {
    const { key, ctrlKey, metaKey, shiftKey, altKey } = event, isCommand = (ctrlKey || metaKey) && !altKey;
    if (!["Tab", "Shift"].includes(key)) this.isPassed = false;
    const isIndent = key === "Tab" && !altKey && !this.isPassed;
    const task = isCommand ? this.commandOf(key.toLowerCase(), shiftKey) : isIndent ? () => this.tab(shiftKey) : null;
    if (!task || this.isComposing) return;
    event.preventDefault();
    event.stopPropagation();
    task();
  }

  /** @param {string} key @param {boolean} isShifted */
  commandOf(key, isShifted) {
    if (key === "z") return isShifted ? () => this.editor.redo() : () => this.editor.undo();
    return key === "y" ? () => this.editor.redo() : null;
  }

  /** Goes on to the next column of a tab, or moves the lines that are selected.
   * @param {boolean} isBack */
  tab(isBack) {
    const { editor } = this, [from, to] = editor.selected;
    if (from[0] === to[0] && !isBack) return editor.replace(from, to, " ".repeat(WIDTH_OF_TAB - (from[1] % WIDTH_OF_TAB)));
    const lines = editor.lines.slice(from[0], to[0] + 1), blanks = " ".repeat(WIDTH_OF_TAB);
    const moved = lines.map((line) => (isBack ? line.replace(/^(?: {1,8}|\t)/, "") : line && blanks + line));
    editor.replace([from[0], 0], [to[0], editor.lines[to[0]].length], moved.join("\n"));
    if (from[0] !== to[0]) editor.select([from[0], 0], [to[0], editor.lines[to[0]].length]);
    else editor.select([from[0], Math.max(0, from[1] - lines[0].length + moved[0].length)]);
  }

  /** @param {ClipboardEvent} event */
  pasted(event) {
    event.preventDefault();
    this.editor.replace(...this.editor.selected, event.clipboardData?.getData("text/plain") ?? "");
  }

  /** @param {ClipboardEvent} event */
  copied(event) {
    const [from, to] = this.editor.selected, text = this.editor.textBetween(from, to);
    if (!text) return;
    event.preventDefault();
    event.clipboardData?.setData("text/plain", text);
    if (event.type === "cut") this.editor.replace(from, to, "");
  }

  /** Takes over what the browser changed itself, as after a composition. */
  readBack() {
    const { editor } = this, { lines, selected: [, caret] } = editor, shown = [...editor.field.querySelectorAll(".chunk > div")];
    const texts = shown.map((row, at) => (row.className.includes("cut") ? lines[at] : row.textContent ?? ""));
    const same = texts.length === lines.length ? texts.findIndex((text, at) => text !== lines[at]) : 0;
    if (same < 0) return;
    const isOne = texts.length === lines.length && texts.every((text, at) => at === same || text === lines[at]);
    const [from, to, text] = isOne ? [same, same, texts[same]] : [0, lines.length - 1, texts.join("\n")];
    const at = getSelection()?.focusOffset ?? 0;
    if (!isOne) editor.drawAll();
    editor.replace([from, 0], [to, lines[to].length], text);
    editor.select([Math.min(caret[0], editor.lines.length - 1), isOne ? at : caret[1]]);
  }
}
