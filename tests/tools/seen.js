/* What a test sees of the page by its elements alone: `el`, the cells of State, breakpoints, watches, notes, branches, the lanes as a screen reader has them, the dots
 * of the screen, and the field for sources with its lines, its text and its caret. A place is a line and a column, both from 0. */
Object.assign(globalThis, {
  el: (name) => document.getElementById(`g-${name}`),
  stateCell: (name) => [...el("state").querySelectorAll("dt")].find((it) => it.textContent === name).nextElementSibling,
  breakpoints: () => [...el("break-list").children].map((row) => Number(row.dataset.pc)),
  watched: () => [...el("watches").querySelectorAll("button")].map((it) => it.textContent.replace(" ×", "")),
  notes: () => [...el("notes").querySelectorAll("bdi")].map((it) => it.textContent),
  branchesShown: () => [...el("branches").querySelectorAll("button")].map((it) => it.textContent),
  /** Returns the texts of a lane; or of an answer in the timeline, by its title. */
  lane: (name) => [...([...el("lists").children].find((it) => it.ariaLabel.startsWith(`Lane ${name}: `))?.children ?? [])].map((it) => it.textContent),
  lanesInSight: () => [...el("names").children].map((it) => it.textContent).filter(Boolean),
  /** Returns the pixels of the screen that are dark, from the upper left corner on. */
  darkPixels() {
    const copy = new OffscreenCanvas(1024, 768).getContext("2d", { willReadFrequently: true });
    copy.drawImage(el("screen"), 0, 0);
    return new Uint32Array(copy.getImageData(0, 0, 1024, 768).data.buffer).map((pixel) => ((pixel & 0xff) === 0 && pixel >>> 24 ? 1 : 0));
  },
  darkDots: () => darkPixels().reduce((sum, pixel) => sum + pixel, 0),
  /** Returns the dots as the machine has them in memory, in base64: lines from the lowest one on, and bit 0 of a byte is its leftmost dot. */
  screenBytes() {
    const pixels = darkPixels(), bytes = new Uint8Array(98304);
    pixels.forEach((pixel, at) => (bytes[128 * (767 - (at >> 10)) + ((at & 1023) >> 3)] |= pixel << (at & 7)));
    return btoa(bytes.reduce((text, byte) => text + String.fromCharCode(byte), ""));
  },
  /** Waits until the browser has drawn what there is to draw by now. */
  drawnAnew: () => new Promise((done) => requestAnimationFrame(() => requestAnimationFrame(() => done()))),
  sourceField: {
    get box() {
      return el("source");
    },
    get field() {
      return el("source").querySelector(".text");
    },
    get rows() {
      return [...el("source").querySelectorAll(".text .chunk > *")];
    },
    get lines() {
      return this.rows.map((row) => row.textContent);
    },
    get text() {
      return this.lines.join("\n");
    },
    /** Where the selection begins and ends. */
    get selected() {
      const range = getSelection().getRangeAt(0), { rows } = this;
      const spot = (node, offset) => {
        const line = rows.findIndex((row) => row.contains(node));
        return line < 0 ? [rows.indexOf(node.childNodes[offset]), 0] : [line, node === rows[line] && offset ? rows[line].textContent.length : offset];
      };
      return [spot(range.startContainer, range.startOffset), spot(range.endContainer, range.endOffset)];
    },
    /** Puts the caret at a place, and brings it into sight. */
    goTo(line, column) {
      const row = this.rows[line];
      this.field.focus({ preventScroll: true });
      getSelection().collapse(row.firstChild instanceof Text ? row.firstChild : row, column);
      row.scrollIntoView({ block: "nearest" });
    },
  },
});
