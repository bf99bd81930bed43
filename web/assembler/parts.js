// @ts-check
/* The lines of a program of one source or several: one source after the other, and in place of a line `include` those of the source that it names, if that
 * is among them (tools/galluspa/assembler/sources.py). */

// A line that stands for the lines of a file; how deep files are included, how many in all, and how many characters a program has with them.
const INCLUDED = /^[ \t]*include[ \t]+"([^"\\]+)"[ \t]*(?:;.*)?$/i;
const DEEPEST = 16, MOST_INCLUDED = 1000, LONGEST = 1 << 22;

/** A line: its file, its number there, counted from 1, its text, and what is wrong with it if it includes what cannot be included.
 * @typedef {{ file: string, line: number, text: string, mistake: string }} SourceLine */

/** @param {string} path */
const lastPart = (path) => path.slice(path.lastIndexOf("/") + 1);
/** @param {string} text */
const linesIn = (text) => text.split("\n").map((line) => line.replace(/\r+$/, ""));

/** Returns the lines of a program. A source that another one includes is there alone; the others come one after the other.
 * @param {[string, string][]} parts
 * @returns {SourceLine[]} */
export function linesOfParts(parts) {
  const texts = new Map(parts.map(([file, text]) => [file, linesIn(text)])), found = [...texts].map(([file, lines]) => ({ file, names: lines.map(includedBy) }));
  const roots = found.filter(({ file }) => !found.some((other) => other.file !== file && other.names.includes(file)));
  const reader = new Reader(texts);
  for (const { file } of roots.length ? roots : found.slice(0, 1)) reader.read(file, []);
  return reader.lines;
}

/** Returns the name of the file that a line includes, without its folder; or nothing.
 * @param {string} line */
const includedBy = (line) => lastPart(INCLUDED.exec(line)?.[1] ?? "");

/** Reads sources, with what they include. */
class Reader {
  /** @type {SourceLine[]} */
  lines = [];
  included = 0;
  left = LONGEST;

  /** @param {Map<string, string[]>} texts */
  constructor(texts) {
    this.texts = texts;
  }

  /** Reads a source that others include, of which the outermost comes first.
   * @param {string} file
   * @param {string[]} outer */
  read(file, outer) {
    (this.texts.get(file) ?? []).forEach((text, at) => {
      const name = includedBy(text), mistake = name ? this.whyNot(name, [...outer, file]) : "";
      this.left -= text.length + 1;
      if (!name || mistake) this.lines.push({ file, line: at + 1, text, mistake });
      else this.included++, this.read(name, [...outer, file]);
    });
  }

  /** Says why a source cannot be included; nothing if it can.
   * @param {string} name
   * @param {string[]} outer */
  whyNot(name, outer) {
    if (!this.texts.has(name)) return `${name} is not open here: open it together with this source, or put its lines here`;
    if (outer.includes(name)) return `${name} includes itself`;
    if (outer.length > DEEPEST || this.included >= MOST_INCLUDED) return `files are included ${DEEPEST} deep and ${MOST_INCLUDED.toLocaleString("en")} in all, at most`;
    return this.left < 0 ? `a source has at most ${LONGEST.toLocaleString("en")} bytes, with what it includes` : "";
  }
}
