// @ts-check
/* Reads symbol files, which give names and source lines to addresses, by the rules of docs/symbols.md, with the same limits and mistakes as
 * tools/galluspa/formats/symbolfiles.py, with which `tests/page` compares it. `await readSymbols(bytes)` returns the `Symbols` of a file, or throws what is
 * `Mistaken` about it; it reads in slices, so that the page goes on. */
import { shown, upper } from "./shownnames.js";
import { MEMORY_BYTES } from "./states.js";
import { CODE, CONSTANT, DATA, LINE, MOST_SYMBOL_LINES, Symbols, VALUES } from "./symbols.js";
import { grouped } from "./texts.js";

export const MOST_SYMBOL_BYTES = 10_000_000;
const LONGEST_LINE = 4096, LONGEST_NAME = 200, LONGEST_FILE = 255, ADDRESSES = 1 << 24;
// About how many lines a slice of reading takes.
const SLICE = 1024;

/** @typedef {import("./symbols.js").Named} Named */
/** @typedef {import("./symbols.js").SourceLine} SourceLine */

/** What is wrong with a line of a symbol file, counted from 1, or with the file as a whole, which is line 0. */
export class Mistaken extends Error {
  /**
   * @param {number} line
   * @param {string} text
   */
  constructor(line, text) {
    super(text);
    this.line = line;
  }
}

// What Python's \s is, without the line feed, which no line has: a name has none of these.
const BLANK = "\\t-\\r\\x1c-\\x20\\x85\\xa0\\u1680\\u2000-\\u200a\\u2028\\u2029\\u202f\\u205f\\u3000";
const HEXADECIMAL = "([0-9A-Fa-f]{1,16})", BLANKS = " {1,20}", END = "[ \\t\\r]{0,20}$", FILE = `[^\\n]{1,${LONGEST_FILE}}`;
const ROW = new RegExp(
  `^${HEXADECIMAL}(?:${BLANKS}${HEXADECIMAL})?${BLANKS}(?:([tTdDbBrRaA])${BLANKS}([^${BLANK}]{1,${LONGEST_NAME}})(?:\\t(${FILE}):([0-9]{1,9}))?` +
  `|(l)${BLANKS}([^${BLANK}][^\\n]{0,${LONGEST_FILE - 1}}):([0-9]{1,9}))${END}`, "u");
const PASSED_OVER = /^[ \t\r]*(?:#[^\n]*)?$/, ADDRESS = new RegExp(`^${HEXADECIMAL}$`);
const WORDS = new RegExp(`[^${BLANK}]+`, "gu");
/** @type {{ [letter: string]: string }} */
const KINDS = { t: CODE, T: CODE, d: DATA, D: DATA, b: DATA, B: DATA, r: DATA, R: DATA, a: CONSTANT, A: CONSTANT, l: LINE };
/** @type {{ [kind: string]: number }} */
const ENDS = { t: MEMORY_BYTES, d: ADDRESSES, a: VALUES, l: MEMORY_BYTES };
// A word is cut to so many characters before it is shown, which are more than are shown.
const CUT = 200;
const FORM = "expected ADDRESS TYPE NAME, perhaps with a SIZE after the address, and with a tab and FILE:LINE at the end";

/** Whether the first bytes of a file are those of a symbol file.
 * @param {Bytes} bytes */
export function isSymbolFile(bytes) {
  const lines = new TextDecoder().decode(bytes.subarray(0, LONGEST_LINE)).split("\n"), first = lines.find((line) => !PASSED_OVER.test(line));
  return first !== undefined && first !== lines[lines.length - 1] && ROW.test(first);
}

/** Returns the names in the bytes of a symbol file. Between slices of the work it waits for `rest`.
 * @param {Bytes} bytes
 * @param {() => unknown} rest
 * @returns {Promise<Symbols>} */
export async function readSymbols(bytes, rest = () => new Promise((goOn) => setTimeout(goOn))) {
  const limit = bytes.length > MOST_SYMBOL_BYTES ? `${grouped(MOST_SYMBOL_BYTES)} bytes` : lineFeeds(bytes) >= MOST_SYMBOL_LINES ? `${grouped(MOST_SYMBOL_LINES)} lines` : "";
  if (limit) throw new Mistaken(0, `a symbol file has at most ${limit}`);
  const lines = decoded(bytes).split("\n");
  /** @type {Named[]} */
  const names = [];
  /** @type {SourceLine[]} */
  const sources = [];
  /** @type {{ line: number, text: string } | null} */
  let first = null;
  let more = 0;
  for (let at = 0; at < lines.length; at++) {
    if (at % SLICE === SLICE - 1) await rest();
    const text = takeLine(lines[at], names, sources);
    if (text && first) more++;
    else if (text) first = { line: at + 1, text };
  }
  if (first) throw new Mistaken(first.line, first.text + (more ? ` (${grouped(more)} more ${more === 1 ? "line has a mistake" : "lines have mistakes"})` : ""));
  await rest();
  const symbols = new Symbols();
  for (const _ of symbols.filled(names, sources)) await rest();
  return symbols;
}

/** @param {Bytes} bytes */
function lineFeeds(bytes) {
  let number = 0;
  for (let at = bytes.indexOf(10); at >= 0; at = bytes.indexOf(10, at + 1)) number++;
  return number;
}

/** Returns the text that bytes are in UTF-8.
 * @param {Bytes} bytes */
function decoded(bytes) {
  try {
    return new TextDecoder("utf-8", { fatal: true }).decode(bytes);
  } catch {
    throw new Mistaken(firstBadLine(bytes), "not a text in UTF-8");
  }
}

/** Returns the number of the first line that is no text in UTF-8. Each half of a list of lines is decoded by itself.
 * @param {Bytes} bytes */
function firstBadLine(bytes) {
  let from = 0, end = bytes.length, line = 1;
  for (;;) {
    const middle = bytes.indexOf(10, from + ((end - from) >> 1));
    const cut = middle >= 0 && middle < end - 1 ? middle + 1 : bytes.lastIndexOf(10, end - 2) + 1;
    if (cut <= from) return line;
    if (isText(bytes.subarray(from, cut))) {
      line += lineFeeds(bytes.subarray(from, cut));
      from = cut;
    } else {
      end = cut;
    }
  }
}

/** @param {Bytes} bytes */
function isText(bytes) {
  try {
    return Boolean(new TextDecoder("utf-8", { fatal: true }).decode(bytes)) || true;
  } catch {
    return false;
  }
}

/** Takes what a line says to the lists. Returns what is wrong with it, or nothing.
 * @param {string} line
 * @param {Named[]} names
 * @param {SourceLine[]} sources */
function takeLine(line, names, sources) {
  if (line.length > LONGEST_LINE && [...line].length > LONGEST_LINE)
    return `a line has at most ${grouped(LONGEST_LINE)} characters, and this one has ${grouped([...line].length)}`;
  const row = ROW.exec(line);
  if (!row || (row[2] && row[7])) return PASSED_OVER.test(line) ? "" : formMistake(line);
  const [, digits, sizeDigits = "", letter = LINE, name, file = "", number = "0", , sourceFile, sourceLine] = row;
  const kind = KINDS[letter], address = parseInt(digits, 16), size = parseInt(sizeDigits || "0", 16);
  const wrong = outOfRange(kind, address, size, file ? number : sourceLine);
  if (wrong) return wrong;
  if (kind === LINE) sources.push({ address, file: sourceFile, line: Number(sourceLine) });
  else names.push({ address, size, kind, name, file, line: Number(number), written: [digits, sizeDigits, letter] });
  return "";
}

/** Returns what is wrong with the numbers of a line, or nothing.
 * @param {string} kind
 * @param {number} address
 * @param {number} size
 * @param {string | undefined} line */
function outOfRange(kind, address, size, line) {
  const end = ENDS[kind];
  if (address >= end) return `the ${kind === CONSTANT ? "constant" : "address"} ${upper(address)} is not below ${upper(end)} (hexadecimal)`;
  if ((kind === CODE || kind === LINE) && address % 4) return `the address ${upper(address)} of code is not a multiple of 4`;
  if (address + size > end) return `the size ${upper(size)} leads beyond ${upper(end)} (hexadecimal)`;
  return line && !Number(line) ? "lines of a source are counted from 1" : "";
}

/** Returns what is wrong with the form of a line.
 * @param {string} line */
function formMistake(line) {
  const words = line.match(WORDS) ?? [""];
  if (!ADDRESS.test(words[0]) || !line.startsWith(words[0])) return `${shown(words[0])} is not an address of 1 to 16 hexadecimal digits at the beginning of the line`;
  const hasSize = words.length > 3 && ADDRESS.test(words[1]) && [...words[2]].length === 1;
  const [letter = "", name = "", more = ""] = words.slice(hasSize ? 2 : 1), length = [...name].length;
  if (letter === LINE) return "expected ADDRESS l FILE:LINE";
  if ([...letter].length === 1 && !(letter in KINDS)) return `${shown(letter)} is not a type: t is code, d data, a a constant, and l a line of a source`;
  if (length > LONGEST_NAME) return `a name has at most ${LONGEST_NAME} characters, and this one has ${grouped(length)}`;
  if ([...letter].length > 1) return `${shown(letter.slice(0, CUT))} is not a type; ${FORM}`;
  if (!name) return `no ${letter ? "name" : "type"} after ${shown(words[words.length - 1])}; ${FORM}`;
  return more ? `${shown(more.slice(0, CUT))} comes after the name; ${FORM}` : FORM;
}
