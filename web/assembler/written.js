// @ts-check
/* Writes what comes of an assembled source: its session, and its symbol file (docs/formats.md, docs/symbols.md). They say what those of `galluspa assemble`
 * say. */
import { INSTRUCTION } from "./statements.js";
import { UNANSWERED } from "../formats/states.js";

const PAGE_BYTES = 1024, WORDS = 2 ** 32, LONGEST_NAME = 200, LONGEST_FILE = 255;
const NOT_SHOWN = /[\p{C}\p{Zl}\p{Zp}]|(?! )\p{Zs}/gu;

/** @typedef {import("./assembly.js").Assembly} Assembly */
/** A name of an address or a constant: how many bytes it has, or 0 if that is not known, its kind, and the line that defines it.
 * @typedef {{ address: number, size: number, kind: string, name: string, line: number }} Symbol */

/** Returns a session as JSON, without checkpoints.
 * @param {import("./settings.js").Start} start
 * @param {Bytes} memory */
export function writtenSession({ registers, h, pc, flags, rate, phase, inputs }, memory) {
  return sessionText({ R: registers, H: h, PC: pc, flags, rate, phase }, pagesOf(memory), inputs);
}

/** Returns a session as JSON, without checkpoints. It is of version 3 if a disk answers.
 * @param {object} begun
 * @param {object[]} pages
 * @param {Input[]} inputs */
export function sessionText(begun, pages, inputs) {
  const [version, start] = inputs.some(([, kind]) => kind === "disk") ? [3, { ...begun, disk: UNANSWERED }] : [2, begun];
  return JSON.stringify({ format: "oberon-session", version, start, pages, inputs, checkpoints: [] });
}

/** Returns the pages that have a byte other than 0, without the zeros at their ends.
 * @param {Bytes} memory */
function pagesOf(memory) {
  const pages = [];
  for (let at = 0; at * PAGE_BYTES < memory.length; at++) {
    const page = memory.subarray(at * PAGE_BYTES, (at + 1) * PAGE_BYTES), length = page.findLastIndex((byte) => byte !== 0) + 1;
    if (length) pages.push({ at, hex: Array.from(page.subarray(0, length), (byte) => byte.toString(16).padStart(2, "0")).join("") });
  }
  return pages;
}

/** Returns the labels, each up to the next one or to the end of what is filled, and the constants.
 * @param {Assembly} assembly
 * @returns {Symbol[]} */
export function symbolsOf(assembly) {
  const code = new Set(assembly.statements.filter(({ does }) => does === INSTRUCTION).map(({ here }) => here));
  const filled = assembly.filledRegions(), addresses = [...new Set(assembly.labels.values())].sort((one, other) => one - other);
  const places = new Map(addresses.map((address, at) => [address, at]));
  /** @param {string} name */
  const lineOf = (name) => Number(assembly.lines.get(name));
  let region = -1;
  const ends = addresses.map((address, at) => {
    while (region + 1 < filled.length && filled[region + 1].start <= address) region++;
    return Math.min(region < 0 ? address : filled[region].end, addresses[at + 1] ?? Infinity);
  });
  /** @type {Symbol[]} */
  const labels = [...assembly.labels].map(([name, address]) => {
    const size = Math.max(0, ends[Number(places.get(address))] - address);
    return { address, size, kind: code.has(address) ? "t" : "d", name, line: lineOf(name) };
  });
  const constants = [...assembly.constants.values()].map(({ name }) => ({ name: name.text, value: assembly.named(name).number }));
  const lawful = constants.filter(({ value }) => value >= -WORDS / 2 && value < WORDS);
  return [...labels, ...lawful.map(({ name, value }) => ({ address: Number(BigInt.asUintN(32, value)), size: 0, kind: "a", name, line: lineOf(name) }))];
}

/** Returns the byte address of each instruction, its line and its file.
 * @param {Assembly} assembly
 * @returns {[number, number, string][]} */
export function linesOf({ statements, places }) {
  return statements.filter(({ does }) => does === INSTRUCTION).map(({ here, line }) => [here, places[line - 1].line, places[line - 1].file]);
}

/** Returns the symbol file of a program.
 * @param {Assembly} assembly */
export function writtenSymbols(assembly) {
  const symbols = symbolsOf(assembly).filter((symbol) => symbol.name.length <= LONGEST_NAME), names = new Map(assembly.places.map(({ file }) => [file, ""]));
  for (const file of names.keys()) names.set(file, plainFile(file));
  /** @param {number} number */
  const hex = (number) => number.toString(16).toUpperCase().padStart(8, "0");
  symbols.sort((one, other) => one.address - other.address || one.size - other.size || order(one.kind, other.kind) || order(one.name, other.name));
  /** @param {number} line */
  const placeOf = (line) => `${names.get(assembly.places[line - 1].file)}:${assembly.places[line - 1].line}`;
  const lines = linesOf(assembly).sort(([one, oneLine, oneFile], [other, otherLine, otherFile]) => one - other || order(oneFile, otherFile) || oneLine - otherLine);
  const written = symbols.map(({ address, size, kind, name, line }) => `${hex(address)}${size ? ` ${hex(size)}` : ""} ${kind} ${name}\t${placeOf(line)}\n`);
  return [...written, ...lines.map(([address, line, file]) => `${hex(address)} l ${names.get(file)}:${line}\n`)].join("");
}

/**
 * @param {string} one
 * @param {string} other
 */
const order = (one, other) => (one < other ? -1 : one > other ? 1 : 0);

/** Returns the name of a file as a symbol file has it: in one line, and its end if it is long.
 * @param {string} name */
function plainFile(name) {
  const text = name.replace(NOT_SHOWN, (sign) => escaped(Number(sign.codePointAt(0))));
  return [...text].slice(-LONGEST_FILE).join("").trim() || "-";
}

/** @param {number} code */
function escaped(code) {
  if (code < 0x100) return { 9: "\\t", 10: "\\n", 13: "\\r" }[code] ?? `\\x${code.toString(16).padStart(2, "0")}`;
  return code < 0x10000 ? `\\u${code.toString(16).padStart(4, "0")}` : `\\U${code.toString(16).padStart(8, "0")}`;
}
