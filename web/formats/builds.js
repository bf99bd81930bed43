// @ts-check
/* Says whether a symbol file is of the program that is open, as tools/galluspa/formats/builds.py does: by sums of its code, which `galluspa assemble` writes into
 * it as comments, or by where calls lead. */
import { branchTarget } from "./instructions.js";
import { MEMORY_BYTES, wordsOf } from "./states.js";
import { shown } from "./shownnames.js";
import { CODE } from "./symbols.js";

const CODE_SUM = /^# code crc32 ([0-9A-F]{8}) ([0-9A-F]{1,8})-([0-9A-F]{1,8})\r?$/gm, SOURCE_SUM = /^# source crc32 ([0-9A-F]{8}) (\S.{0,254}?)\r?$/gm;
// The four highest bits of a call by an offset, and the share of calls that have to lead to no name: one in ONE_IN.
const CALL_BY_OFFSET = 15, ONE_IN = 20, POLYNOMIAL = 0xedb88320;

/** Returns how the names of a symbol file do not fit the memory of an initial state; nothing if they do, or if that is not known.
 * @param {import("./symbols.js").Symbols} symbols
 * @param {string} name
 * @param {Bytes} content
 * @param {Bytes} memory */
export function misfit(symbols, name, content, memory) {
  const sums = [...new TextDecoder("latin1").decode(content).matchAll(CODE_SUM)], hasLines = symbols.lines.length > 0 || symbols.all.some(({ file }) => file);
  const isSame = sums.every(([, sum, first, end]) => crc32(memory.subarray(parseInt(first, 16), parseInt(end, 16))) === parseInt(sum, 16));
  if (sums.length ? isSame : !hasLines) return "";
  const procedures = proceduresOf(symbols, wordsOf(memory)), begins = new Set(symbols.placed.filter(({ kind }) => kind === CODE).map(({ address }) => address));
  const elsewhere = [...procedures].filter((address) => !begins.has(address)).length, many = (/** @type {number} */ number) => number.toLocaleString("en");
  const fits = `${shown(name)} does not fit this memory`;
  if (elsewhere && (sums.length || ONE_IN * elsewhere >= procedures.size)) return `${fits}: ${many(elsewhere)} of ${many(procedures.size)} procedures begin elsewhere`;
  return sums.length ? `${fits}: its code is another one` : "";
}

/** Whether a source is another one than that of which a symbol file has the sum, if it has one.
 * @param {Bytes | null} content
 * @param {string} name
 * @param {Bytes} bytes */
export function isEdited(content, name, bytes) {
  const sums = content ? [...new TextDecoder().decode(content).matchAll(SOURCE_SUM)] : [], own = sums.find(([, , file]) => file === name || file.endsWith(`/${name}`));
  return own !== undefined && parseInt(own[1], 16) !== crc32(bytes);
}

/** Returns the addresses to which the calls in what has names of code lead.
 * @param {import("./symbols.js").Symbols} symbols
 * @param {Uint32Array} words */
function proceduresOf(symbols, words) {
  const found = new Set();
  words.forEach((word, at) => {
    const target = word >>> 28 === CALL_BY_OFFSET && symbols.nameOf(4 * at)?.kind === CODE ? branchTarget(word, at) : null;
    if (target !== null && 4 * target < MEMORY_BYTES && words[target]) found.add(4 * target);
  });
  return found;
}

/** Returns the CRC-32 of bytes, as zlib and PNG have it.
 * @param {Bytes} bytes */
function crc32(bytes) {
  let sum = 0xffffffff;
  for (const byte of bytes) {
    sum ^= byte;
    for (let bit = 0; bit < 8; bit++) sum = sum & 1 ? sum >>> 1 ^ POLYNOMIAL : sum >>> 1;
  }
  return (sum ^ 0xffffffff) >>> 0;
}
