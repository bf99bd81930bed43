// @ts-check
/* Writes instructions in the notation of "The RISC Architecture" by N. Wirth, by the templates that tools/galluspa/formats/instructions.py fills, too;
 * tests/page compares the two. */
import { conditions, notation, operations, signs, tests } from "../../tools/galluspa/formats/assembler.json";
import { hex } from "./states.js";

const ALWAYS = 7, NEVER = 15, WITH_CARRY = [8, 9];

/**
 * @param {number} word
 * @param {number} place
 */
const bit = (word, place) => (word >>> place & 1) === 1;
/**
 * @param {number} word
 * @param {number} bits
 */
const signed = (word, bits) => word << (32 - bits) >> (32 - bits);
/** @param {number} word */
const register = (word) => `R${word & 15}`;

// What stands in the places of templates, of a word that lies at an address in words.
/** @type {Record<string, (word: number, at: number) => string | number>} */
const FIELDS = {
  a: (word) => word >>> 24 & 15,
  b: (word) => word >>> 20 & 15,
  operation: (word) => operations[word >>> 16 & 15] + (bit(word, 29) ? "'" : ""),
  sign: (word) => signs[word >>> 16 & 15],
  operand: (word) => (bit(word, 30) ? (word & 0xffff) - (bit(word, 28) ? 0x10000 : 0) : register(word)),
  half: (word) => word & 0xffff,
  upper: (word) => hex(word & 0xffff, 4),
  offset: (word) => signed(word, 20),
  address: (word) => register(word >>> 20) + signedText(signed(word, 20)),
  condition: (word) => conditions[word >>> 24 & 15],
  target: (word) => (bit(word, 29) ? signed(word, 22) : register(word)),
  place: (word, at) => (bit(word, 29) ? (at + 1 + signed(word, 22)) & 0x3fffff : `${register(word)} div 4`),
  test: (word) => tests[word >>> 24 & 15] && ` where ${tests[word >>> 24 & 15]}`,
  back: (_, at) => 4 * (at + 1),
};
// The forms of instructions: the bits of the upper half that each fixes, where a pattern has no dot, and both templates.
const FORMS = notation.map(([pattern, ...templates]) => {
  const digits = pattern.replaceAll(" ", "");
  const [mask, bits] = [digits.replace(/[01]/g, "1"), digits].map((one) => parseInt(one.replaceAll(".", "0"), 2));
  return { mask, bits, templates };
});

/** @param {number} offset */
function signedText(offset) {
  return offset ? ` ${offset < 0 ? "-" : "+"} ${Math.abs(offset)}` : "";
}

/** Returns the mnemonic of the instruction in a word, and what it does. `at` is its address in words.
 * @param {number} word
 * @param {number} at
 * @returns {string[]} */
export function instruction(word, at) {
  const form = FORMS.find(({ mask, bits }) => (word >>> 16 & mask) === bits);
  return (form?.templates ?? []).map((text) => text.replace(/\{(\w+)\}/g, (_, name) => `${FIELDS[name](word, at)}`));
}

/** Returns the number of the word that a branch by an offset leads to, if it may be taken; or null.
 * @param {number} word
 * @param {number} at */
export function branchTarget(word, at) {
  return word >>> 29 === 7 && (word >>> 24 & 15) !== NEVER ? (at + 1 + signed(word, 22)) & 0x3fffff : null;
}

/** Returns the number that a move has as its operand, or that this word and the one before it put together: a move of the upper half, and IOR of the
 * same register; or null.
 * @param {number} word
 * @param {number} before */
export function movedNumber(word, before) {
  const form = word & 0xf00f0000, a = word >>> 24 & 15;
  if (form === 0x40000000 || form === 0x50000000) return (word & 0xffff) - (bit(word, 28) ? 0x10000 : 0);
  const isUpper = [6, 7].includes(before >>> 28) && (before >>> 16 & 15) === 0 && (before >>> 24 & 15) === a && (word >>> 20 & 15) === a;
  return isUpper && form === 0x40060000 ? (before & 0xffff) * 0x10000 + (word & 0xffff) : null;
}

/** Whether a program ends at an instruction: it jumps to itself, which changes neither a flag nor anything else by which it would go on.
 * @param {number} word
 * @param {number} at
 * @param {number} flags */
export function isEnd(word, at, flags) {
  const [n, z, c, v] = [3, 2, 1, 0].map((place) => bit(flags, place)), holds = [n, z, c, v, c || z, n !== v, n !== v || z, true][word >>> 24 & 7];
  return branchTarget(word, at) === at && holds !== bit(word, 27);
}

/** Returns the registers and flags that an instruction reads; a store also reads what it stores.
 * @param {number} word */
export function operandsOf(word) {
  const [a, b, c] = [24, 20, 0].map((place) => `R${word >>> place & 15}`), op = word >>> 16 & 15, isByRegister = !bit(word, 30), u = bit(word, 29);
  if (word >>> 30 === 3) return [...((word >>> 24 & 7) === ALWAYS ? [] : ["flags"]), ...(u || (word >>> 24 & 15) === NEVER ? [] : [c])];
  if (bit(word, 31)) return [...new Set(u ? [b, a] : [b])];
  if (op === 0 && u) return isByRegister ? [bit(word, 28) ? "flags" : "H"] : [];
  return [...new Set([...(op === 0 ? [] : [b]), ...(isByRegister ? [c] : []), ...(u && WITH_CARRY.includes(op) ? ["flags"] : [])])];
}
