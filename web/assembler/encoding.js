// @ts-check
/* Encodes an instruction from its mnemonic and its operands, in the notation that instructions.js writes. */
import { conditions, memory, operations, specials } from "../../tools/galluspa/formats/assembler.json";
import { divided, evaluate, valueOf } from "./expressions.js";
import { advice, cut, Wrong } from "./language.js";
import { NAME } from "./tokens.js";

/** @typedef {import("./tokens.js").Token} Token */
/** @typedef {import("./expressions.js").Value} Value */
/** @typedef {import("./expressions.js").Names} Names */
/** An operand with its text and its column: a register, H or NZCV, or a value.
 * @typedef {{ text: string, column: number, register?: number, special?: string, value?: Value }} Operand */

const MOV = 0, U = 1 << 29, V = 1 << 28, LINK = V;
const MEMORY = new Map(Object.entries(memory));
/** @type {Map<string, [number, number]>} */
export const BRANCHES = new Map(["", "L"].flatMap((link) => conditions.map((name, at) => [`B${link}${name}`, [at, link ? LINK : 0]])));
// The machine takes 22 bits of an offset. An offset below 0 is written with 24, as Project Oberon's compiler writes it.
const WIDENED = 3 << 22;
export const SPECIALS = new Map(specials.map((name, at) => [name, at * V]));
export const MNEMONICS = new Set([...operations, ...operations.map((name) => `${name}'`), ...MEMORY.keys(), ...BRANCHES.keys()]);

/** Returns the number of a register by its name; undefined of any other name.
 * @param {string} name */
export function registerOf(name) {
  const found = /^R(1[0-5]|[0-9])$/i.exec(name);
  return found ? Number(found[1]) : undefined;
}

/** Returns the operand that tokens write; `column` is that of its end.
 * @param {Token[]} tokens
 * @param {number} column
 * @param {Names} names
 * @param {number} here
 * @param {(name: string) => number | undefined} registers
 * @returns {Operand} */
export function operandOf(tokens, column, names, here, registers) {
  const text = tokens.map((token) => token.text).join(" "), begin = tokens[0]?.column ?? column;
  if (tokens.length === 1 && tokens[0].kind === NAME) {
    const register = registers(text);
    if (register !== undefined) return { text, column: begin, register };
    if (SPECIALS.has(text.toUpperCase())) return { text, column: begin, special: text.toUpperCase() };
  }
  return { text, column: begin, value: evaluate(tokens, column, names, here) };
}

/** Returns the word of an instruction that is at a byte address; if it is narrow, its offset is written with 22 bits.
 * @param {Token} name
 * @param {Operand[]} operands
 * @param {number} here
 * @param {boolean} isNarrow */
export function encoded(name, operands, here, isNarrow) {
  const mnemonic = name.text.toUpperCase(), branch = BRANCHES.get(mnemonic), head = MEMORY.get(mnemonic);
  if (branch) return branchWord(name, operands, here, branch, isNarrow ? 0 : WIDENED) >>> 0;
  return (head === undefined ? operationWord(name, operands) : memoryWord(name, operands, head)) >>> 0;
}

/** Checks the number of operands against a form, which the message shows.
 * @param {Token} name
 * @param {Operand[]} operands
 * @param {string} form */
function expect({ text, column }, { length }, form) {
  const number = form.split(",").length;
  if (length === number) return;
  throw new Wrong(column, "operands", { name: text, number, noun: number === 1 ? "operand" : "operands", has: length || "none", form });
}

/** @param {Operand} operand */
function registerIn({ register, column, text }) {
  if (register === undefined) throw new Wrong(column, "register", { text });
  return register;
}

/**
 * @param {Operand} operand
 * @param {number} least
 * @param {number} most
 * @param {string} what
 * @param {string} said
 */
function numberIn({ value, column, text }, least, most, what, said = "") {
  if (!value) throw new Wrong(column, "noNumber", { text });
  const { number } = value;
  if (number < least || number > most) throw new Wrong(column, "range", { what, number, least, most, advice: said });
  return Number(number);
}

/**
 * @param {Token} name
 * @param {Operand[]} operands
 */
function operationWord(name, operands) {
  const mnemonic = name.text.toUpperCase(), isMarked = mnemonic.endsWith("'"), op = operations.indexOf(mnemonic.replace("'", ""));
  expect(name, operands, op === MOV ? "R0, 5" : "R0, R1, 2");
  const a = registerIn(operands[0]), b = op === MOV ? 0 : registerIn(operands[1]), last = operands[operands.length - 1];
  const head = (isMarked ? U : 0) | a << 24 | b << 20 | op << 16;
  if (last.register !== undefined) {
    if (op === MOV && isMarked) throw new Wrong(last.column, "moveRegister");
    return head | last.register;
  }
  if (last.special) {
    if (op !== MOV || !isMarked) throw new Wrong(last.column, "special", { text: last.text });
    return head | Number(SPECIALS.get(last.special));
  }
  const isUpper = op === MOV && isMarked;
  const number = isUpper ? numberIn(last, 0, 0xffff, "the upper half") : numberIn(last, -0x10000, 0xffff, "the immediate operand", halves(op, a, last));
  return head | 1 << 30 | (number < 0 ? V : 0) | number & 0xffff;
}

/** Returns how a number that is not an immediate operand comes into a register, if it has 32 bits.
 * @param {number} op
 * @param {number} a
 * @param {Operand} operand */
function halves(op, a, { text, value }) {
  const number = value?.number ?? 0n;
  if (number < -(1n << 31n) || number >= 1n << 32n) return "";
  if (op !== MOV) return advice("intoRegister");
  const isName = /^[A-Za-z_][A-Za-z0-9_]*$/.test(text.replaceAll(".", "_")) && number >= 0n;
  const [upper, lower] = isName ? [`${cut(text)} / 10000H`, `${cut(text)} % 10000H`] : divided(BigInt.asUintN(32, number), 0x10000n);
  return advice("halves", { a, upper, lower });
}

/**
 * @param {Token} name
 * @param {Operand[]} operands
 * @param {number} head
 */
function memoryWord(name, operands, head) {
  expect(name, operands, "R1, R2, 4");
  const last = operands[2];
  if (last.register !== undefined) throw new Wrong(last.column, "offsetRegister", { text: last.text });
  const [a, b] = operands.slice(0, 2).map(registerIn);
  return head << 28 | a << 24 | b << 20 | numberIn(last, -0x80000, 0x7ffff, "the offset") & 0xfffff;
}

/** Returns a branch to a register's address, by a number of words, or to a place.
 * @param {Token} name
 * @param {Operand[]} operands
 * @param {number} here
 * @param {[number, number]} branch
 * @param {number} widened */
function branchWord(name, operands, here, [condition, link], widened) {
  expect(name, operands, "LABEL");
  let [target] = operands;
  const head = 3 << 30 | link | condition << 24;
  if (target.register !== undefined) return head | target.register;
  if (target.value?.isPlace) {
    const { number } = target.value;
    if (number % 4n) throw new Wrong(target.column, "target", { number });
    target = { ...target, value: valueOf(number / 4n - BigInt(Math.floor(here / 4)) - 1n) };
  }
  const number = numberIn(target, -0x200000, 0x1fffff, "the offset");
  return head | U | number & 0x3fffff | (number < 0 ? widened : 0);
}
