// @ts-check
/* Takes a source apart: the statement of each line, with its labels and its arguments. */
import { directives, settings, single } from "../../tools/galluspa/formats/assembler.json";
import { BRANCHES, MNEMONICS } from "./encoding.js";
import { areAlike } from "./alike.js";
import { advice, Wrong } from "./language.js";
import { isMark, MARK, NAME, STRING, tokensOf } from "./tokens.js";

/** @typedef {import("./tokens.js").Token} Token */
/** The tokens between two commas, and the column of their end.
 * @typedef {{ tokens: Token[], end: number }} Argument */
/** What a line says: its number, its labels, what is done with which arguments, the byte address where it is, and whether offsets are
 * written with 22 bits there. A line of labels alone has an empty name. A constant's name is that of the constant.
 * @typedef {{ line: number, labels: Token[], name: Token, does: string, arguments: Argument[], here: number, isNarrow: boolean }} Statement */

export const CONSTANT = "=", INSTRUCTION = "instruction";
export const SETTINGS = new Set(settings);
const DIRECTIVES = new Set([...directives, ...settings]);
// What has one operand at most.
const SINGLE = new Set([...BRANCHES.keys(), ...single.map((name) => name.toUpperCase())]);
// What a statement may be meant to begin with, in the order in which it is suggested.
const FIRST_WORDS = [...[...MNEMONICS].sort(), ...[...DIRECTIVES].sort()];
const NAMELESS = { kind: NAME, text: "", column: 1, number: 0n, content: new Uint8Array() };

/** @param {Argument} argument */
export const columnOf = ({ tokens, end }) => tokens[0]?.column ?? end;
/** @param {Argument} argument */
export const textOf = ({ tokens }) => tokens.map(({ text }) => text).join(" ");
/** Whether an argument is one string.
 * @param {Argument} argument */
export const isString = ({ tokens }) => tokens.length === 1 && tokens[0].kind === STRING;
/** Whether a statement is at a multiple of four bytes.
 * @param {Statement} statement */
export const isAligned = ({ does }) => does === INSTRUCTION || does === "word";

/** Returns how many bytes a statement fills.
 * @param {Statement} statement */
export function sizeOf({ does, arguments: given }) {
  if (does === INSTRUCTION) return 4;
  if (does === "word") return 4 * given.length;
  if (does !== "byte" && does !== "string") return 0;
  return given.reduce((size, one) => size + (isString(one) ? one.tokens[0].content.length : 1), does === "string" ? 1 : 0);
}

/** Refuses two operands side by side where a statement may have several: there is a comma between them.
 * @param {Statement} statement */
export function expectCommas({ does, name, arguments: given }) {
  if (does === CONSTANT || SINGLE.has(name.text.toUpperCase())) return;
  for (const { tokens } of given) {
    const after = tokens.find((token, at) => at > 0 && isOperand(tokens[at - 1], ")") && isOperand(token, "("));
    if (after) throw new Wrong(after.column, "comma", { text: after.text });
  }
}

/** Whether an operand may end or begin with a token; the parenthesis is the mark that does, too.
 * @param {Token} token
 * @param {string} parenthesis */
const isOperand = ({ kind, text }, parenthesis) => kind !== MARK || text === "$" || text === parenthesis;

/** Returns the statement of a line.
 * @param {number} line
 * @param {string} source
 * @returns {Statement} */
export function statementOf(line, source) {
  const all = tokensOf(source), labels = [];
  let at = 0;
  for (; all[at]?.kind === NAME && isMark(all[at + 1], ":"); at += 2) labels.push(all[at]);
  const name = all[at], rest = all.slice(at + 1), last = all[all.length - 1];
  const statement = { line, labels, name: NAMELESS, does: "", arguments: [], here: 0, isNarrow: false };
  if (!name) return statement;
  const end = last.column + last.text.length;
  if (name.kind !== NAME) throw new Wrong(name.column, "begins", { text: name.text });
  if (!isMark(rest[0], "=")) return { ...statement, name, does: whatIs(name, rest), arguments: argumentsOf(rest, end) };
  if (labels.length) throw new Wrong(labels[0].column, "constantLabel");
  return { ...statement, name, does: CONSTANT, arguments: [{ tokens: rest.slice(1), end }] };
}

/**
 * @param {Token} name
 * @param {Token[]} rest
 */
function whatIs({ text, column }, rest) {
  const lower = text.toLowerCase();
  if (MNEMONICS.has(text.toUpperCase())) return INSTRUCTION;
  if (DIRECTIVES.has(lower)) return lower;
  const meant = rest.length ? FIRST_WORDS.find((other) => areAlike(text, other)) : undefined;
  throw new Wrong(column, "statement", { name: text, advice: meant ? advice("meant", { meant }) : advice("label") });
}

/** Returns what is between commas; nothing, if nothing is written.
 * @param {Token[]} tokens
 * @param {number} end */
function argumentsOf(tokens, end) {
  /** @type {Argument[]} */
  const found = [];
  let begin = 0;
  tokens.forEach((token, at) => {
    if (!isMark(token, ",")) return;
    found.push({ tokens: tokens.slice(begin, at), end: token.column });
    begin = at + 1;
  });
  return tokens.length ? [...found, { tokens: tokens.slice(begin), end }] : [];
}
