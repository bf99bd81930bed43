// @ts-check
/* Evaluates the expressions of a source: numbers, labels and constants with + - * / % and parentheses. */
import { most } from "../../tools/galluspa/formats/assembler.json";
import { advice, Wrong } from "./language.js";
import { isMark, MARK, NAME, NUMBER, STRING } from "./tokens.js";

const LARGEST = 1n << 64n;

/** @typedef {import("./tokens.js").Token} Token */
/** A number; a place, if it is the byte address of a label, or at a distance from one.
 * @typedef {{ number: bigint, isPlace: boolean }} Value */
/** What a name stands for, given how deep the expression is that it is in.
 * @typedef {(token: Token, depth: number) => Value} Names */

/**
 * @param {bigint} number
 * @param {boolean} isPlace
 * @returns {Value}
 */
export const valueOf = (number, isPlace = false) => ({ number, isPlace });

/** Returns a quotient that is rounded down, and its remainder.
 * @param {bigint} left
 * @param {bigint} right
 * @returns {[bigint, bigint]} */
export function divided(left, right) {
  const rest = left % right, isBelow = rest !== 0n && rest < 0n !== right < 0n;
  return [left / right - (isBelow ? 1n : 0n), isBelow ? rest + right : rest];
}

/** Reads an expression from left to right. */
class Reader {
  at = 0;

  /**
   * @param {Token[]} tokens
   * @param {number} column
   * @param {Names} names
   * @param {number} here
   * @param {number} depth
   */
  constructor(tokens, column, names, here, depth) {
    Object.assign(this, { tokens, column, names, here, depth });
    this.tokens = tokens;
    this.column = column;
    this.names = names;
    this.here = here;
    this.depth = depth;
  }

  /** Returns the next token, if it is one of these marks.
   * @param {string} marks */
  mark(marks) {
    const token = this.tokens[this.at];
    if (!token || token.kind !== MARK || !marks.includes(token.text)) return null;
    this.at++;
    return token;
  }

  /** Products that are added or subtracted. */
  sum() {
    let value = this.product();
    for (let mark; (mark = this.mark("+-")); ) value = bounded(sumOf(value, this.product(), mark.text), mark);
    return value;
  }

  /** Atoms that are multiplied or divided. */
  product() {
    let value = this.atom();
    for (let mark; (mark = this.mark("*/%")); ) value = bounded(productOf(value, this.atom(), mark), mark);
    return value;
  }

  /** A number, a name, the address here, or an expression with a sign or in parentheses.
   * @returns {Value} */
  atom() {
    if (this.at === this.tokens.length) throw new Wrong(this.column, "missing");
    const token = this.tokens[this.at++];
    if (token.kind === NUMBER) return valueOf(token.number);
    if (token.kind === NAME) return this.names(token, this.depth);
    if (isMark(token, "$")) return valueOf(BigInt(this.here), true);
    if (token.kind === MARK && "-+(".includes(token.text)) return this.nested(token);
    throw new Wrong(token.column, "value", { text: token.text, advice: this.advice(token) });
  }

  /** Returns what to write in place of a token that begins no number, if it begins one in another assembler.
   * @param {Token} token */
  advice(token) {
    const after = this.tokens[this.at]?.text ?? "";
    if (isMark(token, "%") && /^[01]+$/.test(after)) return advice("binary", { number: BigInt(`0b${after}`) });
    if (token.kind === STRING && token.content.length === 1) return advice("character", { text: token.text.slice(1, -1) });
    return isMark(token, "=") ? advice("equals", { text: after || "a name" }) : "";
  }

  /** What follows a sign or an opening parenthesis.
   * @param {Token} token
   * @returns {Value} */
  nested(token) {
    this.depth = deeper(this.depth, token);
    let value = isMark(token, "(") ? this.sum() : this.atom();
    if (isMark(token, "(") && !this.mark(")")) throw new Wrong(token.column, "parenthesis");
    if (isMark(token, "-")) value = valueOf(-value.number);
    this.depth--;
    return value;
  }
}

/** Returns one level deeper than a depth, for what is after a token.
 * @param {number} depth
 * @param {Token} token */
export function deeper(depth, token) {
  if (depth >= most.depth) throw new Wrong(token.column, "deep", { most: most.depth });
  return depth + 1;
}

/** Returns the value of an expression: `column` is that of its end, and `here` the byte address that $ stands for.
 * @param {Token[]} tokens
 * @param {number} column
 * @param {Names} names
 * @param {number} here
 * @param {number} depth */
export function evaluate(tokens, column, names, here, depth = 0) {
  const reader = new Reader(tokens, column, names, here, depth), value = reader.sum(), extra = tokens[reader.at];
  if (extra) throw new Wrong(extra.column, "extra", { text: extra.text });
  return value;
}

/**
 * @param {Value} left
 * @param {Value} right
 * @param {string} mark
 */
function sumOf(left, right, mark) {
  if (mark === "+") return valueOf(left.number + right.number, left.isPlace !== right.isPlace);
  return valueOf(left.number - right.number, left.isPlace && !right.isPlace);
}

/**
 * @param {Value} left
 * @param {Value} right
 * @param {Token} mark
 */
function productOf(left, right, mark) {
  if (mark.text === "*") return valueOf(left.number * right.number);
  if (!right.number) throw new Wrong(mark.column, "zero");
  return valueOf(divided(left.number, right.number)[mark.text === "/" ? 0 : 1]);
}

/**
 * @param {Value} value
 * @param {Token} mark
 */
function bounded(value, mark) {
  if (value.number >= LARGEST || -value.number >= LARGEST) throw new Wrong(mark.column, "large");
  return value;
}
