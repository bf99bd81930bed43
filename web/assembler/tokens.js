// @ts-check
/* Takes a line of a source apart: names, numbers, strings and marks, each with its column. */
import { escapes, most } from "../../tools/galluspa/formats/assembler.json";
import { Wrong } from "./language.js";

export const NAME = "name", NUMBER = "number", STRING = "string", MARK = "mark";
const PATTERN = new RegExp(
  String.raw`(?<space>[ \t\r\f]+)|(?<comment>;.*)|(?<name>[A-Za-z_][A-Za-z0-9_]*(?:\.[A-Za-z_][A-Za-z0-9_]*)*'?)` +
    String.raw`|(?<number>[0-9][0-9A-Za-z_]*)` +
    String.raw`|(?<character>'(?:\\.[0-9A-Fa-f]{0,2}|[^'\\])')|(?<string>"(?:[^"\\]|\\.)*")|(?<mark>[:,=+\-*\/%()$])`,
  "suy",
);
// A hexadecimal number as other assemblers write it: no expression has $, the address here, and digits after it.
const DOLLAR = /\$([0-9A-Fa-f]+)(?![0-9A-Za-z_])/y;
const HEXADECIMAL = /^(?:0[xX]([0-9A-Fa-f]+)|([0-9][0-9A-Fa-f]*)[hH])$/;
const SIGN = /\\x([0-9A-Fa-f]{2})|\\(.)|(.)/gsu;
const NOT_SHOWN = /[\p{C}\p{Z}]/u;
const ESCAPES = new Map(Object.entries(escapes));

/** A token: its text as it is written, its column, and its number or its bytes.
 * @typedef {{ kind: string, text: string, column: number, number: bigint, content: Bytes }} Token */

const NOTHING = new Uint8Array();

/**
 * @param {string} kind
 * @param {string} text
 * @param {number} column
 * @param {{ number?: bigint, content?: Bytes }} more
 * @returns {Token}
 */
const token = (kind, text, column, { number = 0n, content = NOTHING } = {}) => ({ kind, text, column, number, content });

/** Whether a token is a mark.
 * @param {Token | undefined} token
 * @param {string} mark */
export const isMark = (token, mark) => token !== undefined && token.kind === MARK && token.text === mark;

/** Returns the tokens of a line, without its comment. What is before a mistake is ASCII, so a column is a position.
 * @param {string} line */
export function tokensOf(line) {
  /** @type {Token[]} */
  const tokens = [];
  for (let at = 0; at < line.length; ) {
    if (line.startsWith("//", at) || line.startsWith("/*", at)) throw new Wrong(at + 1, "comment");
    DOLLAR.lastIndex = PATTERN.lastIndex = at;
    const dollar = DOLLAR.exec(line);
    if (dollar) throw new Wrong(at + 1, "dollar", { text: dollar[0].slice(0, most.digits), digits: dollar[1].slice(0, most.digits) });
    const found = PATTERN.exec(line);
    if (!found?.groups) throw unknown(line, at);
    if (found.groups.space === undefined && found.groups.comment === undefined) tokens.push(tokenOf(found.groups, found[0], at + 1));
    at += found[0].length;
  }
  return tokens;
}

/**
 * @param {string} line
 * @param {number} at
 */
function unknown(line, at) {
  const sign = String.fromCodePoint(Number(line.codePointAt(at)));
  if (sign === '"') return new Wrong(at + 1, "stringEnd");
  if (sign === "'") return new Wrong(at + 1, "character");
  return new Wrong(at + 1, "sign", { sign: quoted(sign) });
}

/** Returns a character in quotation marks; one that cannot be seen by its number.
 * @param {string} sign */
function quoted(sign) {
  const named = { "\\": "\\\\", "\n": "\\n", "\r": "\\r", "\t": "\\t", "'": "'" }[sign];
  if (named !== undefined) return sign === "'" ? `"'"` : `'${named}'`;
  if (sign === " " || !NOT_SHOWN.test(sign)) return `'${sign}'`;
  const code = Number(sign.codePointAt(0)), [letter, digits] = code < 0x100 ? ["x", 2] : code < 0x10000 ? ["u", 4] : ["U", 8];
  return `'\\${letter}${code.toString(16).padStart(Number(digits), "0")}'`;
}

/**
 * @param {{ [group: string]: string | undefined }} groups
 * @param {string} text
 * @param {number} column
 */
function tokenOf(groups, text, column) {
  if (groups.name !== undefined) return token(NAME, text, column);
  if (groups.mark !== undefined) return token(MARK, text, column);
  if (groups.number !== undefined) return token(NUMBER, text, column, { number: numberOf(text, column) });
  const content = contentOf(text.slice(1, -1), column + 1);
  if (groups.string !== undefined) return token(STRING, text, column, { content });
  if (content.length !== 1) throw new Wrong(column, "oneCharacter", { text });
  return token(NUMBER, text, column, { number: BigInt(content[0]) });
}

/**
 * @param {string} text
 * @param {number} column
 */
function numberOf(text, column) {
  const found = HEXADECIMAL.exec(text);
  if (text.length <= most.digits && found) return BigInt(`0x${found[1] ?? found[2]}`);
  if (text.length <= most.digits && /^[0-9]+$/.test(text)) return BigInt(text);
  const shown = text.slice(0, most.digits), binary = /^0[bB]([01]+)$/.exec(shown);
  throw binary ? new Wrong(column, "binary", { text: shown, number: parseInt(binary[1], 2) }) : new Wrong(column, "number", { text: shown });
}

/** Returns the bytes of a string; what is not ASCII is written by its number.
 * @param {string} text
 * @param {number} column */
function contentOf(text, column) {
  const content = new Uint8Array(text.length);
  let length = 0;
  for (const { 0: whole, 1: hexadecimal, 2: escaped, 3: plain, index = 0 } of text.matchAll(SIGN)) {
    const where = column + index;
    if (plain !== undefined && !/^[\x00-\x7f]$/.test(plain)) throw new Wrong(where, "ascii", { sign: quoted(plain) });
    if (escaped !== undefined && !ESCAPES.has(escaped)) throw new Wrong(where, "escape", { sign: escaped });
    content[length++] = hexadecimal !== undefined ? parseInt(hexadecimal, 16) : ESCAPES.get(escaped) ?? whole.charCodeAt(0);
  }
  return content.subarray(0, length);
}
