// @ts-check
/* JSON as the program's reader has it: it accepts and refuses the same texts. */
import { Refused } from "./refused.js";

// How deep arrays and objects may be in one another.
const DEPTH = 127;

/** A value of JSON; a number that is not whole is null, and null is undefined.
 * @typedef {string | boolean | bigint | null | undefined | Map<string, any> | any[]} Json */
/** @type {[string, boolean | undefined][]} */
const JSON_WORDS = [["true", true], ["false", false], ["null", undefined]];

/** Reads numbers as BigInt, or as null if they are not whole. */
export class JsonReader {
  /** @param {string} text */
  constructor(text) {
    this.text = text;
    this.at = 0;
  }

  document() {
    const value = this.value(0);
    this.space();
    if (this.at < this.text.length) this.fail();
    return value;
  }

  /** @returns {never} */
  fail() {
    throw new Refused("session refused 1 json");
  }

  space() {
    while (" \t\n\r".includes(this.text[this.at] ?? "x")) this.at++;
  }

  /** Steps over a character that has to be here, after spaces.
   * @param {string} character */
  expect(character) {
    this.space();
    if (this.text[this.at] !== character) this.fail();
    this.at++;
  }

  /** @param {string} character */
  is(character) {
    this.space();
    return this.text[this.at] === character;
  }

  /**
   * @param {number} depth
   * @returns {Json}
   */
  value(depth) {
    this.space();
    const first = this.text[this.at];
    if (first === "{" || first === "[") {
      if (depth === DEPTH) this.fail();
      return first === "{" ? this.object(depth + 1) : this.array(depth + 1);
    }
    if (first === '"') return this.string();
    for (const [word, value] of JSON_WORDS) {
      if (this.text.startsWith(word, this.at)) return (this.at += word.length), value;
    }
    return this.number();
  }

  /**
   * @param {number} depth
   * @returns {Map<string, Json>}
   */
  object(depth) {
    const members = new Map();
    this.expect("{");
    if (!this.is("}")) {
      do {
        this.space();
        const name = this.string();
        this.expect(":");
        members.set(name, this.value(depth));
      } while (this.is(",") && ++this.at);
    }
    this.expect("}");
    return members;
  }

  /**
   * @param {number} depth
   * @returns {Json[]}
   */
  array(depth) {
    const items = [];
    this.expect("[");
    if (!this.is("]")) {
      do items.push(this.value(depth));
      while (this.is(",") && ++this.at);
    }
    this.expect("]");
    return items;
  }

  string() {
    if (this.text[this.at] !== '"') this.fail();
    let end = this.at + 1;
    for (let code; (code = this.text.charCodeAt(end)) !== 0x22; end += code === 0x5c ? 2 : 1) if (!(code >= 0x20)) this.fail();
    const read = unescaped(this.text.slice(this.at, end + 1));
    if (!read?.isWellFormed()) return this.fail();
    this.at = end + 1;
    return read;
  }

  number() {
    const NUMBER = /-?(?:0|[1-9]\d*)(\.\d+)?([eE][+-]?\d+)?/y;
    NUMBER.lastIndex = this.at;
    const found = NUMBER.exec(this.text);
    if (!found || /[\d.eE+-]/.test(this.text[NUMBER.lastIndex] ?? "")) return this.fail();
    this.at = NUMBER.lastIndex;
    if (!Number.isFinite(Number(found[0]))) this.fail();
    const isWhole = found[0][0] !== "-" && !found[1] && !found[2];
    const whole = isWhole ? BigInt(found[0]) : null;
    return whole !== null && whole < 1n << 64n ? whole : null;
  }
}

/** Returns the text of a JSON string, or undefined if an escape is wrong.
 * @param {string} written */
function unescaped(written) {
  try {
    return JSON.parse(written);
  } catch {
    return undefined;
  }
}
