// @ts-check
/* Assembles a source: lays its statements out in memory, gives its names their values, and encodes its words. Each thing that is wrong
 * is a problem of its own, so that one run finds all of them. It is the assembler of tools/galluspa/assembler/assembly.py; a test holds them equal. */
import { addresses, most, registers as registerNames } from "../../tools/galluspa/formats/assembler.json";
import { encoded, operandOf, registerOf, SPECIALS } from "./encoding.js";
import { deeper, evaluate, valueOf } from "./expressions.js";
import { advice, Wrong } from "./language.js";
import { alikeOf } from "./alike.js";
import { columnOf, CONSTANT, expectCommas, INSTRUCTION, isAligned, isString, SETTINGS, sizeOf, statementOf } from "./statements.js";

/** @typedef {import("./tokens.js").Token} Token */
/** @typedef {import("./statements.js").Statement} Statement */
/** @typedef {import("./statements.js").Argument} Argument */
/** @typedef {import("./expressions.js").Value} Value */
/** What is wrong at a line and a column, both counted from 1.
 * @typedef {{ line: number, column: number, text: string }} Problem */
/** What is filled from an origin on: the line of the origin, its column, and the bytes from one address to another.
 * @typedef {{ line: number, column: number, start: number, end: number, isBeyond: boolean }} Region */

export const MEMORY_BYTES = 1 << 20;
const NARROW = 22, WIDE = 24;
const BUILT_IN = new Map(Object.entries(addresses)), REGISTER_NAMES = new Map(Object.entries(registerNames));
// A number that another assembler may read.
const HEXADECIMAL = /^[A-Fa-f][0-9A-Fa-f]*[Hh]$/;

/** A program that is assembled: its statements, its names, its memory, and what is wrong with it. Its lines are counted from 1 over all its sources. */
export class Assembly {
  /** @param {import("./parts.js").SourceLine[]} places */
  constructor(places) {
    this.places = places;
  }

  /** @type {Statement[]} */
  statements = [];
  /** @type {Problem[]} */
  problems = [];
  /** @type {Region[]} */
  regions = [{ line: 1, column: 1, start: 0, end: 0, isBeyond: false }];
  /** @type {Map<string, number>} */
  labels = new Map();
  /** @type {Map<string, Statement>} */
  constants = new Map();
  /** @type {Map<string, number>} */
  registers = new Map();
  /** @type {Map<string, number>} */
  lines = new Map();
  // Each name in capital letters, and its place among the names: built-in ones come after all those that a source defines.
  /** @type {Map<string, [number, string]>} */
  spelled = new Map([...BUILT_IN.keys()].map((name, at) => [name, [2 ** 32 + at, name]]));
  suggestions = 0;
  memory = new Uint8Array();
  /** @type {Token[]} */
  waiting = [];
  /** @type {Map<string, Value>} */
  known = new Map();
  /** @type {Set<string>} */
  open = new Set();
  isNarrow = false;

  /** Returns a line as another one names it: with its file, if that differs.
   * @param {number} line
   * @param {number} near */
  lineText(line, near) {
    const { file, line: number } = this.places[line - 1];
    return `line ${number}${file === this.places[near - 1].file ? "" : ` of ${file}`}`;
  }

  /** Does something, and keeps what is wrong in a line as a problem.
   * @param {number} line
   * @param {() => void} task */
  keeping(line, task) {
    try {
      task();
    } catch (error) {
      if (!(error instanceof Wrong)) throw error;
      this.problems.push({ line, column: error.column, text: error.text });
    }
  }

  /** The region that is being filled. */
  get region() {
    return this.regions[this.regions.length - 1];
  }

  /** Returns the number of a register by a name for it; undefined of any other name.
   * @param {string} name */
  registerOf(name) {
    const number = this.registers.get(name) ?? registerOf(name);
    return number === undefined && !this.lines.has(name) ? REGISTER_NAMES.get(name.toUpperCase()) : number;
  }

  /** Returns the value of an argument of a statement at an address.
   * @param {Argument} argument
   * @param {number} here
   * @param {number} depth */
  value(argument, here, depth = 0) {
    return evaluate(argument.tokens, argument.end, (token, deep) => this.named(token, deep), here, depth);
  }

  /** Returns what a name stands for, in an expression that is so deep.
   * @param {Token} token
   * @param {number} depth
   * @returns {Value} */
  named(token, depth = 0) {
    const { text: name, column } = token, upper = name.toUpperCase(), label = this.labels.get(name), address = BUILT_IN.get(upper);
    if (label !== undefined) return valueOf(BigInt(label), true);
    if (this.constants.has(name)) return this.constant(token, depth);
    if (address !== undefined) return valueOf(BigInt(address));
    if (this.registerOf(name) !== undefined || SPECIALS.has(upper)) throw new Wrong(column, "wanted", { name });
    throw new Wrong(column, "undefined", { name, advice: this.lines.has(name) ? advice("above") : this.meant(name) });
  }

  /** Returns what may be meant by a name that is not defined.
   * @param {string} name */
  meant(name) {
    if (HEXADECIMAL.test(name)) return advice("hexadecimal", { name });
    const meant = ++this.suggestions <= most.suggestions ? alikeOf(name, this.spelled) : "";
    return meant ? advice("meant", { meant }) : "";
  }

  /**
   * @param {Token} token
   * @param {number} depth
   */
  constant(token, depth) {
    const { text: name, column } = token, known = this.known.get(name);
    if (this.open.has(name)) throw new Wrong(column, "itself", { name });
    if (known) return known;
    const statement = /** @type {Statement} */ (this.constants.get(name)), deep = deeper(depth, token);
    this.open.add(name);
    this.known.set(name, valueOf(0n));
    this.keeping(statement.line, () => this.known.set(name, this.value(statement.arguments[0], statement.here, deep)));
    this.open.delete(name);
    return /** @type {Value} */ (this.known.get(name));
  }

  /** Gives a statement its address, and its labels theirs.
   * @param {Statement} statement */
  layOut(statement) {
    const { line, does } = statement, { region } = this;
    for (const label of statement.labels) this.keeping(line, () => (this.define(line, label), this.waiting.push(label)));
    if (does === "origin") {
      this.setLabels();
      this.regions.push(this.regionOf(statement));
      return;
    }
    if (isAligned(statement)) region.end += (4 - (region.end % 4)) % 4;
    Object.assign(statement, { here: region.end, isNarrow: this.isNarrow });
    if (does === "offsets") this.isNarrow = this.offsetBits(statement) === NARROW;
    else if (does === "include") throw new Wrong(statement.name.column, "include");
    else if (does === CONSTANT) this.layOutConstant(statement);
    else if (does && !SETTINGS.has(does)) this.fill(statement);
  }

  /** Defines a name of a register, or a constant.
   * @param {Statement} statement */
  layOutConstant(statement) {
    const { line, name, arguments: [{ tokens }] } = statement, register = tokens.length === 1 ? this.registerOf(tokens[0].text) : undefined;
    this.define(line, name);
    if (register === undefined) this.constants.set(name.text, statement);
    else this.registers.set(name.text, register);
  }

  /** Takes the bytes that a statement fills.
   * @param {Statement} statement */
  fill(statement) {
    const { region } = this;
    this.setLabels();
    region.end += sizeOf(statement);
    if (region.end <= MEMORY_BYTES || region.isBeyond) return;
    region.isBeyond = true;
    throw new Wrong(statement.name.column, "beyond", { bytes: MEMORY_BYTES });
  }

  /**
   * @param {number} line
   * @param {Token} name
   */
  define(line, { text, column }) {
    const upper = text.toUpperCase(), isDevice = BUILT_IN.has(upper), before = this.lines.get(text);
    if (registerOf(text) !== undefined || SPECIALS.has(upper) || isDevice)
      throw new Wrong(column, "taken", { name: text, what: isDevice ? "device" : "register" });
    if (text.endsWith("'")) throw new Wrong(column, "apostrophe", { name: text });
    if (before !== undefined) throw new Wrong(column, "twice", { name: text, where: this.lineText(before, line) });
    if (!this.spelled.has(upper)) this.spelled.set(upper, [this.lines.size, text]);
    this.lines.set(text, line);
  }

  /** Gives the labels that wait for what follows them the address here. */
  setLabels() {
    for (const { text } of this.waiting) this.labels.set(text, this.region.end);
    this.waiting = [];
  }

  /** @param {Statement} statement */
  regionOf(statement) {
    const argument = only(statement), { number } = this.value(argument, this.region.end);
    if (number < 0n || number >= MEMORY_BYTES) throw new Wrong(columnOf(argument), "origin", { number, most: MEMORY_BYTES - 1 });
    const start = Number(number);
    return { line: statement.line, column: statement.name.column, start, end: start, isBeyond: false };
  }

  /** @param {Statement} statement */
  offsetBits(statement) {
    const argument = only(statement), { number } = this.value(argument, statement.here);
    if (number !== BigInt(NARROW) && number !== BigInt(WIDE)) throw new Wrong(columnOf(argument), "offsets", { narrow: NARROW, wide: WIDE });
    return Number(number);
  }

  /** Finds regions that fill what another fills that begins before them or with them. */
  findOverlaps() {
    const [first, ...rest] = this.filledRegions();
    let furthest = first;
    for (const region of rest) {
      const [before, after] = region.line < furthest.line ? [region, furthest] : [furthest, region], last = Math.min(region.end, furthest.end) - 1;
      if (region.start < furthest.end)
        this.keeping(after.line, () => {
          throw new Wrong(after.column, "filled", { first: region.start, last, where: this.lineText(before.line, after.line) });
        });
      if (region.end > furthest.end) furthest = region;
    }
  }

  /** The regions that fill something, by their addresses. */
  filledRegions() {
    return this.regions.filter(({ start, end }) => end > start).sort((one, other) => one.start - other.start || one.line - other.line);
  }

  /** Returns the bytes of each statement that fills some, with their address.
   * @returns {[number, ArrayLike<number>][]} */
  contents() {
    /** @type {[number, ArrayLike<number>][]} */
    const found = [];
    for (const statement of this.statements) {
      const { does, here } = statement, isData = does === "word" || does === "byte" || does === "string";
      this.keeping(statement.line, () => {
        if (!SETTINGS.has(does)) expectCommas(statement);
        if (does === INSTRUCTION) found.push([here, bytesOf(this.instruction(statement), 4)]);
        else if (isData) found.push([here, this.data(statement)]);
      });
    }
    return found;
  }

  /** @param {Statement} statement */
  instruction({ arguments: given, name, here, isNarrow }) {
    /** @type {import("./expressions.js").Names} */
    const names = (token, depth) => this.named(token, depth);
    const operands = given.map(({ tokens, end }) => operandOf(tokens, end, names, here, (text) => this.registerOf(text)));
    return encoded(name, operands, here, isNarrow);
  }

  /** @param {Statement} statement */
  data(statement) {
    const { arguments: given, does, name } = statement, content = new Uint8Array(sizeOf(statement));
    if (!given.length) throw new Wrong(name.column, "data", { name: name.text });
    if (does === "string" && !given.every(isString)) throw new Wrong(columnOf(given[0]), "string");
    let at = 0;
    for (const one of given) {
      const bytes = does !== "word" && isString(one) ? one.tokens[0].content : this.packed(one, statement.here, does === "word" ? 4 : 1);
      content.set(bytes, at);
      at += bytes.length;
    }
    return content;
  }

  /** Returns the bytes of a number, the lowest first; a number below 0 is written modulo 2^8 or 2^32.
   * @param {Argument} argument
   * @param {number} here
   * @param {number} size */
  packed(argument, here, size) {
    const end = 2 ** (8 * size), { number } = this.value(argument, here);
    if (number < -end / 2 || number >= end)
      throw new Wrong(columnOf(argument), "packed", { number, what: size === 4 ? "word" : "byte", least: -end / 2, most: end - 1 });
    return bytesOf(Number(BigInt.asUintN(32, number)), size);
  }
}

/**
 * @param {number} number
 * @param {number} size
 */
const bytesOf = (number, size) => Array.from({ length: size }, (_, at) => number >>> (8 * at) & 255);

/** Returns the one argument of a statement.
 * @param {Statement} statement */
export function only({ arguments: given, name }) {
  if (given.length !== 1) throw new Wrong(name.column, "oneValue", { name: name.text });
  return given[0];
}

/** Returns a program, assembled; it has a memory only if there are no problems.
 * @param {import("./parts.js").SourceLine[]} lines */
export function assembled(lines) {
  const made = new Assembly(lines);
  lines.forEach(({ text, mistake }, at) => {
    if (mistake) made.problems.push({ line: at + 1, column: 1, text: mistake });
    else made.keeping(at + 1, () => made.statements.push(statementOf(at + 1, text)));
  });
  for (const statement of made.statements) made.keeping(statement.line, () => made.layOut(statement));
  made.setLabels();
  for (const { name } of made.constants.values()) made.named(name);
  made.findOverlaps();
  const contents = made.contents();
  if (made.problems.length) return made;
  made.memory = new Uint8Array(made.filledRegions().reduce((most, { end }) => Math.max(most, end), 0));
  for (const [at, bytes] of contents) made.memory.set(bytes, at);
  return made;
}
