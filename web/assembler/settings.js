// @ts-check
/* Makes the session of an assembled source: registers, rate and inputs. What the source says of its checkpoints is for the tools; it is read for its mistakes. */
import { ends } from "../../tools/galluspa/formats/assembler.json";
import { MEMORY_BYTES, only } from "./assembly.js";
import { Wrong } from "./language.js";
import { INPUT_LIMIT, MOST_COUNT } from "../formats/limits.js";
import { columnOf, expectCommas, INSTRUCTION, isString, SETTINGS, textOf } from "./statements.js";
import { isMark } from "./tokens.js";

/** @typedef {import("./assembly.js").Assembly} Assembly */
/** @typedef {import("./statements.js").Statement} Statement */
/** @typedef {import("./statements.js").Argument} Argument */

const WORD = 0xffffffff, MOUSE = 0x073ff3ff;
const FLAGS = "NZCV";
/** The most that an input of each kind may be. */
const MOST = new Map([["timer", WORD], ["switches", 0xfff], ["mouse", MOUSE], ["key", 0xff], ["serial", 0xff], ["disk", WORD]]);

/** What a source says of its session.
 * @typedef {{ registers: number[], h: number, pc: number, flags: number, rate: number, phase: number, inputs: [number, string, number][] }} Start */

/** What a source says of its session, and the lines that say which checkpoints it has. */
export class Settings {
  /** @type {Start} */
  session = { registers: Array(16).fill(0), h: 0, pc: 0, flags: 0, rate: 0, phase: 0, inputs: [] };
  /** @type {Statement | null} */
  every = null;
  hasLast = false;
  /** @type {Statement | null} */
  until = null;

  /** @param {Assembly} assembly */
  constructor(assembly) {
    this.assembly = assembly;
  }

  /**
   * @param {Statement} statement
   * @param {Argument} argument
   * @param {number} least
   * @param {number} most
   * @param {string} what
   */
  bounded(statement, argument, least, most, what) {
    const { number } = this.assembly.value(argument, statement.here);
    if (number < least || number > most) throw new Wrong(columnOf(argument), "range", { what, number, least, most, advice: "" });
    return Number(number);
  }

  /** @param {Statement} statement */
  start(statement) {
    const argument = only(statement), at = this.bounded(statement, argument, 0, MEMORY_BYTES - 1, "the byte address");
    if (at % 4) throw new Wrong(columnOf(argument), "start", { number: at });
    this.session.pc = at / 4;
  }

  /** Sets a register to a word, or flags by their letters.
   * @param {Statement} statement */
  set(statement) {
    const argument = only(statement), [name] = argument.tokens, value = { tokens: argument.tokens.slice(2), end: argument.end };
    if (argument.tokens.length < 3 || !isMark(argument.tokens[1], "=")) throw new Wrong(columnOf(argument), "set");
    if (name.text.toLowerCase() === "flags") {
      this.session.flags = flagsOf(value);
      return;
    }
    const number = this.bounded(statement, value, -(2 ** 31), WORD, "the value") >>> 0, register = this.assembly.registerOf(name.text);
    if (register !== undefined) this.session.registers[register] = number;
    else if (name.text.toUpperCase() === "H") this.session.h = number;
    else throw new Wrong(name.column, "setName", { name: name.text });
  }

  /** @param {Statement} statement */
  rate(statement) {
    this.session.rate = this.bounded(statement, only(statement), 0, WORD, "the rate");
  }

  /** @param {Statement} statement */
  phase(statement) {
    this.session.phase = this.bounded(statement, only(statement), 0, WORD, "the phase");
  }

  /** Adds an input, or one for each byte of a string.
   * @param {Statement} statement */
  input(statement) {
    if (statement.arguments.length !== 3) throw new Wrong(statement.name.column, "input");
    const [count, kind, value] = statement.arguments, { inputs } = this.session, least = inputs.length ? inputs[inputs.length - 1][0] : 0;
    const at = this.bounded(statement, count, least, MOST_COUNT, "the count"), name = textOf(kind).toLowerCase(), most = MOST.get(name);
    if (most === undefined) throw new Wrong(columnOf(kind), "kind", { name: textOf(kind), names: [...MOST.keys()].join(", ") });
    if (isString(value) && (name === "key" || name === "serial")) {
      for (const byte of value.tokens[0].content) inputs.push([at, name, byte]);
      return;
    }
    const number = this.bounded(statement, value, 0, most, `the value for ${name}`);
    if (name === "mouse" && number & ~MOUSE) throw new Wrong(columnOf(value), "mask", { number, mask: "073FF3FF" });
    inputs.push([at, name, number]);
  }

  /** @param {Statement} statement */
  checkpoints(statement) {
    if (!statement.arguments.length) throw new Wrong(statement.name.column, "checkpoints");
    for (const argument of statement.arguments) this.bounded(statement, argument, 1, MOST_COUNT, "the count");
  }

  /** @param {Statement} statement */
  everyOf(statement) {
    once(this.every, statement);
    const { length } = statement.arguments;
    if (length < 1 || length > 2) throw new Wrong(statement.name.column, "every");
    for (const argument of statement.arguments) this.bounded(statement, argument, 1, MOST_COUNT, "the count");
    Object.assign(this, { every: statement, hasLast: length > 1 });
  }

  /** @param {Statement} statement */
  untilOf(statement) {
    once(this.until, statement);
    this.until = statement;
    const { length } = statement.arguments, end = length ? textOf(statement.arguments[0]).toLowerCase() : "";
    if (length < 1 || length > 2 || !ends.includes(end)) throw new Wrong(statement.name.column, "until");
    for (const most of statement.arguments.slice(1)) this.bounded(statement, most, 1, MOST_COUNT, "the count");
  }

  /** Finds what is wrong with the settings as a whole. */
  check() {
    const { assembly, session, every } = this;
    /** @param {string} does */
    const firstOf = (does) => assembly.statements.find((statement) => statement.does === does);
    if (session.phase >= Math.max(session.rate, 1)) {
      const { line, name } = firstOf("phase") ?? { line: 1, name: { column: 1 } };
      assembly.keeping(line, () => {
        throw new Wrong(name.column, "phase", { phase: session.phase, rate: session.rate });
      });
    }
    if (every && !this.hasLast && !this.until)
      assembly.keeping(every.line, () => {
        throw new Wrong(every.name.column, "everyEnd");
      });
    const input = firstOf("input");
    if (input && session.inputs.length > INPUT_LIMIT)
      assembly.keeping(input.line, () => {
        throw new Wrong(input.name.column, "inputs", { number: session.inputs.length, most: INPUT_LIMIT });
      });
  }
}

/** @type {{ [does: string]: (settings: Settings, statement: Statement) => void }} */
const SETTERS = {
  start: (settings, statement) => settings.start(statement),
  set: (settings, statement) => settings.set(statement),
  rate: (settings, statement) => settings.rate(statement),
  phase: (settings, statement) => settings.phase(statement),
  input: (settings, statement) => settings.input(statement),
  checkpoints: (settings, statement) => settings.checkpoints(statement),
  every: (settings, statement) => settings.everyOf(statement),
  until: (settings, statement) => settings.untilOf(statement),
};

/** Returns what a source says of its session; what is wrong with it joins the problems of the source.
 * @param {Assembly} assembly */
export function settingsOf(assembly) {
  const made = new Settings(assembly), first = assembly.statements.find(({ does }) => does === INSTRUCTION);
  made.session.pc = Math.floor((first?.here ?? 0) / 4);
  for (const statement of assembly.statements)
    if (SETTINGS.has(statement.does)) assembly.keeping(statement.line, () => (expectCommas(statement), SETTERS[statement.does](made, statement)));
  made.check();
  return made;
}

/** @param {Argument} value */
function flagsOf(value) {
  const letters = [...textOf(value).toUpperCase()];
  if (!letters.every((letter) => FLAGS.includes(letter))) throw new Wrong(columnOf(value), "flags", { text: textOf(value), letters: FLAGS });
  return letters.reduce((flags, letter) => flags | 8 >> FLAGS.indexOf(letter), 0);
}

/**
 * @param {Statement | null} before
 * @param {Statement} statement
 */
function once(before, { name }) {
  if (before) throw new Wrong(name.column, "again", { name: name.text, where: `line ${before.line}` });
}
