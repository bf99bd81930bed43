// @ts-check
/* What a word of a source means: the tables of docs/assembler.md, which `galluspa assemble --reference` prints of the same file; and which words may
 * go on where one writes. */
import { addresses, conditions, escapes, help, memory, operations, registers } from "../../tools/galluspa/formats/assembler.json";
import { instruction } from "../formats/instructions.js";
import { hex } from "../formats/states.js";

/** What is said of a word: what it is, rows of a form and what that does, and more.
 * @typedef {{ title: string, rows: [string, string][], more: string[] }} Help */

// The instructions of the table are at this word.
const EXAMPLES_AT = 100, AN_OFFSET = 2, LINK = 1 << 28, BRANCH = 0xe0000000;
const ESCAPES = new Map(Object.entries(escapes)), DEVICES = new Map(Object.entries(addresses)), RULES = new Map(help.rules.map(([group, rule]) => [group, plain(rule)]));
/** The rows of each mnemonic in capital letters. @type {Map<string, [string, string][]>} */
const ROWS = new Map();
for (const [example, word] of help.examples) addRow(example, parseInt(word, 16));
for (const [at, name] of conditions.entries()) for (const link of ["", "L"]) addRow(`B${link}${name} ${AN_OFFSET}`, BRANCH + (at << 24) + (link ? LINK : 0) + AN_OFFSET);
for (const name of operations) if (!ROWS.has(`${name}'`)) ROWS.set(`${name}'`, rowsOf(name));
/** The rows of each directive. @type {Map<string, [string, string][]>} */
const DIRECTIVES = new Map();
for (const [forms, does] of help.directives)
  for (const form of forms.split("; ")) DIRECTIVES.set(firstOf(form), [...(DIRECTIVES.get(firstOf(form)) ?? []), [form, plain(does)]]);
const REGISTERS = new Map(help.registers.flatMap(([names, what]) => names.split(" ").map((name) => /** @type {[string, string]} */ ([name, plain(what)]))));

/** All words that a statement may begin with, and those that may be in an operand. */
export const FIRST_WORDS = [...ROWS.keys(), ...DIRECTIVES.keys()], OPERANDS = [...REGISTERS.keys(), ...DEVICES.keys()];

/** @param {string} text */
function plain(text) {
  return text.replaceAll("`", "");
}

/** @param {string} form */
function firstOf(form) {
  return form.split(" ")[0];
}

/** @param {string} name */
function rowsOf(name) {
  return ROWS.get(name) ?? [];
}

/** Adds what an instruction does to the rows of its mnemonic.
 * @param {string} example
 * @param {number} word */
function addRow(example, word) {
  const [, does] = instruction(word, EXAMPLES_AT);
  ROWS.set(firstOf(example), [...rowsOf(firstOf(example)), [example, does]]);
}

/** Returns the group of instructions that a mnemonic is of.
 * @param {string} name */
const groupOf = (name) => (operations.includes(name.replace("'", "")) ? "operations" : name in memory ? "memory" : "branches");

/** Returns what a word of the language means, in upper or lower case; or null. Names of registers and devices are looked up in the same way.
 * @param {string} word
 * @returns {Help | null} */
export function helpOf(word) {
  const upper = word.toUpperCase(), directive = DIRECTIVES.get(word.toLowerCase()), rows = ROWS.get(upper), register = REGISTERS.get(upper), value = DEVICES.get(upper);
  if (rows) return { title: `${upper}: an instruction`, rows, more: [RULES.get(groupOf(upper)) ?? ""] };
  if (directive) return { title: `${word.toLowerCase()}: a directive`, rows: directive, more: [] };
  if (register !== undefined) return { title: upper, rows: [], more: [register] };
  if (value === undefined) return null;
  /** @type {{ [name: string]: string }} */
  const devices = help.devices;
  return { title: `${upper}: a device`, rows: [], more: [devices[upper], valueText(value)] };
}

/** Returns the number of a register by its name, or undefined: names that a source gives are not among them.
 * @param {string} name */
export function registerNumber(name) {
  const upper = name.toUpperCase(), found = /^R(1[0-5]|\d)$/.exec(upper);
  return found ? Number(found[1]) : new Map(Object.entries(registers)).get(upper);
}

/** Returns a number as a source may write it: `31`, `0x1F`, `1FH` or `'A'`; or null.
 * @param {string} text */
export function numberOf(text) {
  const [, prefixed, suffixed] = /^(?:0x([0-9a-f]+)|(\d[0-9a-f]*)h)$/i.exec(text) ?? [], [, character, hexadecimal, escaped] = /^'(?:([^'\\])|\\x([0-9a-f]{2})|\\(.))'$/i.exec(text) ?? [];
  const digits = prefixed ?? suffixed ?? hexadecimal, number = digits ? parseInt(digits, 16) : character ? Number(character.codePointAt(0)) : escaped ? ESCAPES.get(escaped) : /^\d+$/.test(text) ? Number(text) : NaN;
  return number !== undefined && number < 2 ** 53 ? number : null;
}

/** Writes a value in all notations: decimal, also with a sign, hexadecimal, and as a character.
 * @param {number} value */
export function valueText(value) {
  const isWord = value >= -(2 ** 31) && value < 2 ** 32, word = value >>> 0, signs = new Set([value, ...(isWord ? [word | 0] : [])]);
  const character = value >= 0x20 && value < 0x7f ? [`'${String.fromCharCode(value)}'`] : [];
  return [...[...signs].map((number) => number.toLocaleString("en")), `${hex(isWord ? word : value, 1)}H`, ...character].join(" = ");
}

/** Returns the words that begin as a word does, without it: the first word of a statement, or one of an operand.
 * @param {string} begun
 * @param {boolean} isFirst
 * @param {Iterable<string>} names */
export function completions(begun, isFirst, names) {
  const lower = begun.toLowerCase(), isLower = begun === lower;
  /** @param {string} name */
  const isMore = (name) => name.length > begun.length && name.toLowerCase().startsWith(lower);
  const built = (isFirst ? FIRST_WORDS : OPERANDS).filter(isMore).map((name) => (isLower ? name.toLowerCase() : name));
  return [...new Set([...(isFirst ? [] : [...names].filter(isMore)), ...built])];
}
