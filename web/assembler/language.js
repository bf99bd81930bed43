// @ts-check
/* The assembler's language as the tools and the page have it in common: names, numbers, and the texts of mistakes. */
import { advice as advices, mistakes, most } from "../../tools/galluspa/formats/assembler.json";

/** What is put into a text. A number may be written with commas, or in hexadecimal, as the text says.
 * @typedef {{ [name: string]: string | number | bigint }} Given */

// What a message quotes of a source. Of a longer text it quotes the beginning.
const QUOTED = ["text", "name", "meant"];
/** @param {string} text */
export const cut = (text) => (text.length > most.shown ? `${text.slice(0, most.shown)}..` : text);

/** Writes a number with commas between its thousands.
 * @param {string | number | bigint} number */
const withCommas = (number) => `${number}`.replace(/\B(?=(?:\d{3})+$)/g, ",");

/**
 * @param {string | number | bigint} value
 * @param {string} [form]
 */
function written(value, form) {
  if (form === ":,") return withCommas(value);
  return form === ":X" ? value.toString(16).toUpperCase() : `${value}`;
}

/**
 * @param {string} text
 * @param {Given} given
 */
const filled = (text, given) => text.replace(/\{(\w+)(:[,X])?\}/g, (_, name, form) => (QUOTED.includes(name) ? cut(`${given[name]}`) : written(given[name], form)));

/** Returns the end of the text of a mistake: what may be meant, or what to write.
 * @param {keyof typeof advices} name
 * @param {Given} given */
export const advice = (name, given = {}) => filled(advices[name], given);

/** Returns the text of a mistake.
 * @param {keyof typeof mistakes} name
 * @param {Given} given */
export const mistake = (name, given = {}) => filled(mistakes[name], given);

/** What is wrong at a column of a line, counted from 1. */
export class Wrong {
  /**
   * @param {number} column
   * @param {keyof typeof mistakes} name
   * @param {Given} given
   */
  constructor(column, name, given = {}) {
    this.column = column;
    this.text = mistake(name, given);
  }
}
