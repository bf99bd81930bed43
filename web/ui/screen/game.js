// @ts-check
/* Whether the machine plays Snake, and which keys the arrows are there. */
import { app } from "../../host/app.js";
import { examples } from "../../host/packed.js";
import { hashOf, MEMORY_BYTES, PAGE_BYTES, wordsOf } from "../../formats/states.js";

export const SNAKE = "snake";
/** @type {{ [key: string]: string }} */
export const ARROWS = { ArrowUp: "w", ArrowLeft: "a", ArrowDown: "s", ArrowRight: "d" };

let snakeProgram = 0;
/** Whether the machine began with the memory of the game, whatever its recording is called. */
export function isSnake() {
  snakeProgram ||= hashOf(wordsOf(memoryOf(examples()[SNAKE])));
  return app.work.program === snakeProgram;
}

/** Returns the memory of a session that the page contains.
 * @param {{ pages: { at: number, hex: string }[] }} session */
function memoryOf({ pages }) {
  const memory = new Uint8Array(MEMORY_BYTES);
  for (const { at, hex: digits } of pages) memory.set((digits.match(/../g) ?? []).map((byte) => parseInt(byte, 16)), PAGE_BYTES * at);
  return memory;
}
