// @ts-check
/* What the live worker says for the page's timeline: the inputs of a span by columns, the checkpoints, and what is next to a count; and
 * what a checkpoint claims. */
import { machine } from "./context.js";
import { copied } from "../engine/emulator.js";
import { generation } from "./frames.js";

// How many inputs of a column are examined, and how many of a lane are listed as text.
const LOOKED_AT = 32, LISTED = 40;
/** @type {("keys" | "mouse" | "serial" | "disk")[]} */
const LANE_OF = ["mouse", "mouse", "mouse", "keys", "serial", "disk"];

export const QUERIES = {
  /** Returns the lanes of a span of counts, which is shown in a number of columns, of the machine of a number; or null if that is gone.
   * @param {Requests["lanes"][0]} given
   * @returns {Lanes | null} */
  lanes({ from, to, columns, of }) {
    if (of !== generation) return null;
    const { marks, planned, end } = machine;
    return { ...inputLanes(from, to, columns), marks, planned, end };
  },
  /** Returns the count of the last input before a count, or of the first one after it, or null.
   * @param {Requests["inputNear"][0]} given */
  inputNear({ at, isBefore }) {
    const { inputs } = machine, found = isBefore ? inputs.from(at) - 1 : inputs.from(at + 1);
    return found >= 0 && found < inputs.length ? inputs.count(found) : null;
  },
  /** Returns bytes of the memory of the machine of a number as it is now, or null if that is gone.
   * @param {Requests["words"][0]} given */
  words({ from, length, of }) {
    return of === generation ? machine.words.slice(from, from + length) : null;
  },
  /** Returns all that a checkpoint of the recording claims, or null if the recording is gone.
   * @param {Requests["claimedWhole"][0]} given */
  claimedWhole({ number, of }) {
    const sent = machine.recording?.claims[number]?.sent;
    return of === generation && sent ? { ...copied(machine.claimedBy(number)), sent } : null;
  },
};

/** Returns the inputs of a span: the keys with their columns, how much the mouse moves in each column (2 with a key down), in which
 * columns serial bytes and answers of the disk come, and the first of each lane as a list.
 * @param {number} from
 * @param {number} to
 * @param {number} columns */
function inputLanes(from, to, columns) {
  const { inputs } = machine, found = { mouse: new Uint8Array(columns), serial: new Uint8Array(columns), disk: new Uint8Array(columns) };
  /** @type {[number, number][]} */
  const keys = [];
  /** @type {{ [lane: string]: Input[] }} */
  const listed = { keys: [], mouse: [], serial: [], disk: [] };
  const width = (to - from) / columns;
  for (let column = 0, at = inputs.from(from); column < columns; column++) {
    const end = inputs.from(from + (column + 1) * width, at);
    for (let number = 0; at + number < end && number < LOOKED_AT; number++) {
      const [count, kind, value] = inputs.item(at + number), lane = LANE_OF[inputs.kind(at + number) - 1];
      if (lane === "keys") keys.push([column, value]);
      else found[lane][column] = Math.max(found[lane][column], kind === "mouse" && value >> 24 ? 2 : 1);
      if (listed[lane].length < LISTED) listed[lane].push([count, kind, value]);
    }
    at = end;
  }
  return { ...found, keys, listed };
}
