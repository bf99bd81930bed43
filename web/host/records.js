// @ts-check
/* The records of what the browser keeps: their shapes, and how they are read and deleted. A list reads the heads alone, since bodies may be large. Other pages may share
 * the storage with this one, so what is read is judged first: an item of another shape is offered as a file, and deleted. */
import { HEAD, isSourceId, items } from "./keeping.js";
import { Refusal } from "./requests.js";
import { MOST_BREAKS } from "./shown.js";
import { withStore } from "./storage.js";
import { SHADES } from "../formats/dots.js";
import { INPUT_BYTES } from "../formats/layout.js";
import { MOST_COUNT } from "../formats/limits.js";
import { areNotes } from "../formats/pinned.js";
import { isLesson } from "../formats/project.js";
import { AT, joined, MEMORY_BYTES, PAGE_BYTES, PAGES, STATE_BYTES, withDisk, WORDS, wordsOf } from "../formats/states.js";

/** An item that is not there, or is of another shape. */
export class Gone extends Refusal {
  constructor() {
    super("What was kept is no longer there.");
  }
}

// Shapes

/** @typedef {(value: any) => boolean} Test */

/** @param {{ [member: string]: Test }} members
 * @returns {Test} */
const has = (members) => (value) => Object.entries(members).every(([name, test]) => test(value?.[name]));
/** @param {Test} test
 * @returns {Test} */
const maybe = (test) => (value) => value === undefined || test(value);
/** @param {Test} test
 * @returns {Test} */
const list = (test, most = Infinity) => (value) => Array.isArray(value) && value.length <= most && value.every(test);
/** @param {Test[]} tests
 * @returns {Test} */
const tuple = (...tests) => (value) => Array.isArray(value) && value.length === tests.length && tests.every((test, at) => test(value[at]));
/** @returns {Test} */
const bytes = (length = NaN, unit = 1) => (value) => value instanceof Uint8Array && value.length % unit === 0 && (Number.isNaN(length) || value.length === length);
/** @param {number} end
 * @returns {Test} */
const below = (end) => (value) => Number.isInteger(value) && value >= 0 && value < end;
/** @type {Test} */
const isText = (value) => typeof value === "string";
/** @type {Test} */
const isFlag = (value) => typeof value === "boolean";

const isCount = below(MOST_COUNT + 1), areInputs = bytes(NaN, INPUT_BYTES), isSpot = tuple(isCount, isCount);
/** @type {Test} */
const areCodes = (value) => bytes()(value) || list(below(256))(value);
const isWaiting = has({ keys: areCodes, serial: areCodes, taken: maybe(has({ keys: isCount, serial: isCount })) });
/** @type {Test} */
const isWatch = (value) => isCount(value?.first) && isCount(value.end) && value.first < value.end && value.end <= MEMORY_BYTES;
/** @type {Test} */
const isMachine = (value) => has({ state: (state) => bytes(STATE_BYTES)(state) || bytes(AT.disk)(state), pages: list(below(PAGES), PAGES), words: bytes() })(value) && value.words.length === PAGE_BYTES * value.pages.length;
/** @type {Test} */
const isRan = (value) => has({ id: isText, file: isText, sources: list(tuple(isText, isText)) })(value) && value.sources.some((/** @type {[string, string]} */ [file]) => file === value.file);

const ANY = { of: isText, at: Number.isFinite, name: isText, size: Number.isFinite };
const isRunHead = has({
  ...ANY, by: isText, until: isCount, inputs: isCount, shades: maybe(bytes(SHADES)), pinned: maybe(isFlag), family: maybe(Number.isInteger), number: maybe(isCount), parent: maybe(isCount),
  since: maybe(has({ from: isCount, inputs: areInputs, marks: list(isCount), until: isCount, waiting: isWaiting })),
  desk: has({ breaks: list(below(WORDS), MOST_BREAKS), cursor: (value) => value === null || isCount(value), source: isText, watches: list(isWatch, MOST_BREAKS), notes: areNotes }),
});
const isRunBody = has({
  by: isText, sent: isText, ran: maybe(isRan), symbols: maybe(has({ from: isText, bytes: bytes() })), recording: bytes(), sentSince: bytes(), count: isCount, inputs: areInputs,
  waiting: isWaiting, live: maybe(isMachine), marks: maybe(list(isCount)), until: maybe(isCount),
});
const isSourceHead = has({ ...ANY, files: isCount, lines: isCount, desk: has({ file: isText, caret: maybe(isSpot), breaks: list(list(isCount)) }) });
const isChange = has({ at: isSpot, removed: isText, inserted: isText });
const isSourceBody = has({ parts: list(has({ name: isText, text: isText, done: list(isChange) })), lesson: isLesson });

/** @param {any} head
 * @returns {head is Head} */
const isHead = (head) => isText(head?.of) && head.id === HEAD + head.of && (isSourceId(head.of) ? isSourceHead : isRunHead)(head);

// Memories

/** Returns a machine with only those pages of its memory that are not zero: a small program takes some kilobytes, not a megabyte.
 * @param {Memory} machine
 * @returns {PackedMemory} */
export function packedMachine({ state, words }) {
  const all = wordsOf(words), inPage = PAGE_BYTES / 4, pages = Array.from({ length: PAGES }, (_, page) => page).filter((page) => all.subarray(page * inPage, (page + 1) * inPage).some(Boolean));
  return { state, pages, words: joined(pages.map((page) => words.subarray(page * PAGE_BYTES, (page + 1) * PAGE_BYTES))) };
}

/** Returns a machine with all of its memory.
 * @param {PackedMemory} machine
 * @returns {Memory} */
function unpackedMachine({ state, pages, words: some }) {
  const words = new Uint8Array(MEMORY_BYTES);
  pages.forEach((page, at) => words.set(some.subarray(at * PAGE_BYTES, (at + 1) * PAGE_BYTES), page * PAGE_BYTES));
  return { state: withDisk(state), words };
}

// Reading

/** Returns a machine with what came since its body was written, if that is of it. The source that it was run from is the one that the head names: that of a copy may have
 * been written later than its body.
 * @param {KeptRun} written
 * @param {RunHead} head
 * @returns {Kept} */
function merged({ live: packed, ran, ...rest }, { by, since, desk: { source } }) {
  const live = packed ? unpackedMachine(packed) : null, body = ran ? { ...rest, ran: { ...ran, id: source || ran.id } } : rest, begin = INPUT_BYTES * (since?.from ?? 0), known = body.inputs.length, { marks: before = [], until: end = body.count } = body;
  if (!since || by !== body.by || begin > known || begin + since.inputs.length < known || since.until < end) return { ...body, live };
  const { inputs, marks, until, waiting } = since;
  return { ...body, live, inputs: joined([body.inputs.subarray(0, begin), inputs]), marks: [...before, ...marks], until, waiting };
}

/** Returns what this page left of an item and did not write yet.
 * @param {string} id */
const leftOf = (id) => [...items].find((item) => item.id === id)?.left ?? null;

/** Reads an item: its head and its body, and whether they are written. `take` is done before what is kept is read.
 * @param {string} id
 * @param {() => Promise<unknown>} [take]
 * @returns {Promise<{ head: any, body: any, isWritten: boolean }>} */
export async function readItem(id, take) {
  const left = leftOf(id), isOfSource = isSourceId(id);
  await take?.();
  const [head, body] = left?.body ? [left.head, left.body] : await withStore("readonly", (store) => [store.get(HEAD + id), store.get(id)]), found = left?.head ?? head;
  if (!isHead(found) || !(isOfSource ? isSourceBody : isRunBody)(body)) throw new Gone();
  return { head: found, body: isOfSource ? body : merged(body, /** @type {RunHead} */ (found)), isWritten: !left };
}

/** Returns the heads of all items, those first that were changed last, with those that this page has to write yet; and the ids of what is of another shape.
 * @returns {Promise<{ heads: Head[], odd: IDBValidKey[], error: Error | null }>} */
export async function listed() {
  const heads = IDBKeyRange.bound(HEAD, `${HEAD}\uffff`), left = [...items].flatMap((item) => item.left?.head ?? []);
  /** @type {[IDBValidKey[], any[], Error | null]} */
  const [keys, all, error] = await withStore("readonly", (store) => [store.getAllKeys(), store.getAll(heads)]).then(([one, other]) => [one, other, null], (reason) => [[], [], reason]);
  const own = new Set(left.map(({ of }) => of)), there = new Set(keys), known = new Map(all.filter((head) => isHead(head) && there.has(head.of) && !own.has(head.of)).map((head) => [head.of, head]));
  const odd = keys.filter((key) => !known.has(key) && !own.has(`${key}`) && !`${key}`.startsWith(HEAD));
  return { heads: [...left, ...known.values()].sort((one, other) => other.at - one.at), odd, error };
}

// Changing

/** Writes something else into the head of an item that is not open.
 * @param {string} id
 * @param {{ name?: string, pinned?: boolean }} labels */
export async function relabel(id, labels) {
  const [head] = await withStore("readonly", (store) => [store.get(HEAD + id)]);
  if (isHead(head)) await withStore("readwrite", (store) => [store.put({ ...head, ...labels })]);
}

/** Deletes items at once. Returns their records.
 * @param {any[]} ids
 * @returns {Promise<any[]>} */
export async function dropItems(ids) {
  const keys = ids.flatMap((id) => [id, `${HEAD}${id}`]), records = await withStore("readwrite", (store) => {
    const asked = keys.map((key) => store.get(key));
    for (const key of keys) store.delete(key);
    return asked;
  });
  return records.filter(Boolean);
}
