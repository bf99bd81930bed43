// @ts-check
/* Cuts a recording into slices between two of its checkpoints, each a recording of its own, and joins their verdict lines. The page checks a
 * long recording in this way, so that it can show its progress. tools/galluspa/formats/slices.py cuts the same bytes, and docs/suites.md says why the
 * joined line is that of the whole. */
import { readRecording } from "../formats/recordings.js";
import { Inputs } from "../formats/inputs.js";
import { CHANGE_BYTES, CLAIM, DISK_BYTES, HEADER, HEADER_BYTES, INPUT_BYTES } from "../formats/layout.js";
import { acceptedLine, falseLine, readLine } from "../formats/lines.js";
import { Refused } from "../formats/refused.js";
import { DISK, equal, joined, PAGE_BYTES, PAGES, STATE_BYTES, UNANSWERED } from "../formats/states.js";

const SLICE_STEPS = 10000000, FIRST_STEPS = 1000000;
// A frame has more steps while a call takes less than half of FRAME_MS, as the machine waits, but at most LONGEST_FRAME, or LONGEST_WITH_INPUTS beyond an input.
const FRAME_MS = 100, LONGEST_FRAME = 2 ** 32, LONGEST_WITH_INPUTS = 250000000;

/** @typedef {import("./machine.js").Machine} Machine */

/**
 * @param {number} slot
 * @param {number} id
 * @returns {[number, number]}
 */
const change = (slot, id) => [slot, id];

/** Returns the page slots that a checkpoint changes in the table before it, each with its new page id.
 * @param {Pick<Recording, "bytes" | "version">} recording
 * @param {Pick<Claim, "at">} claim
 * @param {Uint32Array} table
 * @returns {[number, number][]} */
export function changesOf({ bytes, version }, { at }, table) {
  const view = viewOf(bytes);
  /** @param {number} from */
  const number = (from) => view.getUint32(from, true);
  if (version === 1) return Array.from(table, (_, slot) => change(slot, number(at + CLAIM.table + 4 * slot))).filter(([slot, id]) => id !== table[slot]);
  /** @param {number} k */
  const changeAt = (k) => at + CLAIM.list + CHANGE_BYTES * k;
  return Array.from({ length: number(at + CLAIM.changes) }, (_, k) => change(number(changeAt(k)), number(changeAt(k) + 4)));
}

/** Returns the table of checkpoint 0: the page id of each slot.
 * @param {Recording} recording */
export function firstTable(recording) {
  const table = new Uint32Array(PAGES);
  for (const [slot, id] of changesOf(recording, recording.claims[0], table)) table[slot] = id;
  return table;
}

/** Returns the table of a checkpoint.
 * @param {Recording} recording
 * @param {number} number */
export function tableAt(recording, number) {
  const table = firstTable(recording);
  for (const claim of recording.claims.slice(1, number + 1)) for (const [slot, id] of changesOf(recording, claim, table)) table[slot] = id;
  return table;
}

/** Returns the recording between two checkpoints, in version 3 if a disk answers, else in version 2. Its initial state is what the first one claims, its counts and inputs begin at 0
 * again, and its pool has the pages that it names, in the order in which it names them. `table` is the table of the first checkpoint, and becomes
 * that of the last.
 * @param {Recording} recording
 * @param {Uint32Array} table
 * @param {number} first
 * @param {number} last */
export function sliceOf(recording, table, first, last) {
  const claims = recording.claims.slice(first, last + 1), ids = new Map([[0, 0]]);
  /** @param {[number, number]} change */
  const named = ([slot, id]) => change(slot, ids.get(id) ?? (ids.set(id, ids.size), ids.size - 1));
  const written = claims.map((claim, k) => {
    const changes = k ? changesOf(recording, claim, table) : Array.from(table, (id, slot) => change(slot, id)).filter(([, id]) => id);
    for (const [slot, id] of changes) table[slot] = id;
    return claimBytes(recording, claim, claims[0].count, changes.map(named));
  });
  const pages = [...ids.keys()].slice(1).map((id) => pageOf(recording, id)), inputs = recording.inputs.between(claims[0].count, claims[claims.length - 1].count);
  return recordingOf(pages, inputs, written, claims.slice(1).map((claim) => claim.sent));
}

/** Returns a page of a recording's pool by its id, which is not 0.
 * @param {Pick<Recording, "bytes">} recording
 * @param {number} id */
export function pageOf({ bytes }, id) {
  return bytes.subarray(HEADER_BYTES + PAGE_BYTES * (id - 1)).subarray(0, PAGE_BYTES);
}

/** Returns a recording of these parts, whose checkpoints end with the disk's answer: in version 3 if a disk answers, else in version 2, without these.
 * @param {Bytes[]} pages
 * @param {Bytes} inputs
 * @param {Bytes[]} claims
 * @param {Bytes[]} sent */
export function recordingOf(pages, inputs, claims, sent) {
  const header = new Uint8Array(HEADER_BYTES), view = new DataView(header.buffer);
  header.set(new TextEncoder().encode("ORSR"));
  const { version, pages: pagesAt, inputs: inputsAt, checkpoints } = HEADER;
  const hasDisk = new Inputs(inputs).has(DISK) || claims.some((claim) => viewOf(claim).getUint32(claim.length - DISK_BYTES, true) !== UNANSWERED);
  for (const [field, number] of [[version, hasDisk ? 3 : 2], [pagesAt, pages.length], [inputsAt, inputs.length / INPUT_BYTES], [checkpoints, claims.length]])
    view.setUint32(field, number, true);
  return joined([header, ...pages, inputs, ...(hasDisk ? claims : claims.map((claim) => claim.subarray(0, -DISK_BYTES))), ...sent]);
}

/** @param {Bytes} bytes */
const viewOf = ({ buffer, byteOffset, length }) => new DataView(buffer, byteOffset, length);

/** Returns the bytes of a checkpoint, with the disk's answer, in a recording that begins at a count of its own, which may be below 0.
 * @param {Recording} recording
 * @param {Claim} claim
 * @param {number} begin
 * @param {[number, number][]} changes */
export function claimBytes({ bytes, version }, { at, count }, begin, changes) {
  const claim = new Uint8Array(CLAIM.list + CHANGE_BYTES * changes.length + DISK_BYTES), view = viewOf(claim), from = viewOf(bytes);
  claim.set(bytes.subarray(at, at + (version === 1 ? CLAIM.table : CLAIM.changes)));
  view.setBigUint64(0, BigInt(count - begin), true);
  if (count === begin) view.setUint32(CLAIM.sent, 0, true);
  view.setUint32(CLAIM.changes, changes.length, true);
  changes.flat().forEach((number, k) => view.setUint32(CLAIM.list + 4 * k, number, true));
  const disk = version === 3 ? from.getUint32(at + CLAIM.list + CHANGE_BYTES * from.getUint32(at + CLAIM.changes, true), true) : UNANSWERED;
  view.setUint32(claim.length - DISK_BYTES, disk, true);
  return claim;
}

/** Returns what the verdict line of a recording with these checkpoints says: null if all are true, else the first false one with its first false
 * part.
 * @param {string} line
 * @param {{ count: number }[]} claims
 * @returns {Wrong | null} */
function foundBy(line, claims) {
  const { wrong } = readLine(line);
  if (wrong && claims[wrong.number]?.count === wrong.count) return wrong;
  if (line !== acceptedLine(allOf(claims))) throw new Refused(`a slice has the line ${line}`);
  return null;
}

/** What the line of a recording accepts that has these checkpoints, the initial state among them.
 * @param {{ count: number }[]} claims */
function allOf(claims) {
  return { checkpoints: claims.length - 1, steps: claims[claims.length - 1].count };
}

/** Checks recordings slice by slice, on a machine that nothing else uses. */
export class Checker {
  sent = 0;

  /**
   * @param {Machine} machine
   * @param {number} size
   */
  constructor(machine, size = SLICE_STEPS) {
    this.machine = machine;
    this.size = size;
    this.library = machine.library;
  }

  /** Returns the joined line of the slices of a recording, its status, and their number. After each piece it calls `report` with the number of
   * steps done, and with the number of the last checkpoint that was found true.
   * @param {Recording} recording
   * @param {(steps: number, judged: number) => void} report */
  line(recording, report) {
    const { claims } = recording, last = claims.length - 1, table = firstTable(recording);
    let first = 0, slices = 0;
    for (let size = Math.min(FIRST_STEPS, this.size); first < last; size = Math.min(this.size, 2 * size)) {
      const end = this.end(claims, first, size), begin = claims[first].count;
      const found = this.found(sliceOf(recording, table, first, end), size, (steps) => report(begin + steps, first));
      slices++;
      if (found) {
        const number = first + found.number, { count } = claims[number];
        report(count, number - 1);
        return { line: falseLine({ number, count, part: found.part }), status: 1, slices };
      }
      first = end;
      report(claims[end].count, end);
    }
    return { line: acceptedLine(allOf(claims)), status: 0, slices };
  }

  /** Returns the last checkpoint of a slice of about a number of steps.
   * @param {Claim[]} claims
   * @param {number} first
   * @param {number} size */
  end(claims, first, size) {
    let end = first + 1;
    while (end + 1 < claims.length && claims[end + 1].count - claims[first].count <= size) end++;
    return end;
  }

  /** Returns what the line of a slice says. A long slice is run in frames, and its last frame is checked as a recording of its own.
   * @param {Bytes} bytes
   * @param {number} size
   * @param {(steps: number) => void} report */
  found(bytes, size, report) {
    const recording = readRecording(bytes), { claims } = recording;
    const isRun = claims.length === 2 && claims[1].count > 2 * size && this.run(recording, size, report);
    if (!isRun) return foundBy(this.library.check(bytes).line, claims);
    const { last, steps } = this.lastFrame(recording);
    return foundBy(this.library.check(last).line, [{ count: 0 }, { count: steps }]);
  }

  /** Runs a slice of two checkpoints up to its last frame, or until the machine stops: a stopped machine changes no more, so its frame may be long.
   * Returns whether it sent what is claimed, as far as it ran.
   * @param {Recording} recording
   * @param {number} size
   * @param {(steps: number) => void} report */
  run(recording, size, report) {
    const { machine } = this, [, { count, sent }] = recording.claims;
    machine.beginRecording(recording, 0);
    let steps = size, least = size;
    for (this.sent = 0; count - machine.count > size && !machine.part("stop"); report(machine.count)) {
      const first = machine.count, begun = performance.now(), now = machine.advance(Math.min(this.frameEnd(steps, least), count - size));
      if (!equal(now, sent.subarray(this.sent, this.sent + now.length))) return false;
      this.sent += now.length;
      const done = machine.count - first, ms = performance.now() - begun, isShort = ms < FRAME_MS / 2;
      steps = isShort ? Math.min(2 * Math.max(done, size), LONGEST_FRAME) : Math.max(Math.floor(done * FRAME_MS / ms), size);
      least = isShort ? Math.min(2 * least, Math.max(size, LONGEST_WITH_INPUTS)) : size;
    }
    return true;
  }

  /** Returns where a frame of a number of steps ends. What comes after an input may take long, so a frame ends at the next one, or after the `least` steps.
   * @param {number} steps
   * @param {number} least */
  frameEnd(steps, least) {
    const { count, inputs } = this.machine, at = inputs.from(count), due = at < inputs.length ? inputs.count(at) : Infinity;
    return Math.min(count + steps, Math.max(due, count + least));
  }

  /** Returns the recording that begins with the machine's state and ends with what the slice claims, and its number of steps.
   * @param {Recording} recording */
  lastFrame(recording) {
    const { machine, library } = this, begin = machine.count, [, { count, sent }] = recording.claims, steps = count - begin;
    library.claim(machine.recordingAt, recording.bytes.length, 1, machine.other, machine.other + STATE_BYTES);
    for (const [address, own] of [[machine.address, 0], [machine.other, steps]]) library.view.setBigUint64(address, BigInt(own), true);
    const last = library.extend(library.begin(machine.address), machine.inputs.between(begin, count), machine.other, sent.subarray(this.sent));
    return { last, steps };
  }
}
