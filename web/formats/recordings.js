// @ts-check
/* Recordings as docs/formats.md describes them. One is read here only after the proved library has accepted it as valid, to show its fields and to play back
 * its inputs. */
import { Inputs } from "./inputs.js";
import { CHANGE_BYTES, CLAIM, DISK_BYTES, HEADER, HEADER_BYTES, INPUT_BYTES, TABLE_CLAIM_BYTES } from "./layout.js";
import { joined, PAGE_BYTES, sentText } from "./states.js";

/** Reads a valid recording: its inputs, and for each checkpoint its offset, its count and the bytes sent since the one before.
 * @param {Bytes} bytes
 * @returns {Recording} */
export function readRecording(bytes) {
  const view = new DataView(bytes.buffer, bytes.byteOffset, bytes.length);
  const [version, pages, inputs, checkpoints] = [HEADER.version, HEADER.pages, HEADER.inputs, HEADER.checkpoints].map((field) => view.getUint32(field, true));
  const inputsAt = HEADER_BYTES + PAGE_BYTES * pages;
  /** @type {number[]} */
  const lengths = [];
  /** @type {Claim[]} */
  const claims = [];
  let at = inputsAt + INPUT_BYTES * inputs;
  for (let number = 0; number < checkpoints; number++) {
    claims.push({ at, count: Number(view.getBigUint64(at, true)), sent: new Uint8Array() });
    lengths.push(view.getUint32(at + CLAIM.sent, true));
    at += version === 1 ? TABLE_CLAIM_BYTES : CLAIM.list + CHANGE_BYTES * view.getUint32(at + CLAIM.changes, true) + (version === 3 ? DISK_BYTES : 0);
  }
  claims.forEach((claim, number) => (claim.sent = bytes.subarray(at, (at += lengths[number]))));
  return { bytes, version, pages, claims, inputs: new Inputs(bytes.subarray(inputsAt, inputsAt + INPUT_BYTES * inputs)) };
}

/** Returns what was sent up to the last checkpoint of a valid recording, as the page shows it.
 * @param {Bytes} bytes */
export const sentIn = (bytes) => sentText(joined(readRecording(bytes).claims.map(({ sent }) => sent)));
