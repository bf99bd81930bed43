// @ts-check
/* Reads a page that was exported, or that `galluspa report` made: it has a recording, and its project beside it. The file is read as text, and only the data of
 * these two parts is taken: nothing of it is shown as HTML, and none of its scripts runs. */
import { inflated } from "../../formats/inflating.js";
import { Refusal } from "../../host/requests.js";
import { readProject } from "../../formats/project.js";
import { LONGEST_RECORDING } from "../../formats/limits.js";
import { Refused } from "../../formats/refused.js";

const LONGEST_PROJECT = 1 << 26;
const PARTS = { recording: /<script type="text\/plain" id="g-recording">([^<]*)<\/script>/g, project: /<script type="text\/plain" id="g-project">([^<]*)<\/script>/g };

/** What a file has: its recording, and the project beside it.
 * @typedef {{ recording: Bytes, project: import("../../formats/project.js").Project }} Exported */

/** Whether a file is a page, by its name or its first bytes.
 * @param {string} name
 * @param {Bytes} bytes */
export const isPage = (name, bytes) => /\.html?$/i.test(name) || /^\s*<(?:!doctype html|html)/i.test(new TextDecoder("latin1").decode(bytes.subarray(0, 64)));

/** Returns a part of a page, unpacked.
 * @param {string} page
 * @param {keyof typeof PARTS} name
 * @param {number} most */
async function partOf(page, name, most) {
  const found = [...page.matchAll(PARTS[name])];
  if (found.length > 1) throw new Refusal(`${found.length} ${name}s in this page: an exported page has one`);
  if (!found.length) throw new Refusal(`no ${name} in this page: Export makes pages with one, and so does galluspa report`);
  const bytes = await inflated(found[0][1], most).catch(() => {
    throw new Refusal(`the ${name} in this page is not compressed data`);
  });
  if (bytes.length > most) throw new Refusal(`the ${name} in this page is longer than any ${name}`);
  return bytes;
}

/** Returns the project that bytes are.
 * @param {Bytes} bytes */
export function projectOf(bytes) {
  try {
    return readProject(new TextDecoder("utf-8", { fatal: true }).decode(bytes));
  } catch (error) {
    if (error instanceof Refused) throw new Refusal(error.message);
    throw error instanceof TypeError ? new Refusal("the project in this file is not a text in UTF-8") : error;
  }
}

/** Reads a page.
 * @param {Bytes} bytes
 * @returns {Promise<Exported>} */
export async function readExported(bytes) {
  const page = new TextDecoder("latin1").decode(bytes), recording = await partOf(page, "recording", LONGEST_RECORDING);
  return { recording, project: projectOf(await partOf(page, "project", LONGEST_PROJECT)) };
}
