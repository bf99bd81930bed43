// @ts-check
/* Branches: what the machine did after a count from which it was taken over. Each is a work with an item of its own in the browser's
 * storage, and the count at which it parts from the others. */
import { app, branches, setBranches } from "../../host/app.js";
import { commands } from "../../host/commands.js";
import { attempt, el, listButton, notice } from "../../host/elements.js";
import { isSource } from "../../host/projects.js";
import { listed } from "../../host/records.js";
import { secondsOf } from "../../host/shown.js";
import { drawLanes } from "./drawing.js";
import { lanes } from "./lanes.js";
import { leaveVerdicts } from "../screen/verdicts.js";
import { openWork, Work } from "../../host/work.js";
import { oneAtATime } from "../../host/locks.js";

const MOST_BRANCHES = 8;

/** Whether there may be one branch more: the user is asked before one is dropped. */
export function mayBranch() {
  const { list: { length, 0: oldest } } = branches;
  if (length < MOST_BRANCHES) return true;
  return confirm(`There are ${MOST_BRANCHES} branches. Drop "${oldest.branch}", which ends at ${secondsOf(oldest.end)}, for another one? It stays among what is kept.`);
}

/** Begins the work of a run that was taken over at a count. What was left is a branch from now on, with an item of its own.
 * @param {number} at
 * @param {NonNullable<Requests["takeOver"][1]>} answer */
export function branchOff(at, { left, begun, fork }) {
  leaveVerdicts(at);
  const before = app.work, family = before.family ?? Date.now(), { list, made } = branches;
  Object.assign(before, { family, parent: at, end: left?.count ?? lanes.end });
  openWork(Object.assign(new Work(before.name, { ...before, fork }), { family, parent: at, number: made + 1 }));
  const dropped = list.slice(0, Math.max(0, list.length + 1 - MOST_BRANCHES));
  setBranches({ list: [...list.slice(dropped.length), before], made: made + 1 });
  for (const branch of dropped) branch.drop();
  before.leave(before.recordsLeft(left), true);
  attempt(() => app.work.follow(begun));
  showBranches();
}

/** Returns the branches that are kept beside an item of a family.
 * @param {number} family
 * @param {string} id
 * @returns {Promise<Branches>} */
export async function familyOf(family, id) {
  const found = (await listed()).heads.flatMap((head) => (isSource(head) || head.family !== family ? [] : head)), made = Math.max(1, ...found.map(({ number = 1 }) => number));
  const works = found.map(({ of, name, number = 1, parent = 0, until: end }) => Object.assign(new Work(name), { id: of, family, number, parent, end }));
  const list = works.filter((one) => one.id !== id).sort((one, other) => one.number - other.number).slice(-MOST_BRANCHES);
  return { made, list };
}

/** Returns to the end of a branch. What the machine did instead is a branch, too.
 * @param {Work} branch */
const toBranch = (branch) => oneAtATime("a branch", () => toBranchNow(branch));

/** @param {Work} branch */
async function toBranchNow(branch) {
  notice();
  await app.live.ask("setRun", { on: false });
  const { list, made } = branches, others = { made, list: [...list.filter((one) => one !== branch), app.work] };
  await commands.resumed(branch, branch.id, () => others);
}

export function showBranches() {
  const list = [...branches.list].sort((one, other) => one.number - other.number), items = list.map((work, at) => {
    const back = listButton(work.branch, () => toBranch(work));
    back.title = `Return to ${work.branch}`;
    return [back, ` from ${secondsOf(work.parent)} to ${secondsOf(work.end)}${list[at + 1] ? "; " : "."}`];
  });
  el("branches").hidden = !list.length;
  el("branches").replaceChildren("Other branches: ", ...items.flat());
  drawLanes();
}
