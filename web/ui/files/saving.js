// @ts-check
/* Saves the recording that was made so far. */
import { app, savedName } from "../../host/app.js";
import { download, notice, writeWhole } from "../../host/elements.js";
import { cursor, isAhead, isPast, shownCount } from "../../host/shown.js";
import { runningProgram } from "../source/sourceprogram.js";
import { grouped } from "../../formats/texts.js";
import { noteChecked } from "../timeline/timeline.js";
import { verdicts } from "../screen/verdicts.js";

/** Says where a recording that was saved ends, if that is before the machine's count; else nothing.
 * @param {Made} made */
function cutText({ isWhole, count, full = "the recording has reached its limit of checkpoints" }) {
  return isWhole ? "" : `The recording ends with its checkpoint at ${grouped(count)}: ${full}.`;
}

/** Pauses the machine, saves its recording, and checks that to show its verdict line. In the past it is all of it, which the page says. */
export async function saveRecording() {
  notice();
  await app.live.ask("setRun", { on: false });
  const made = await app.live.ask("recording"), isMore = isPast() && !isAhead();
  await saved(made, [isMore ? `This is all of the recording, up to ${grouped(made.count)}. "Save up to the cursor" ends it at ${grouped(shownCount())}.` : "", cutText(made)]);
}

/** Saves the recording up to the count that is looked at. */
export async function saveToCursor() {
  notice();
  const { at } = cursor, moment = at === null ? null : await app.past.moment(at);
  const made = moment && (await app.live.ask("recordingTo", moment));
  if (made) await saved(made);
}

/**
 * @param {Made} made
 * @param {string[]} said what else the page says of it
 */
async function saved(made, said = []) {
  const name = savedName("orsr"), source = runningProgram() ? "A recording has no source: Export, under Saved, writes both in one file." : "";
  download(name, made.bytes, "application/octet-stream");
  notice([...said, source].filter(Boolean).join(" "));
  const begun = performance.now(), checked = verdicts.own.check(name, made.bytes);
  verdicts.own.inputs = app.latest?.inputs ?? 0;
  const answer = await checked;
  if (!answer) return;
  if (answer.status === 0) noteChecked(made.count);
  writeWhole("status", `${grouped(made.bytes.length)} bytes, checked in ${((performance.now() - begun) / 1000).toFixed(1)} s`);
}
