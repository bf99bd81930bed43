// @ts-check
/* What is looked at: the machine now, or a moment of its past. A moment is a count with the state before the inputs of that count.
 * Looking never changes the recording. */
import { app } from "../../host/app.js";
import { branchOff, mayBranch } from "./branches.js";
import { closeCard } from "../screen/card.js";
import { offer } from "../../host/commands.js";
import { showDevices } from "../screen/devices.js";
import { el, notice, set, write, writeWhole } from "../../host/elements.js";
import { publish } from "../../host/events.js";
import { lineOf } from "../../host/names.js";
import { drawSoon, endPreview } from "../screen/screen.js";
import {
  apart, everySeconds, isAhead, isDone, isPast, isPlaying, isTab, isToGoOn, cursor, cursorToNow, nowCount, secondsOf, setGoal, setCursor, setToGoOn, shownCount, stoppedAt, stopText,
} from "../../host/shown.js";
import { AT, countOf, field } from "../../formats/states.js";
import { dropSent, showLamps, showLastLine, showSentBefore } from "../screen/status.js";
import { grouped, many } from "../../formats/texts.js";
import { showCursor } from "./cursor.js";
import { lanes } from "./lanes.js";
import { keepInSight } from "./loading.js";
import { forgetAfter } from "./timeline.js";

/** Forgets what is said of a count that is no longer looked at. */
function forgetSaid() {
  write("run-again-said", "");
  publish("running");
}

/** Moves the cursor to a count. A machine that runs is paused first. A cursor that has not settled has more looks to come.
 * @param {number} count
 * @param {boolean} isSettled
 * @returns {Promise<void>} */
export async function moveCursor(count, isSettled = true) {
  if (!app.latest) return;
  if (app.latest.on) await app.live.ask("setRun", { on: false });
  const at = Math.max(0, Math.min(Math.floor(count), lanes.end));
  if (at === nowCount()) return backToNow(isSettled);
  endPreview();
  publish("looking");
  setCursor({ at });
  forgetSaid();
  showAtCursor(isSettled);
  const moment = await app.past.peek(at, { quick: !isSettled, hasEffects: isTab("source") });
  if (moment && cursor.at === at) showMoment(moment);
}

/** Runs a replay up to a count, as fast as it goes.
 * @param {number} goal */
export async function runTo(goal) {
  cursorToNow();
  setGoal(goal);
  await app.live.ask("setRun", { on: true, fast: true, goal, seconds: everySeconds() });
}

/** Runs the machine again from count 0 to the count that is looked at, without the states that the page keeps on the way, and says whether
 * it is what is shown. */
export async function runAgain() {
  const { at } = cursor;
  if (at === null || isAhead()) return;
  write("run-again-said", "running again ..");
  const answer = await app.past.recheck(at);
  if (answer && cursor.at === at) write("run-again-said", saidOfAgain(answer));
}

/** @param {Requests["recheck"][1]} answer */
function saidOfAgain({ stopped, part }) {
  if (stopped) return "It was cancelled.";
  return part ? `Not the same: ${part} differs from what is shown. Reload the page, and please report it.` : "The same.";
}

/** Shows the machine as it is now.
 * @param {boolean} isSettled */
export async function backToNow(isSettled = true) {
  publish("looking");
  cursorToNow();
  forgetSaid();
  write("when", "Registers");
  showAtCursor(isSettled);
  if (!app.latest) return;
  el("nearly").hidden = true;
  if (app.dots) drawSoon(app.dots);
  showLamps(field(app.latest.state, AT.LEDs));
  showLastLine(app.work.sent);
  showDevices(app.latest.state);
  publish("now", app.latest);
}

/** Shows what the page says of what is looked at.
 * @param {boolean} isSettled */
export function showAtCursor(isSettled) {
  if (app.latest) showMode(app.latest);
  keepInSight(shownCount());
  showCursor(isSettled);
}

/** Shows a moment; one that is not exact is a near one that is shown first. There is no listing while the cursor is dragged.
 * @param {Moment} moment */
function showMoment(moment) {
  setCursor({ moment });
  el("nearly").hidden = moment.exact;
  drawSoon(moment.dots);
  showLamps(field(moment.state, AT.LEDs));
  showSentBefore(moment.sent);
  publish("moment", moment);
  write("when", moment.exact ? `Registers, before instruction ${grouped(moment.at)}` : "Registers, nearly");
  if (app.latest) showMode(app.latest);
  if (!moment.listing) return;
  showDevices(moment.state);
  publish("settled", moment);
}

/** Shows a moment of another run, which is beside the one that is open.
 * @param {Moment} moment */
export function showOther(moment) {
  showMoment(moment);
  showLastLine("");
  write("when", `Previous run, at instruction ${grouped(moment.at)}`);
  writeWhole("mode-text", "Previous run. Press x for the run that is open.");
}

/** Hears what the past says between its answers.
 * @param {PastNews} news */
export function heardPast(news) {
  if (news.peeked && news.peeked.at === cursor.at) showMoment(news.peeked);
  else if (news.searched) publish("searched", news.searched);
  else if (news.lastWriter) publish("wrote", news.lastWriter);
  else if (news.why) publish("why", news.why);
  else if (news.counted) publish("counted", news.counted);
  else if (news.followed) publish("followed", news.followed);
  else if (news.refused || news.broken) notice(news.refused ?? news.broken, true);
}

/** Resumes the machine from the moment on view. What it did after that is kept as a branch. */
export async function takeOverHere() {
  const { at } = cursor;
  if (at === null || isAhead()) return;
  notice();
  const [moment, now] = await Promise.all([at, nowCount()].map((count) => app.past.moment(count)));
  // Of two clicks the first one counts.
  if (!moment || !now || cursor.at !== at || !mayBranch()) return;
  cursorToNow();
  closeCard();
  const answer = await app.live.ask("takeOver", moment);
  if (!answer) return;
  branchOff(at, answer);
  setToGoOn(true);
  forgetAfter(at);
  dropSent(now.sent - moment.sent);
  await backToNow();
  el("screen").focus({ preventScroll: true });
}

/** Says in one word what the machine's state is, and what that means.
 * @param {Frame} frame */
export function showMode(frame) {
  const { on, isReplay, isTrue } = frame, [word, text] = isPast() ? pastMode(frame) : modeOf(frame);
  write("run", isAhead() ? "Run to here" : on || isPlaying() ? "Pause" : isPast() ? "Play" : "Run");
  set("run", { className: on || isPlaying() ? "on" : "" });
  set("take-over", { hidden: !isReplay || isPast() });
  for (const name of ["take-here", "run-again"]) set(name, { hidden: !isPast() || isAhead() });
  set("back-now", { hidden: !isPast() });
  set("save-cursor", { hidden: !isPast() || isAhead() });
  const name = app.work.generation ? app.work.name : "";
  writeWhole("name", name);
  for (const name of ["make-checkpoint", "next"]) set(name, { disabled: isPast() });
  set("make-checkpoint", { hidden: isPast() });
  write("state-word", word);
  set("state-word", { className: word.toLowerCase().split(" ")[0] });
  const claim = isTrue ? "" : " A claim that was passed is false: what comes after it is what the machine does.";
  writeWhole("mode-text", text + claim);
}

/** @param {Frame} frame */
function pastMode({ state }) {
  const far = apart(shownCount());
  if (cursor.at === stoppedAt()) return ["STOPPED", `${stopText(state)}. The instruction at the cursor is the last one.`];
  if (!isAhead()) return [`VIEWING ${secondsOf(shownCount(), 2)}`, `${far} before now. Keys do nothing.`];
  const claimed = app.file?.verdict?.status === 0 ? "as the file claims, which was checked" : "claimed, not checked";
  return ["REPLAY", `${far} ahead of the replay, ${cursor.moment?.isClaimed ? claimed : "not run yet"}. Keys do nothing.`];
}

/** @param {Frame} frame */
function modeOf(frame) {
  const { state, on, isReplay, ahead, full, isAtLastCount } = frame;
  const stop = field(state, AT.stop);
  const then = full?.isEnd ? "What comes after is not recorded." : "The machine takes no more.";
  if (full) return ["LIMIT REACHED", `at ${grouped(full.count)}: ${full.why}. ${then}`];
  if (isReplay && !isAtLastCount) return ["REPLAY", on ? "Playing the file. Continue from here to type." : "Run plays the file. Continue from here to type."];
  const never = ahead ? ` ${many(ahead, "input")} of the file at this count will never come.` : "";
  if (stop) return ["STOPPED", `${stopText(state)}. The machine does nothing more.${never}`];
  if (isAtLastCount) return ["LIMIT REACHED", `at ${grouped(countOf(state))}: no count comes after this one, so the machine does nothing more.${never}`];
  if (on) return ["LIVE", "What you type, click and send is recorded."];
  if (isDone(frame) && !isToGoOn) return ["DONE", `Done at ${endText(field(state, AT.PC))}, which jumps to itself.`];
  return ["PAUSED", isToGoOn ? "Press a key to resume." : "Keys and the mouse go to the machine while it runs."];
}

/** Says where a program ends: by its line, if that is known.
 * @param {number} pc */
function endText(pc) {
  const { line } = lineOf(4 * pc) ?? {};
  return line ? `line ${line}` : `PC ${pc}`;
}

offer({ moveCursor, backToNow });
