// @ts-check
/* Shows the frames of the live machine: what it shows, sends and says. */
import { app, setFrame } from "../host/app.js";
import { showPassed, showPaused, showRunning } from "./code/statetab.js";
import { showAround } from "./code/code.js";
import { followDevices, showSerial } from "./screen/devices.js";
import { attempt, notice, set, write } from "../host/elements.js";
import { publish } from "../host/events.js";
import { isSnake } from "./screen/game.js";
import { keepRun, noteNews } from "../host/work.js";
import { showMode } from "./timeline/cursormoves.js";
import { drawSoon, endPreview } from "./screen/screen.js";
import { meetBreak } from "./code/search.js";
import { isPast } from "../host/shown.js";
import { followGame } from "./screen/snake.js";
import { showSourceNow } from "./source/source.js";
import { AT, countOf, field } from "../formats/states.js";
import { appendSent, showLamps, showStatus } from "./screen/status.js";
import { findStop } from "./source/stops.js";
import { showUnsaved } from "./screen/verdicts.js";
import { showCursor } from "./timeline/cursor.js";
import { noteFrame } from "./timeline/timeline.js";

/** @param {LiveNews} news */
export function heard(news) {
  const { met } = news;
  if (news.state) showFrame(/** @type {Frame} */ (news));
  else if (news.passed) showPassed(news.passed);
  else if (met) attempt(() => meetBreak(met));
  else notice(news.refused ?? news.broken, true);
}

/** @param {Frame} frame */
function showFrame(frame) {
  const { on: wasOn, isReplay: wasReplay, state: before } = app.latest ?? {};
  setFrame(frame);
  if (frame.sent) appendSent(frame.sent);
  noteNews(frame);
  followGame(frame, wasReplay);
  noteFrame(frame);
  if (frame.on || countOf(frame.state)) endPreview();
  if (!isPast()) showNow(frame, wasReplay);
  const isPlayed = isSnake() && frame.on && !frame.isReplay;
  set("game", { hidden: !isPlayed });
  set("state", { hidden: isPlayed });
  showMode(frame);
  showUnsaved(frame);
  if (showStatus(frame) && !isPast()) showCursor(!frame.on);
  showSerial(frame);
  if (wasOn && !frame.on) keepRun();
  // A short run begins and ends between two frames.
  const isMoved = !frame.on && before !== undefined && countOf(before) !== countOf(frame.state);
  if (wasOn !== frame.on || isMoved) attempt(showAround), showSourceNow();
  if ((wasOn && !frame.on) || isMoved) publish("ended");
  findStop();
}

/** Shows a frame of the live machine, which is looked at now.
 * @param {Frame} frame
 * @param {boolean} [wasReplay] */
function showNow(frame, wasReplay) {
  if (frame.dots) drawSoon(frame.dots);
  showLamps(field(frame.state, AT.LEDs));
  if (frame.isReplay || wasReplay) followDevices(frame.state);
  write("when", "Registers");
  if (frame.on) showRunning(frame.state, frame.listing);
  else showPaused(frame.state, frame.listing);
}
