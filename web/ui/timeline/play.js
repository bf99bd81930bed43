// @ts-check
/* Plays the past: the cursor advances at the chosen speed, up to now, or until it is paused or moved. The machine stays where it is. */
import { app } from "../../host/app.js";
import { backToNow, moveCursor, showMode } from "./cursormoves.js";
import { cursor, isAhead, isFast, nowCount, playing, setPlaying } from "../../host/shown.js";
import { PER_SECOND } from "../../formats/states.js";

// The counts of a millisecond; at full speed, the ms that a look may take, else the next one is at a nearer count.
const PER_MS = PER_SECOND / 1000, FAST_MS = 25, GROWTH = 1.5, LEAST = 16 * PER_MS;
/** Pauses what is played. */
export function pausePlay() {
  setPlaying(null);
  if (app.latest) showMode(app.latest);
}

/** Plays from the cursor on. Moving the cursor stops that. */
export async function play() {
  const own = {};
  setPlaying(own);
  let at = cursor.at, by = LEAST, before = performance.now();
  if (app.latest) showMode(app.latest);
  while (playing === own && at !== null && cursor.at === at && !isAhead()) {
    await new Promise((done) => requestAnimationFrame(done));
    const ms = performance.now() - before;
    before += ms;
    by = !isFast() ? ms * PER_MS : Math.max(LEAST, ms < FAST_MS ? by * GROWTH : by / GROWTH);
    if (playing !== own || cursor.at !== at) break;
    at = Math.floor(at + by);
    await (at < nowCount() ? moveCursor(at, false) : backToNow());
  }
  if (playing === own) setPlaying(null);
  if (cursor.at !== null && cursor.at === at) await moveCursor(at);
  if (app.latest) showMode(app.latest);
}
