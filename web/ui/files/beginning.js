// @ts-check
/* Shows a machine that was opened, in all panels. */
import { app } from "../../host/app.js";
import { showAtCursor } from "../timeline/cursormoves.js";
import { showDevices } from "../screen/devices.js";
import { forgetHits } from "../timeline/hits.js";
import { drawSoon } from "../screen/screen.js";
import { cursorToNow, setToGoOn } from "../../host/shown.js";
import { AT, field } from "../../formats/states.js";
import { forgetRegisters, showPaused } from "../code/statetab.js";
import { showLamps } from "../screen/status.js";
import { findStop } from "../source/stops.js";
import { beginLanes } from "../timeline/timeline.js";
import { endWelcome } from "../screen/welcome.js";

/** Shows a machine that was opened: it is looked at now, and its timeline begins with its count. */
export function beginShowing() {
  if (!app.latest) return;
  const { state, listing } = app.latest;
  endWelcome();
  setToGoOn(false);
  cursorToNow();
  forgetHits();
  forgetRegisters();
  app.past.begin(app.work.generation);
  beginLanes();
  if (app.dots) drawSoon(app.dots);
  showLamps(field(state, AT.LEDs));
  showDevices(state);
  showPaused(state, listing);
  showAtCursor(true);
  findStop();
}
