// @ts-check
/* What the panels do at each event that is published: this is the one place that knows all of them. */
import { showPaused, showRegisters } from "./code/statetab.js";
import { showFollowed } from "./code/calls.js";
import { showAround } from "./code/code.js";
import { showCounting } from "./code/counts.js";
import { showFalse } from "./code/differences.js";
import { sourceEditor } from "./source/desk.js";
import { attempt } from "../host/elements.js";
import { subscribe } from "../host/events.js";
import { keepSoon } from "../host/keeping.js";
import { onNames } from "../host/names.js";
import { app } from "../host/app.js";
import { showMode } from "./timeline/cursormoves.js";
import { endPlayback, showKept } from "./files/savedlist.js";
import { showCode, showListing } from "./code/listing.js";
import { showMemory, showWatches } from "./code/memory.js";
import { leaveOther } from "./source/runcomparison.js";
import { forgetFinding, forgetFound, showSearched } from "./code/search.js";
import { showSourceNow } from "./source/source.js";
import { AT, field } from "../formats/states.js";
import { showStepping } from "./source/stepping.js";
import { showPins } from "./timeline/pinned.js";
import { freshen } from "./timeline/loading.js";
import { showAsked, showLastWriter } from "./code/lastwriter.js";
import { forgetWhy, showFollowing, showWhy } from "./code/why.js";

const around = () => attempt(showAround), memory = () => attempt(showMemory), freshenLanes = () => freshen(true);

export function subscribePanels() {
  subscribe("kept", () => attempt(showKept));
  subscribe("tab", showTabOf);
  subscribe("forgot", forgetFound);
  subscribe("breaks", showCode, freshenLanes);
  subscribe("watches", showWatches, freshenLanes);
  subscribe("running", forgetFinding);
  subscribe("looking", leaveOther);
  subscribe("moment", ({ state }) => showRegisters(state));
  subscribe("registers", () => attempt(showFalse));
  subscribe("settled", ({ state, listing }) => showListing(field(state, AT.PC), (listing ?? []).map(({ pc, word }) => [pc, word])), around, memory, showSourceNow);
  subscribe("now", ({ state, listing }) => showPaused(state, listing));
  subscribe("searched", showSearched, showAsked, showFollowing);
  subscribe("wrote", showLastWriter);
  subscribe("why", showWhy);
  subscribe("forgot", forgetWhy);
  subscribe("counted", showCounting);
  subscribe("pins", showPins);
  subscribe("ended", () => attempt(endPlayback));
  onNames(() => app.latest && showMode(app.latest));
  for (const name of /** @type {const} */ (["breaks", "watches", "pins", "settled", "now"])) subscribe(name, keepSoon);
  subscribe("followed", showFollowed, showStepping);
}

/** Shows what is in a tab that has come in sight.
 * @param {string} name */
function showTabOf(name) {
  if (name === "source") sourceEditor().showBeside(), showSourceNow();
  if (name === "memory") memory();
  if (name === "code") showCode(), around();
}
