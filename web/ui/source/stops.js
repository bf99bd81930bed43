// @ts-check
/* Where the machine stopped. Its count goes on after that, and so does the clock of whoever waits; so the page goes back to the instruction that
 * stopped it. */
import { app } from "../../host/app.js";
import { moveCursor, showMode } from "../timeline/cursormoves.js";
import { attempt } from "../../host/elements.js";
import { explainStop, forgetExplained } from "./explaining.js";
import { cursor, nowCount, setStopped, stopped } from "../../host/shown.js";
import { AT, field } from "../../formats/states.js";
import { showStatus } from "../screen/status.js";

/** Goes to the instruction that stopped the machine, once it stands. */
export function findStop() {
  const { latest, work: { fork } } = app;
  if (!latest || latest.on || latest.fork !== fork || !field(latest.state, AT.stop) || stopped.fork === fork) return;
  setStopped({ fork, at: null });
  forgetExplained();
  attempt(async () => {
    const found = await app.past.lastWriter({ device: "stop", before: nowCount(), request: app.past.numbered() });
    if (app.work.fork !== fork || stopped.fork !== fork || found?.at === undefined) return;
    setStopped({ at: found.at });
    if (cursor.at === null && stopped.goal !== nowCount()) await moveCursor(found.at);
    if (app.latest) showMode(app.latest), showStatus(app.latest), await explainStop(found, field(app.latest.state, AT.stop));
  });
}
