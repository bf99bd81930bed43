/* Take-overs: the machine resumes from a moment of the past, and its recording with it. */
"use strict";

const { readFileSync } = require("fs");
const { join } = require("path");
const { FOLDER, Desk, Fresh, countOf, drawing, example, expect, expectMoment, readRecording, SENDS } = require("./workers.js");

/** The live machine resumes from a moment of the past: its recording is that of a run with the inputs before, and those after. */
async function takeOver() {
  const session = drawing(23, 200, 100000), desk = new Desk(), at = 7654321;
  await desk.openSession(session);
  await desk.run(20000000, 1);
  const branch = await desk.live.ask("recording");
  const moment = await desk.past.moment(at), taken = desk.live.ask("takeOver", moment), looks = [at - 1, at - 2000000, 5].map((count) => desk.past.memory(count, 0, 4));
  await taken;
  expect("looks while the machine is taken over", (await Promise.all(looks)).map((found) => found?.at), [at - 1, at - 2000000, 5]);
  const { state, inputs: left, isReplay } = desk.frames.findLast((news) => news.state);
  expect("the machine after the take-over", [countOf(state), left, isReplay], [at, session.inputs.filter(([count]) => count < at).length, false]);
  await desk.live.ask("type", { keys: [65, 66], serial: [67] });
  await desk.run(30000000, 1);
  const made = await desk.live.ask("recording"), { claims, inputs } = readRecording(made.bytes);
  expect("its checkpoints", claims.map(({ count }) => count), [0, 5000000, 25000000, 30000000]);
  const fresh = new Fresh({ ...session, inputs: Array.from({ length: inputs.length }, (_, k) => inputs.item(k)) });
  for (const count of [at, at - 1, at + 1, 20000000, 30000000]) expectMoment(`the look at ${count} after a take-over`, await desk.past.peek(count), fresh.at(count));
  for (const [name, { bytes }] of [["branch", branch], ["taken-over", made]]) console.log(`recording ${name} ${Buffer.from(bytes).toString("base64")}`);
  await takeOverAgain(desk);
  await takeOverFull(desk);
  await takeOverKept(desk, session);
  desk.end();
  console.log("take-overs: the recording has the inputs before, and goes on with those after; also from the beginning, and of a replay");
}

/** Goes on from the beginning, from a checkpoint, and from a moment of a replay whose file claims something false after it. */
async function takeOverAgain(desk) {
  for (const at of [5000000, 0]) {
    await desk.live.ask("takeOver", await desk.past.moment(at));
    await desk.run(at + 1000000);
    console.log(`recording from-${at} ${Buffer.from((await desk.live.ask("recording")).bytes).toString("base64")}`);
  }
  await desk.open("openRecording", { bytes: new Uint8Array(readFileSync(join(FOLDER, "face.orsr"))), checkpoint: 0 });
  await desk.run(9000000);
  await desk.live.ask("takeOver", await desk.past.moment(6000000));
  await desk.run(13000000);
  expect("that what the file claims later is not judged", desk.frames.flatMap((news) => (news.passed ?? []).map(({ count }) => count)), [4000000, 8000000]);
  console.log(`recording of-a-replay ${Buffer.from((await desk.live.ask("recording")).bytes).toString("base64")}`);
  await desk.open("openRecording", { bytes: new Uint8Array(readFileSync(join(FOLDER, "false.orsr"))), checkpoint: 0 });
  await desk.run(4);
  for (const [at, isTrue] of [[3, false], [1, true]]) {
    await desk.live.ask("takeOver", await desk.past.moment(at));
    expect(`whether all claims before ${at} are true`, desk.frames.findLast((news) => news.state).isTrue, isTrue);
  }
}

/** A full recording ends where it did if one resumes later, and is no longer full if one resumes earlier. */
async function takeOverFull(desk) {
  const last = () => desk.frames.findLast((news) => news.state);
  await desk.openSession(example("sends"));
  await desk.run(3000000);
  const { full } = last();
  expect("whether the recording is full", full.isEnd && full.count < 2500000, true);
  await desk.live.ask("takeOver", await desk.past.moment(2500000));
  expect("the recording after a take-over after its end", last().full, full);
  await desk.live.ask("takeOver", await desk.past.moment(500000));
  await desk.run(600000);
  const { bytes, isWhole } = await desk.live.ask("recording");
  expect("the recording after a take-over before it was full", [last().full, isWhole], [null, true]);
  console.log(`recording not-full ${Buffer.from(bytes).toString("base64")}`);
}

/** What was kept has its past from its recording, and may be taken over before the count at which it was resumed. */
async function takeOverKept(desk, session) {
  const fresh = new Fresh({ ...session, inputs: [] });
  await desk.openSession({ ...session, inputs: [], checkpoints: [] });
  await desk.run(6000000, 1);
  await desk.live.ask("mark");
  await desk.live.ask("type", { keys: [72, 105] });
  await desk.run(9000000, 1);
  await desk.open("resume", { kept: await desk.live.ask("kept") });
  for (const at of [6000000, 100, 5999999]) expectMoment(`the look at ${at} after a reload`, await desk.past.peek(at), fresh.at(at));
  expect("whether that is as claimed", [(await desk.past.peek(6000000)).isClaimed, (await desk.past.peek(5999999)).isClaimed], [true, false]);
  expect("the first byte sent", (await desk.past.find({ to: 9000000, conditions: [{ kind: SENDS }] })).at > 6000000, true);
  await desk.live.ask("takeOver", await desk.past.moment(6500000));
  await desk.run(7000000);
  console.log(`recording kept ${Buffer.from((await desk.live.ask("recording")).bytes).toString("base64")}`);
  await takeOverBeforeKeys(desk);
}

/** What waits at the end of a run that is kept stays with it: a run that is taken over before its end has none of that. */
async function takeOverBeforeKeys(desk) {
  const waits = () => desk.frames.findLast((news) => news.state).typed, keys = Array.from({ length: 20 }, (_, at) => 65 + at);
  await desk.run(8000000);
  expect("the numbers of the first of what is typed", (await desk.live.ask("type", { keys })).first, { keys: 0, serial: 0 });
  const kept = await desk.live.ask("kept");
  expect("what is kept of it", [...kept.waiting.keys, kept.waiting.taken], [...keys, { keys: 0, serial: 0 }]);
  await desk.open("resume", { kept: { ...kept, live: null, until: kept.count } });
  expect("how much waits for a run that was kept", waits(), keys.length);
  await desk.live.ask("takeOver");
  expect("how much waits for one that is taken over before", waits(), 0);
}

module.exports = [takeOver];
