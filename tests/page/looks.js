/* Looks into the past: at random counts, step by step, with little room, at a machine that runs, and at odd programs. */
"use strict";

const {
  Desk, Fresh, chance, countOf, drawing, example, expect, expectMoment, readRecording, sorted, withFalseKeyframes, withNumbers, STOPS, KIND_NAMES,
} = require("./workers.js");

/** Fifty looks at random counts, a thousand steps forward and back, over inputs and a stop. */
async function look() {
  const session = drawing(7, 300, 100000), desk = new Desk(), fresh = new Fresh(session), random = chance(11), end = 30000000, times = [];
  expect("a look at nothing", await desk.past.peek(0), null);
  await desk.openSession(session);
  await desk.run(end);
  for (const at of [...Array.from({ length: 50 }, () => random(end)), 0, end]) {
    const begun = performance.now(), moment = await desk.past.peek(at);
    times.push(performance.now() - begun);
    expect(`the count of the look at ${at}`, [moment.at, moment.count, moment.exact], [at, at, true]);
    expectMoment(`the look at ${at}`, moment, fresh.at(at));
  }
  const machine = fresh.at(12345678), { words, sent, state } = await desk.past.moment(12345678);
  expect("a whole moment", [Buffer.compare(words, machine.words), sent, state], [0, machine.sent, machine.state]);
  expect("bytes of the memory", (await desk.past.memory(12345678, 950016, 98304)).bytes, machine.dots);
  await stepBoth(desk, fresh, session);
  for (const at of [0, 12345678, end]) expect(`the machine that is run again to ${at}`, await desk.past.recheck(at), { at, part: null });
  for (const [ask, why] of [[() => desk.past.peek(end + 1), `the machine has not come to ${end + 1} yet`], [() => desk.past.peek(-1), "-1 is not a count"],
                            [() => desk.past.memory(0, 1048576, 1), "these bytes are beyond the memory"]])
    expect("a look that is refused", await ask().catch((error) => error.message), why);
  desk.end();
  const middle = sorted(times)[26];
  console.log(`looks: 52 counts of ${end.toLocaleString("en")} as a run from the beginning has them, each in ${middle.toFixed(1)} ms (the median)`);
}

/** Goes a thousand steps forward and back over inputs: the machine is the same, and each step is what the run does. */
async function stepBoth(desk, fresh, session) {
  const from = session.inputs[200][0] - 500, seen = [];
  for (let at = from; at <= from + 1000; at++) {
    const moment = await desk.past.peek(at, { quick: true });
    if (at % 50 === 0) expectMoment(`the step to ${at}`, moment, fresh.at(at));
    seen.push(moment);
  }
  for (let at = from + 1000; at >= from; at--) {
    const { state, dots } = await desk.past.peek(at), before = seen[at - from];
    expect(`a step back to ${at}`, [Buffer.compare(state, before.state), Buffer.compare(dots, before.dots)], [0, 0]);
  }
  const rows = await desk.past.around(from + 500, 10, 10), machine = fresh.at(from + 490);
  expect("the instructions around an input", rows, Array.from({ length: 20 }, () => machine.step(fresh.inputs)));
  expect("the input among them", rows.findIndex(({ inputs }) => inputs.length), 10);
}

/** Looks at a machine that runs at 25 MHz and gets inputs, at counts before now and at now, are those of the run that was recorded. */
async function lookWhileItRuns() {
  const session = { ...example("draw"), inputs: [], checkpoints: [] }, desk = new Desk(), random = chance(29), seen = [];
  await desk.openSession(session);
  await desk.live.ask("setRun", { on: true, fast: false, seconds: 0 });
  for (let k = 0; k < 40; k++) {
    const word = random(1024) + (random(700) << 12) + (1 << 26), now = countOf(desk.frames.findLast((news) => news.state).state);
    await desk.live.ask("change", { kind: KIND_NAMES.indexOf("mouse"), changes: [[word, performance.timeOrigin + performance.now()]] });
    if (k % 8 === 0) await desk.live.ask("type", { keys: [65 + k] });
    seen.push(await desk.past.peek(k % 2 ? now : random(now + 1)));
    await new Promise((resolve) => setTimeout(resolve, 10));
  }
  await desk.live.ask("setRun", { on: false });
  const { inputs } = readRecording((await desk.live.ask("recording")).bytes);
  const fresh = new Fresh({ ...session, inputs: Array.from({ length: inputs.length }, (_, k) => inputs.item(k)) });
  for (const moment of seen.sort((one, other) => one.at - other.at)) expectMoment(`the look at ${moment.at} of a machine that ran`, moment, fresh.at(moment.at));
  desk.end();
  console.log(`running: 40 looks at a machine that got ${inputs.length} inputs meanwhile are those of its recording`);
}

/** Looks where a program stops, and where it writes its own code. */
async function lookAtOdd() {
  for (const name of ["mixed", "own-code"]) {
    const session = example(name), desk = new Desk(withNumbers({ KEYFRAME_STEPS: 500, KEYFRAME_MS: 0 })), fresh = new Fresh(session), end = 6000;
    await desk.openSession(session);
    await desk.run(end);
    const stop = fresh.find(end, [{ kind: STOPS }], false), from = stop ? stop.at + 20 : end;
    for (let at = from; at > from - 60; at--) expectMoment(`${name}, the step back to ${at}`, await desk.past.peek(at), fresh.at(at));
    const rows = await desk.past.around(from - 20, 20, 20);
    expect(`${name}: how many instructions it does there`, rows.length, stop ? 21 : 40);
    desk.end();
  }
  console.log("odd programs: steps back over a stop, and in a program that writes its own code");
}

/** A keyframe with a false bit is found by a run from count 0. */
async function findFalseKeyframe() {
  const desk = new Desk(withFalseKeyframes(200000)), at = 9000000;
  await desk.openSession(drawing(5, 100, 100000));
  await desk.run(10000000);
  expect("what differs where a keyframe is false", await desk.past.recheck(at), { at, part: `page ${Math.floor(200000 / 256)}` });
  desk.end();
  console.log("again: three moments are the same, run from count 0; a keyframe with a false bit is found");
}

module.exports = [look, findFalseKeyframe, lookWhileItRuns, lookAtOdd];
