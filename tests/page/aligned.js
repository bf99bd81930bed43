/* The first line of two programs that does something else in the one run than in the other: against programs in which lines are put in, taken out and changed, whose
 * runs are followed by single steps. */
"use strict";

const { Desk, Fresh, chance, expect, fail } = require("./workers.js");

// Lines that may be at any place but between an operation and the branch that follows it; and one that changes nothing that others read.
const DOES = [
  (random) => `        ADD R${1 + random(5)}, R${1 + random(5)}, ${random(9)}`, (random) => `        XOR R${1 + random(5)}, R${1 + random(5)}, ${random(99)}`,
  (random) => `        STR R${1 + random(5)}, R8, ${4 * random(4)}`, (random) => `        LDR R${1 + random(5)}, R8, ${4 * random(4)}`, () => "        BL sub",
];
const IDLE = "        ADD R11, R11, 1";

/** A program with a loop, a procedure that saves where it returns to, and data after the code. */
function drawn(random) {
  const some = (most) => Array.from({ length: 1 + random(most) }, () => DOES[random(DOES.length)](random));
  const leaf = Array.from({ length: 1 + random(4) }, () => DOES[random(2)](random));
  return [
    "        MOV R8, data", "        MOV R14, 0x800", ...some(6), "main:   MOV R7, 5", ...some(4), "again:  ADD R6, R6, 2", ...some(8), "        SUB R7, R7, 1", "        BNE again", ...some(3), "        B main",
    "sub:    SUB R14, R14, 4", "        STR R15, R14, 0", ...leaf, "        LDR R15, R14, 0", "        ADD R14, R14, 4", "        B LNK", "data:   word 1, 2, 3, 4",
  ];
}

/** Returns the session of a source, and the words of its lines. */
async function assembled(desk, lines, inputs) {
  const { program, problems } = await desk.live.ask("assemble", { source: lines.join("\n"), file: "a.asm" });
  if (!program) fail(`${JSON.stringify(problems)} in\n${lines.join("\n")}`);
  return { session: JSON.stringify({ ...JSON.parse(program.session), inputs }), words: new Map(program.lines.map(([address, line]) => [line, address / 4])) };
}

/** Asks where the runs of two sources part. */
async function parted(desk, one, other, to, inputs = [], seconds = 60) {
  const [before, now] = [await assembled(desk, one, inputs), await assembled(desk, other, inputs)];
  return { before, now, ...(await desk.live.ask("parting", { one: before.session, other: now.session, to, sources: [one, other].map((lines) => [["a.asm", lines.join("\n")]]), seconds })) };
}

/** What the first execution of a line does, and its count. */
function firstOf({ session, words }, line, end) {
  const { machine, inputs } = new Fresh(JSON.parse(session)), word = words.get(line);
  while (machine.count < end) {
    const { count, pc, did } = machine.step(inputs);
    if (pc === word) return { count, did };
  }
  return null;
}

/** Lines that change nothing make no difference; a line that is changed is named, with what it did in both runs and when; and one that is put in is seen where a line
 * of both first does something else. */
async function alignRandom() {
  const desk = new Desk(), random = chance(71), END = 20000;
  let named = 0, same = 0, moved = 0;
  for (let program = 0; program < 60; program++) {
    const lines = drawn(random), other = lines.slice();
    for (let put = random(4); put >= 0; put--) {
      const at = random(other.length - 1);
      if (!other[at].includes("BNE")) other.splice(at, 0, IDLE);
    }
    const alike = await parted(desk, lines, other, END);
    expect(`program ${program}: the first line that differs where none does\n${other.join("\n")}\n`, alike.lines?.first ?? null, null);
    if (alike.at !== null) same++;
    const places = other.flatMap((line, at) => (/^ +(ADD|XOR) R[1-5],/.test(line) && other[at - 1] !== IDLE && other[at + 1] !== IDLE ? [at] : []));
    if (!places.length) continue;
    const place = places[random(places.length)], changed = other.slice();
    changed[place] = changed[place].replace(/\d+$/, (number) => `${Number(number) + 1000}`);
    const wanted = lines.indexOf(other[place]), isOnce = lines.filter((line) => line === other[place]).length === 1, found = await parted(desk, lines, changed, END);
    const [before, now] = [firstOf(found.before, wanted + 1, END), firstOf(found.now, place + 1, END)];
    if (!isOnce) continue;
    if (!before || !now) {
      expect(`program ${program}: a changed line that is not executed`, found.lines?.first ?? null, null);
      continue;
    }
    const { first } = found.lines;
    expect(`program ${program}: the line that was changed\n${changed.join("\n")}\n`, [first.place, first.counts, first.did], [{ file: "a.asm", line: place + 1 }, [before.count, now.count], [before.did, now.did]]);
    named++;
    if (before.count !== now.count) moved++;
    const [, lastNow] = found.lines.shifts.findLast(([, count]) => count <= now.count), [lastBefore] = found.lines.shifts.findLast(([, count]) => count <= now.count);
    expect(`program ${program}: the count of the run before`, now.count - lastNow + lastBefore, before.count);
  }
  desk.end();
  if (named < 20 || same < 20 || moved < 10) fail(`too little was compared: ${named} lines named, ${same} pairs alike, ${moved} lines at other counts`);
  console.log(`lines: ${same} pairs of programs with other counts do the same; ${named} changed lines are named, ${moved} of them at other counts`);
}

const WAITS = [
  "        MOV R1, KEY", "        MOV R8, data", "        MOV R9, TIMER", "wait:   LDR R3, R1, MOUSE - KEY", "        LSL R3, R3, 3", "        BPL wait", "        LDR R0, R1, 0", "        ADD R4, R4, R0",
  "        STR R4, R8, 0", "        LDR R5, R9, 0", "        ADD R5, R5, 20", "later:  LDR R6, R9, 0", "        SUB R6, R6, R5", "        BMI later", "        B wait", "data:   word 0",
];

/** Runs that wait for keys and for the timer have other numbers of rounds; a line that is put in beyond the loops makes no difference, one that changes what is stored
 * is seen at its line, and what an input does last is seen 2^30 counts later. */
async function alignWaiting() {
  const desk = new Desk(), late = 2 ** 30, inputs = [[1000, "key", 65], [3000000, "key", 66], [30000000, "key", 67], [late, "key", 68]], END = late + 1000;
  const put = [...WAITS.slice(0, 7), IDLE, ...WAITS.slice(7, 9), IDLE, IDLE, ...WAITS.slice(9)], begun = performance.now();
  const alike = await parted(desk, ["        rate 25000", ...WAITS], ["        rate 25000", ...put], END, inputs);
  expect("a line that is put in between loops that wait", alike.lines.first, null);
  if (alike.lines.upTo[0] < END - 1000) fail(`the lines were compared up to ${alike.lines.upTo}`);
  const odd = put.map((line) => (line === "        ADD R4, R4, R0" ? "        XOR R4, R4, R0" : line)), { lines } = await parted(desk, ["        rate 25000", ...WAITS], ["        rate 25000", ...odd], END, inputs);
  expect("the line that is another one", [lines.first.place.line, lines.first.did], [11, ["Mem[00003C] = 00000083", "Mem[000048] = 00000003"]]);
  desk.end();
  console.log(`lines: 2^30 counts with loops that wait are compared in ${((performance.now() - begun) / 1000).toFixed(1)} s`);
}

/** Keys that come at any instruction of a loop that waits for them, which has one more in the other program, make no difference; a key that is another one does. */
async function alignKeys() {
  const desk = new Desk(), random = chance(5), [first, last] = [WAITS.indexOf("        LDR R5, R9, 0"), WAITS.indexOf("        B wait")], polls = [...WAITS.slice(0, first), ...WAITS.slice(last)];
  const other = [...polls.slice(0, 4), "        ADD R12, R12, 0", ...polls.slice(4, 8), IDLE, ...polls.slice(8)], inputs = [];
  for (let count = 100; inputs.length < 300; count += 40 + random(60)) inputs.push([count, "key", 33 + random(90)]);
  const end = inputs.at(-1)[0] + 200, { lines } = await parted(desk, polls, other, end, inputs);
  expect("keys at any instruction of the loop", [lines.first, lines.upTo[0] > end - 20, lines.upTo[1] > end - 20], [null, true, true]);
  const seen = polls.map((line) => line.replace("ADD R4, R4, R0", "ADD R4, R4, R0\n        ADD R4, R4, 1")).join("\n").split("\n"), { lines: found } = await parted(desk, polls, seen, end, inputs);
  expect("a line that adds one to each key", [found.first.place.line, found.first.did.map((text) => text.split(" = ")[0])], [10, ["Mem[000028]", "Mem[00002C]"]]);
  desk.end();
  console.log(`lines: ${inputs.length} keys that come at any instruction of a loop, which has another length, make no difference`);
}

/** A comparison that takes too long says up to where both do the same, also while both wait for the timer. */
async function alignLate() {
  const desk = new Desk(), begin = ["        rate 25000", "        MOV R9, TIMER"], loop = ["again:  LDR R5, R9, 0", "later:  LDR R6, R9, 0", "        SUB R6, R6, R5", "        BEQ later", "        B again"];
  const { lines: found } = await parted(desk, [...begin, ...loop], [...begin, IDLE, ...loop], 2 ** 40, [], 3);
  expect("what is known of a comparison that takes too long", [found.first, found.isLate, found.upTo.map((count) => count > 1000 && count < 2 ** 40)], [null, true, [true, true]]);
  desk.end();
  console.log(`lines: a comparison that takes too long says that both do the same up to ${found.upTo}`);
}

module.exports = [alignRandom, alignWaiting, alignKeys, alignLate];
