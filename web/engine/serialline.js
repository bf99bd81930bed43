// @ts-check
/* When the machine gets serial bytes. Its receiver holds one byte, and the next one would take its place: so each comes after the instruction that loads the one
 * before. If the program reads fast, a copy of the machine runs first, with bytes as far apart as the program needed lately, and the library says when the copy
 * loads the receiver. The machine gets those that were loaded in time; the others wait. If the program reads slowly, the machine gets a byte after each piece of a
 * turn. A program may load a byte twice, as it may on a real line, so none comes sooner than GAP instructions after that load. */
import { LOAD } from "../formats/conditions.js";
import { Inputs } from "../formats/inputs.js";
import { INPUT_BYTES } from "../formats/layout.js";
import { SERIAL } from "../formats/states.js";

const RECEIVER = 0xffffc8, LOADS = [{ kind: LOAD, from: RECEIVER, end: RECEIVER + 4 }];
// How many instructions a byte comes after the load of the one before, at least; how many loads of each byte are looked for, at most.
const GAP = 200, LOADS_EACH = 4;
// The most bytes of a copy, and the most instructions; how many the machine does in the time that it takes to make a copy; and from how many bytes on the distance
// shrinks slowly: most of them came while the program waited, which does not show how long it works for each.
const MOST = 2048, MOST_STEPS = 200000, COPY_STEPS = 10000, MANY = 16;
// At a distance above FAR, in instructions, a piece costs less than a copy. A piece at whose end its byte was read makes the next one shorter, by a share that grows from
// SOONER to SOONEST; any other piece makes it longer, by the share LATER.
const FAR = 6000, SHORTEST = FAR + 1, SOONER = 1 / 64, SOONEST = 1 / 8, LATER = 1 / 8;

export class SerialLine {
  // How many bytes a copy gets next, and their distance in instructions.
  many = 1;
  apart = 1;
  // The count of the last byte that was given by itself, and how many followed it in time.
  given = 0;
  row = 0;
  // The share by which the next piece is shorter, and the count at which the last one ended.
  sooner = SOONER;
  end = 0;

  /** Gives a machine that has just got a serial byte more of them, before a count. Returns the count up to which it runs then: where the last one is read, if that is
   * known. While keys wait, it is at most the end of a piece.
   * @param {import("./machine.js").Machine} machine
   * @param {number} stop
   * @param {number} pieceEnd */
  give(machine, stop, pieceEnd) {
    const { count, inputs, next, arrivals } = machine, newest = inputs.length - 1, isNew = newest >= next && inputs.kind(newest) === SERIAL;
    if (!machine.serialWaits || !machine.isReceiving) return Math.min(stop, pieceEnd);
    if (this.apart > FAR && count === this.end && count - this.given >= this.apart) this.follow(isNew);
    if (isNew) this.given = inputs.count(newest);
    const { apart, given } = this, whole = arrivals.keys.length ? Math.min(stop, pieceEnd) : stop;
    if (apart > FAR) this.end = isNew ? given + apart : Math.max(given + apart, count + Math.ceil(apart / 2));
    else this.end = isNew && given + apart > whole ? whole : this.giveMany(machine, whole, isNew);
    return this.end = Math.min(whole, this.end);
  }

  /** Fits the length of pieces, after one at whose end its byte was read, or was not. Copies come next only if the shortest piece was long enough: a program that
   * needs a little longer would be late in each copy.
   * @param {boolean} isRead */
  follow(isRead) {
    const next = Math.ceil(this.apart * (isRead ? 1 - this.sooner : 1 + LATER)), least = this.apart > SHORTEST ? SHORTEST : 0;
    this.apart = Math.min(MOST_STEPS, Math.max(least, next));
    this.sooner = isRead ? Math.min(SOONEST, 2 * this.sooner) : SOONER;
    this.many = 1;
  }

  /** Gives the bytes that a copy reads in time, if the machine has just got one; none if it holds one longer. Returns the count from which on the next one may come, or
   * up to which nothing is loaded.
   * @param {import("./machine.js").Machine} machine
   * @param {number} whole
   * @param {boolean} isNew */
  giveMany(machine, whole, isNew) {
    const { count, inputs, next, library, other, arrivals: { serial } } = machine, { apart, given } = this, from = isNew ? given : count;
    const most = Math.min(this.many, machine.serialWaits, Math.floor(Math.min(whole - from, MOST_STEPS) / apart) - 1), tried = isNew ? Math.max(0, most) : 0;
    const end = Math.min(whole, from + (isNew ? Math.max(COPY_STEPS, apart * (tried + 2)) : MOST_STEPS));
    const planned = new Inputs(inputs.bytes.subarray(INPUT_BYTES * next)), counts = [from];
    for (let number = 0; number < tried; number++) {
      counts.push(from + apart * (number + 1));
      planned.push(counts[number + 1], SERIAL, serial.bytes[serial.at + number]);
    }
    machine.put(other, machine.at(machine.address));
    const loads = library.hits(other, planned.bytes, end, LOADS, tried ? LOADS_EACH * (tried + 1) : 1);
    // How many are read in time, the first one with them; the count from which on the next one may come, how long the last one took, and the longest time.
    let read = 0, free = 0, took = 0, longest = 0;
    for (let load = 0; read <= tried && counts[read] >= free; read++) {
      while (load < loads.length && loads[load].at < counts[read]) load++;
      if (load === loads.length) break;
      free = loads[load].at + 1 + GAP;
      took = free - counts[read];
      longest = Math.max(longest, took);
    }
    if (!read) {
      if (end - given >= MOST_STEPS) this.apart = MOST_STEPS;
      return loads.length > tried ? loads[tried].at + 1 + GAP : end;
    }
    inputs.replace(next, planned.bytes.subarray(0, INPUT_BYTES * (inputs.length - next + read - 1)));
    serial.skip(machine.ahead = read - 1);
    if (isNew) this.row = read - 1;
    this.learn(tried, isNew ? took : free - given, longest);
    return free;
  }

  /** Fits number and distance of bytes, after a copy with `tried` of them: `took` and `longest` are the instructions from a byte to the next one that may come, of the
   * last byte and of the slowest. A program that is late now and then gets as many as it reads until then; one that is late more often gets them farther apart.
   * @param {number} tried
   * @param {number} took
   * @param {number} longest */
  learn(tried, took, longest) {
    const { apart, many, row } = this, isLate = row < tried || took > apart;
    if (isLate && row * (took - apart) >= COPY_STEPS) this.many = Math.min(MOST, 2 * row);
    else if (isLate) this.apart = Math.min(MOST_STEPS, Math.max(apart, took));
    else if (2 * longest < apart) this.apart = tried < MANY ? longest : Math.max(longest, Math.ceil(apart * 7 / 8));
    if (!isLate && tried === many) this.many = Math.min(MOST, 2 * many);
  }
}
