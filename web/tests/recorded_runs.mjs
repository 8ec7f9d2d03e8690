#!/usr/bin/env node
/* What the page records of a session is what one receiver makes of each run's log: over a loss, a silence after which the run
   begins anew, and another wait, with which the session does. In made time, of which the whole call takes none. */

import assert from "node:assert";
import { readFileSync } from "node:fs";
import { Params, Receiver, Sender, load } from "../../library/web/h263rps.js";
import { LEAD, LIMIT, RATE, SLOTS, TICKS } from "../src/call_settings.js";
import { Receiving } from "../src/receiving.js";
import { Record } from "../src/record.js";
import { RecordedRuns } from "../src/recorded_runs.js";

// ---- made time --------------------------------------------------------------------------------

let time = 1_700_000_000_000;
let count = 0;
const timers = new Map();
Object.defineProperty(globalThis, "performance", { value: { timeOrigin: 0, now: () => time } });
globalThis.setTimeout = (act, late = 0) => (timers.set(++count, { at: time + Math.max(0, late), act }), count);
globalThis.clearTimeout = (number) => timers.delete(number);

/** Lets so many milliseconds go by. */
function pass(long) {
  const end = time + long;
  for (;;) {
    const [next] = [...timers].sort(([, a], [, b]) => a.at - b.at);
    if (!next || next[1].at > end) break;
    timers.delete(next[0]);
    time = Math.max(time, next[1].at);
    next[1].act();
  }
  time = end;
}

// ---- a call -----------------------------------------------------------------------------------

await load(readFileSync(process.env.H263RPS_MODULE));
const settings = { party: "alone", format: "qcif", wait: 0.1, target: 1800, network: null, sent: 1, received: 1 };
const record = new Record(time / 1000, settings);
const sender = new Sender(Params.of("qcif", { target: 1800, limit: LIMIT, slots: SLOTS, lead: LEAD }));
const told = [];
let painted = 0;
const heard = {
  ask: () => {},
  carried: () => {},
  say: (message) => setTimeout(() => sender.feedback(message), 30),
  tell: (turn) => told.push(turn),
  paint: (picture, format) => assert.deepStrictEqual([format, picture.length, ++painted > 0], ["qcif", 38016, true]),
};
const receiving = new Receiving(0.1, heard, new RecordedRuns(record));
const began = time;

/** So many pictures, each of which comes after so many milliseconds, but for those that are lost. */
function send(pictures, way, isLost = () => false) {
  for (let n = 0; n < pictures; n++) {
    const picture = new Uint8Array(38016).map((_, at) => (at + 3 * sender.sent()) & 127);
    const stamp = Math.round(((time - began) * TICKS) / 1000);
    for (const packet of sender.packets(sender.code(picture))) {
      new DataView(packet.buffer).setUint32(4, stamp);
      if (!isLost(n)) setTimeout(() => receiving.take(packet), way);
    }
    pass(1000 / RATE);
  }
}

send(60, 30, (n) => n % 7 === 3);
const before = told.length;
assert.deepStrictEqual(told.map(({ number }) => number), told.map((_, at) => at));
send(30, 250);
pass(33_000);
send(90, 30, (n) => n === 50);
// The way took longer: all was exact again. The sender's references that the new run hasn't are soon too old for it.
const since = told.findIndex(({ number }, at) => at > before && number !== told[at - 1].number + 1);
assert(told.slice(before + 15, since).every(({ mark }) => mark === "exact"));
assert.strictEqual(told.slice(since + SLOTS - LEAD + 3).filter(({ mark }) => mark !== "exact").length, 1);
assert(receiving.setWait(0.2) && !receiving.setWait(0.2));
sender.forget();
send(60, 30);
assert(told.slice(-50).every(({ mark }) => mark === "exact"));
pass(1000);
receiving.close();
assert.deepStrictEqual(receiving.played.exact + receiving.played.patched + receiving.played.held, told.length);

// ---- its record -------------------------------------------------------------------------------

const file = new Uint8Array(await record.file("call", 1).arrayBuffer());
const text = (bytes) => new TextDecoder().decode(bytes);
const files = {};
for (let at = 0; file[at]; ) {
  const name = text(file.subarray(at, at + 100)).replace(/\0.*/s, "");
  const length = parseInt(text(file.subarray(at + 124, at + 135)), 8);
  files[name.replace("call/", "")] = file.slice(at + 512, at + 512 + length);
  at += 512 + 512 * Math.ceil(length / 512);
}

function* entriesOf(log) {
  for (let at = 0; at < log.length; ) {
    const length = 256 * log[at + 1] + log[at + 2];
    yield [String.fromCharCode(log[at]), log.subarray(at + 3, at + 3 + length)];
    at += 3 + length;
  }
}

const lines = (name) => text(files[name]).split("\n").slice(0, -1);
const { recv: runs } = JSON.parse(text(files["call.json"]));
assert.deepStrictEqual(runs.map(({ log }) => log), ["recv.log", "recv-2.log", "recv-3.log"]);
let plays = 0;
for (const { log, wire, report, video, joined } of runs) {
  const receiver = new Receiver(Params.of("qcif", { slots: SLOTS, lead: LEAD }), joined);
  const [said, marks, entries] = [[], [], [...entriesOf(files[log])]];
  for (const [letter, body] of entries) {
    const { message, mark, number } = letter === "K" ? receiver.packet(body) : receiver.play();
    if (message.length) said.push(message);
    if (letter === "P") marks.push(`${number} ${mark}`);
  }
  assert.deepStrictEqual(marks, lines(report));
  assert.deepStrictEqual(said.map((it) => [...it]), [...entriesOf(files[wire])].map(([, body]) => [...body]));
  const timesOf = (name) => lines(name.replace(/\.\w+$/, ".times")).length;
  assert.deepStrictEqual([timesOf(log), timesOf(wire), timesOf(video)], [entries.length, said.length, marks.length]);
  plays += marks.length;
  receiver.close();
}
assert(plays >= told.length);
console.log(`${runs.length} runs of a session: ${plays} pictures played, ${told.length} shown: ${JSON.stringify(receiving.played)}`);
