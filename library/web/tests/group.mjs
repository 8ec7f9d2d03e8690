#!/usr/bin/env node
/* group.mjs: a group of three receivers that lose packets, a group of one beside a sender, wrong calls, and no memory kept. */

import assert from "node:assert/strict";
import { Group, MARKS, PACES, Pace, Params, Receiver, Refused, Sender, load, pictureSize } from "../h263rps.js";

/** The module's instance, which only this test looks into. */
let instance;
const { instantiate } = WebAssembly;
WebAssembly.instantiate = async (...words) => (instance = await instantiate(...words));
await load(process.env.H263RPS_MODULE ? new URL(process.env.H263RPS_MODULE, "file:") : undefined);

const FORMAT = "sub-qcif";
const SIZE = pictureSize(FORMAT);
const TRIP = 3;

/** Numbers below 100, drawn from a seed. */
function drawn(seed) {
  let state = seed;
  return () => (state = (Math.imul(state, 1664525) + 1013904223) >>> 0, (state >>> 16) % 100);
}

function picture(number) {
  let state = 1 + number * 7919;
  return new Uint8Array(SIZE).map((_, at) => {
    state = (Math.imul(state, 1664525) + 1013904223) >>> 0;
    return 64 + ((at + 3 * number) % 64) + (state >>> 27);
  });
}

/** Three receivers, of which one loses nothing: what each shows exactly is what that one shows. */
function three() {
  const group = new Group(Params.of(FORMAT, { radius: 3 }));
  const losses = [0, 5, 15];
  const members = losses.map((_, k) => {
    group.join(k);
    return { receiver: new Receiver(Params.of(FORMAT), group.sent()), draw: drawn(77 + k), said: [], exact: 0, whole: 0 };
  });
  for (let n = 0; n < 100; n++) {
    for (const [k, { said }] of members.entries()) {
      for (const message of said[n - TRIP] ?? []) assert.equal(group.feedback(k, message).kind, "noted");
    }
    const isWaiting = group.waitingFor() !== null;
    const reference = group.reference();
    const coded = group.code(picture(n));
    assert.equal(coded.number, n);
    if (isWaiting) assert.equal(coded.reference, null);
    assert.ok(coded.reference === reference || coded.reference === null);
    const packets = group.packets(coded);
    let own;
    for (const [k, member] of members.entries()) {
      const came = packets.filter(() => member.draw() >= losses[k]);
      const heard = came.map((packet) => member.receiver.packet(packet));
      const played = member.receiver.play();
      own ??= played.picture;
      member.said[n] = [...heard, played].map(({ message }) => message).filter((message) => message.length);
      member.exact += played.mark === MARKS[0];
      member.whole += came.length === packets.length;
      if (played.mark === "exact") assert.deepEqual(played.picture, own);
      assert.equal(played.mark === "exact", came.length === packets.length);
    }
  }
  assert.equal(members[0].exact, 100);
  assert.ok(members[2].exact < members[1].exact && members[1].exact < 100);
  const { coded } = group.statistics();
  assert.ok(coded.intra < 25, `${coded.intra} pictures are intra`);
  group.leave(1);
  group.leave(2);
  assert.throws(() => group.feedback(2, new Uint8Array(3)), (fault) => fault instanceof Refused && fault.status === "no receiver");
  for (const { receiver } of members) receiver.close();
  group.close();
  return members.map(({ exact }) => exact);
}

/** A group of one codes what a sender codes, byte for byte, with targets, quantisers and a pace. */
function one() {
  const params = Params.of(FORMAT, { radius: 3, target: 1500, pace: PACES.follows });
  const ends = [new Group(params), new Sender(params)];
  const paces = ends.map(() => new Pace(FORMAT, { target: 900, room: 9000 }));
  const receiver = new Receiver(params);
  const draw = drawn(5);
  const said = [];
  ends[0].join(9);
  for (let n = 0; n < 90; n++) {
    for (const message of said[n - TRIP] ?? []) {
      assert.deepEqual(ends[0].feedback(9, message), ends[1].feedback(message));
    }
    if (n === 30) for (const end of ends) end.quant(20);
    if (n >= 60) assert.equal(paces[0].next(ends[0]), paces[1].next(ends[1]));
    const [mine, other] = ends.map((end) => {
      const coded = end.code(picture(n));
      return { coded, packets: end.packets(coded) };
    });
    assert.deepEqual(mine, other);
    const size = mine.packets.reduce((sum, { length }) => sum + length, 0);
    if (n >= 60) for (const pace of paces) pace.coded(mine.coded, 20, size);
    const heard = mine.packets.filter(() => draw() >= 10).map((packet) => receiver.packet(packet));
    said[n] = [...heard, receiver.play()].map(({ message }) => message).filter((message) => message.length);
  }
  assert.deepEqual(ends[0].statistics(), ends[1].statistics());
  for (const end of [...ends, receiver]) end.close();
}

/** A sender with a target fits it as one does that asks a pace, with a room of 30 targets; by the sizes it doesn't. */
function fits() {
  const made = [{ target: 900 }, {}, { target: 900, pace: PACES.follows }].map((words) => {
    const sender = new Sender(Params.of(FORMAT, { radius: 3, ...words }));
    const pace = new Pace(FORMAT, { target: 900, room: 27_000 });
    const all = [];
    for (let n = 0; n < 20; n++) {
      const quant = words.target ? 0 : pace.next(sender);
      const coded = sender.code(picture(n));
      all.push(sender.packets(coded));
      if (!words.target) pace.coded(coded, quant, all[n].reduce((sum, { length }) => sum + length, 0));
    }
    sender.close();
    return all;
  });
  assert.deepEqual(made[0], made[1]);
  assert.notDeepEqual(made[0], made[2]);
}

function wrong() {
  const group = new Group(Params.of(FORMAT));
  const refused = (status, call) => assert.throws(call, (fault) => fault instanceof Refused && fault.status === status);
  refused("bad params", () => new Group(Params.of(FORMAT, { slots: 65 })));
  refused("bad params", () => group.join(16));
  refused("bad params", () => group.leave(16));
  refused("bad params", () => group.feedback(16, new Uint8Array(3)));
  refused("no receiver", () => group.feedback(0, new Uint8Array(3)));
  refused("no packet", () => group.packet(0));
  refused("wrong length", () => group.code(new Uint8Array(3)));
  refused("bad params", () => group.target(1000000));
  refused("bad params", () => group.quant(0));
  assert.throws(() => group.join(-1), RangeError);
  assert.throws(() => group.join("0"), TypeError);
  assert.throws(() => group.feedback(0), TypeError);
  assert.deepEqual([group.waitingFor(), group.reference(), group.sent()], [null, null, 0]);
  group.join(15);
  assert.equal(group.waitingFor(), 15);
  assert.equal(group.feedback(15, new Uint8Array(0)).kind, "no message");
  group.close();
  group.close();
  refused("not started", () => group.join(0));
  refused("not started", () => group.code(new Uint8Array(SIZE)));
  refused("not started", () => group.waitingFor());
}

/** Groups that are started and closed 1,000 times take no more memory than ten. */
function memory() {
  const some = (count) => {
    for (let n = 0; n < count; n++) {
      const group = new Group(Params.of(FORMAT));
      group.join(n % 16);
      if (n % 50 === 0) group.code(picture(n));
      group.close();
    }
    return instance.exports.memory.buffer.byteLength;
  };
  assert.equal(some(10), some(1000));
}

const exact = three();
one();
fits();
wrong();
memory();
console.log(`of 100 pictures ${exact.join(", ")} are exact at three receivers; a group of one is a sender`);
