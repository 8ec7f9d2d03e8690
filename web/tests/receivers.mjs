#!/usr/bin/env node
/* One sender for three receivers over ways of their own, in made time: what one of them loses, that it falls silent, or that it
   has none of the last pictures, costs the others no picture. Who left joins again when it says something. */

import { readFileSync } from "node:fs";
import { Group, Params, load } from "../../library/web/h263rps.js";
import { LEAD, LIMIT, RATE, SHORTEST_PACKET, SLOTS, TICKS, now } from "../src/call_settings.js";
import { Receivers } from "../src/receivers.js";
import { Receiving } from "../src/receiving.js";
import { Repairs, SentPackets, isNack } from "../src/repair.js";
import { chanceOf, made, pass } from "./made_time.mjs";

const SECONDS = 20;
const WAY = 0.03;
const WAIT = 0.1;
const TARGET = 1800;

/** A line that takes whatever comes: what is tried here isn't the rate. */
const openLine = () => ({ target: TARGET, hasRoom: true, sent: () => {}, told: () => {}, close: () => {} });

class Room {
  #group = new Group(Params.of("qcif", { target: TARGET, limit: LIMIT, slots: SLOTS, lead: LEAD }));
  #receivers = new Receivers(this.#group);
  #sent = new SentPackets(WAIT);
  #parties = new Map();
  #begin = now();
  /** How often one left the group, and how many pictures were intra. */
  left = 0;
  intra = 0;

  /** One comes whose way loses, at this moment, such a share there and back. */
  join(place, lossAt) {
    const chances = [chanceOf(7 + place), chanceOf(17 + place)];
    const back = (bytes) => this.#carry(chances[1], lossAt(now() - this.#begin)[1], () => this.#heard(place, bytes));
    const receiving = new Receiving(WAIT, { say: back, ask: back, carried: () => {}, tell: () => {}, paint: () => {} });
    this.#parties.set(place, { receiving, chance: chances[0], lossAt });
    this.#receivers.join(place, openLine(), new Repairs(this.#sent, TARGET * RATE), now());
  }

  leave(place) {
    this.#receivers.leave(place, now());
    this.#parties.get(place).receiving.close();
    this.#parties.delete(place);
  }

  #carry(chance, loss, act) {
    if (chance() >= loss) setTimeout(act, 1000 * WAY);
  }

  #send(packets, to) {
    for (const place of to) {
      const party = this.#parties.get(place);
      const [loss] = party.lossAt(now() - this.#begin);
      const take = (packet) => this.#parties.has(place) && party.receiving.take(packet);
      for (const packet of packets) this.#carry(party.chance, loss, () => take(packet));
    }
  }

  #heard(place, bytes) {
    const view = new DataView(bytes.buffer);
    const member = this.#receivers.at(place);
    if (!member) return;
    if (bytes.length >= SHORTEST_PACKET && isNack(view)) this.#send(member.repairs.asked(view, now()), [place]);
    else {
      this.#receivers.said(place, now());
      if (member.isIn) this.#group.feedback(place, bytes);
    }
  }

  picture(number) {
    const picture = new Uint8Array(38016).map((_, at) => (at + 3 * number) & 127);
    const inside = this.#receivers.inside.length;
    this.#receivers.settle(now(), []);
    this.left += inside - this.#receivers.inside.length;
    const coded = this.#group.code(picture);
    this.intra += coded.reference === null;
    const packets = this.#group.packets(coded);
    for (const packet of packets) {
      new DataView(packet.buffer).setUint32(4, Math.round((now() - this.#begin) * TICKS));
      this.#sent.keep(packet, now());
    }
    this.#receivers.sent(coded.number, packets, this.#receivers.places, now());
    this.#send(packets, this.#receivers.places);
  }

  /** The share of exact pictures of each, by places. */
  end() {
    const shares = [...this.#parties.values()].map(({ receiving }) => {
      const { exact, patched, held } = receiving.played;
      receiving.close();
      return (100 * exact) / (exact + patched + held);
    });
    this.#receivers.close();
    this.#sent.close();
    this.#group.close();
    return { shares, left: this.left, intra: this.intra };
  }
}

/** A room in which each has such losses, at a moment in seconds; what else happens, by pictures. */
function called(name, losses, happens = {}) {
  const room = new Room();
  losses.forEach((loss, place) => room.join(place, loss));
  const begin = made.time;
  for (let number = 0; number < SECONDS * RATE; number++) {
    const act = () => {
      happens[number]?.(room);
      room.picture(number);
    };
    made.acts.push({ id: made.next++, act, at: begin + (1000 * number) / RATE });
  }
  pass();
  const ended = room.end();
  console.log(`${name}: ${ended.shares.map((it) => it.toFixed(1)).join(", ")} % exact, ${ended.intra} intra, ${ended.left} left`);
  return ended;
}

function must(isSo, words) {
  if (isSo) return;
  console.error(words);
  process.exitCode = 1;
}

await load(readFileSync(process.env.H263RPS_MODULE));
const clean = () => [0, 0];
const lossy = () => [0.1, 0.1];
const deafFrom = (from, to) => (time) => (time >= from && time < to ? [1, 1] : [0, 0]);
const mute = (time) => (time >= 5 && time < 10 ? [0, 1] : [0, 0]);
const nothingHeard = (time) => (time >= 5 && time < 10 ? [1, 0] : [0, 0]);

const all = called("nobody loses", [clean, clean, clean]);
const one = called("one loses 10 %", [clean, clean, lossy]);
must(one.shares.slice(0, 2).every((share, place) => all.shares[place] - share < 1), "who loses nothing must stay within 1 %");
must(one.shares[2] > 90, "who loses 10 % must have most by repair");
must(one.left === 0, "who loses 10 % must stay in the group");
for (const [name, way] of [["one is gone for 5 s", deafFrom(5, 10)], ["one is mute for 5 s", mute], ["one gets nothing for 5 s", nothingHeard]]) {
  const ended = called(name, [clean, clean, way]);
  must(ended.shares.slice(0, 2).every((share, place) => all.shares[place] - share < 1), `${name}: the others must stay within 1 %`);
  must(ended.left >= 1, `${name}: it must leave`);
  must(ended.intra < SECONDS * RATE / 4, `${name}: it must not hold the others back`);
  must(ended.shares[2] > 65, `${name}: it must have pictures again`);
}
const alone = called("one alone is gone for 5 s", [deafFrom(5, 10)]);
must(alone.left === 0, "the last one must not leave");
const late = called("one comes late, another goes", [clean, clean], { 150: (room) => room.join(2, clean), 300: (room) => room.leave(0) });
must(late.shares.every((share) => share > 98), "who comes late must have all from then on, and who goes must cost nobody");

// A line that takes nothing holds the others back for a second; who left joins again after a second, two, up to eight.
const calls = [];
const group = { join: (place) => calls.push(`+${place}`), leave: (place) => calls.push(`-${place}`), waitingFor: () => null };
const receivers = new Receivers(group);
for (const place of [0, 1]) receivers.join(place, openLine(), { again: 0 }, 0);
const at = [];
for (let step = 0; step < 60 * RATE; step++) {
  const inside = receivers.inside.length;
  receivers.said(1, step / RATE);
  receivers.settle(step / RATE, [1]);
  if (receivers.inside.length < inside) at.push(step / RATE);
}
const apart = at.slice(1).map((time, place) => Math.round(time - at[place]));
must(apart.slice(0, 6).join() === "2,3,5,9,9,9", `a line that takes nothing: ${apart} s apart`);
must(receivers.inside.join() !== "1" && receivers.inside.includes(0), "who takes pictures must stay");
receivers.leave(0, 60);
must(receivers.inside.join() === "1", "the last one must be in the group");
console.log(`a line that takes nothing leaves ${at.length} times in a minute, ${apart.join(", ")} s apart: ${calls.length} calls`);
