#!/usr/bin/env node
/* run.mjs SCRIPT: carries out a script of scripts.py on the module, and prints each answer as run.py does. */

import { createHash } from "node:crypto";
import { readFileSync, writeSync } from "node:fs";
import {
  CAUSES, DISTANCES, GROUPS, HEARD, MARKS, NOTED, Params, RUNS, Receiver, Refused, Sender, Session, label, load, packetStart,
} from "../h263rps.js";

/** The words of each table of counts, in the order of their numbers. */
const WORDS = { coded: DISTANCES, noted: NOTED, heard: HEARD, faults: GROUPS, played: MARKS, dropped: CAUSES };

const hex = (bytes) => Buffer.from(bytes).toString("hex");
const bytesOf = (text) => new Uint8Array(Buffer.from(text, "hex"));
const orNone = (number) => number ?? "none";

let lines = [];
function print(...words) {
  lines.push(words.join(" "));
  if (lines.length === 1000) flush();
}
function flush() {
  if (lines.length) writeSync(1, `${lines.join("\n")}\n`);
  lines = [];
}

/** Of parts whose lengths count, too. */
function sumOf(...parts) {
  const sum = createHash("sha256");
  for (const part of parts) {
    const length = Buffer.alloc(4);
    length.writeUInt32BE(part.length);
    sum.update(length).update(part);
  }
  return sum.digest("hex").slice(0, 16);
}

function framesOf(path) {
  const data = readFileSync(path);
  const begin = data.indexOf(10) + 1;
  const head = data.subarray(0, begin).toString();
  const [width, height] = ["W", "H"].map((letter) => Number(new RegExp(` ${letter}(\\d+)`).exec(head)[1]));
  const size = (width * height * 3) / 2;
  const frames = [];
  for (let at = begin; at < data.length; at += size + 6) frames.push(new Uint8Array(data.subarray(at + 6, at + 6 + size)));
  return frames;
}

function edited(packet, edits) {
  let made = packet.slice();
  for (const edit of edits) {
    const [kind, word] = edit.split(":");
    if (kind === "a") made = new Uint8Array([...made, ...bytesOf(word)]);
    else if (kind === "c") made = made.slice(0, Number(word) % (made.length + 1));
    else if (made.length) {
      const bit = Number(word) % (8 * (kind === "h" ? Math.min(made.length, 16) : made.length));
      made[bit >> 3] ^= 128 >> bit % 8;
    }
  }
  return made;
}

/** The packet with another SSRC and another time. */
function ofStream(packet, source, ticks) {
  const named = label(packet, Number(source), 96);
  new DataView(named.buffer).setUint32(4, Number(ticks));
  return named;
}

class Run {
  ends = [];
  frames = [];
  coded = 0;
  packets = [];
  said = [];
  source = 0;

  step(line) {
    const [name, ...rest] = line.split(" ");
    this[name](rest.join(" "));
  }

  sender(rest) {
    const { format, ...params } = JSON.parse(rest);
    this.sending = new Sender(Params.of(format, params));
    this.ends.push(this.sending);
  }

  receiver(rest) {
    const { format, number = 0, ...params } = JSON.parse(rest);
    this.receiving = new Receiver(Params.of(format, params), number);
    this.ends.push(this.receiving);
  }

  session(rest) {
    const { format, rate, second, wait, ...params } = JSON.parse(rest);
    this.following = new Session(Params.of(format, params), { rate, second, wait: BigInt(wait) });
    this.ends.push(this.following);
  }

  video(path) {
    this.frames = framesOf(path);
  }

  code(rest) {
    const places = rest.split(" ").filter((word) => word && this.said.length);
    const back = places.map((word) => this.said[Number(word) % this.said.length]);
    const coded = this.sending.code(this.frames[this.coded++ % this.frames.length], back);
    this.packets.push(this.sending.packets(coded));
    print("coded", coded.number, coded.packets, orNone(coded.reference), sumOf(...this.packets.at(-1)));
  }

  take(packet) {
    try {
      const start = packetStart(packet);
      print("start", start.format, start.clock, start.temporalReference, orNone(start.reference), start.messages.map(hex).join(","));
    } catch (fault) {
      if (!(fault instanceof Refused)) throw fault;
      print(fault.message);
    }
    const heard = this.receiving.packet(packet);
    print("heard", heard.kind, heard.fault?.number ?? 0, heard.at, heard.number, hex(heard.message));
    this.keep(heard.message);
  }

  keep(message) {
    if (message.length) this.said.push(message);
  }

  hear(rest) {
    const [picture, place] = rest.split(".");
    const packets = this.packets[Number(picture) % this.packets.length];
    const some = place === "*" ? packets : packets.slice(Number(place), Number(place) + 1);
    for (const packet of some) this.take(packet);
  }

  changed(rest) {
    const [draw, ...edits] = rest.split(" ");
    const packets = this.packets.at(-1);
    this.take(edited(packets[Number(draw) % packets.length], edits));
  }

  bytes(rest) {
    this.take(bytesOf(rest));
  }

  play() {
    const played = this.receiving.playLent();
    print("played", played.mark, played.number, orNone(played.reference), hex(played.message), sumOf(played.picture));
    this.keep(played.message);
  }

  come(datagram, now) {
    for (let verdict = "ahead"; verdict === "ahead"; ) {
      const it = this.source
        ? this.following.arrivalOf(this.source, datagram, now)
        : this.following.arrival(datagram, now);
      verdict = it.verdict;
      const taken = [it.cause, it.run, it.source, it.ahead].map(orNone);
      const heard = [orNone(it.kind), it.fault?.number ?? 0, it.at, hex(it.message)];
      print("arrived", verdict, ...taken, Number(it.isRival), ...heard);
      this.keep(it.message);
      this.playDue(now);
    }
  }

  playDue(now) {
    for (let turn = this.following.play(now); turn; turn = this.following.play(now)) {
      const { run, source, mark, number, reference, message } = turn;
      print("turn", run, source, mark, number, orNone(reference), hex(message), sumOf(this.following.shown()));
      this.keep(message);
    }
    print("due", ...[this.following.due(), ...RUNS.map((run) => this.following.source(run))].map(orNone));
  }

  arrive(rest) {
    const [which, source, ticks, now] = rest.split(" ");
    const [picture, place] = which.split(".");
    const packets = this.packets[Number(picture) % this.packets.length];
    const some = place === "*" ? packets : packets.slice(Number(place), Number(place) + 1);
    for (const packet of some) this.come(ofStream(packet, source, ticks), BigInt(now));
  }

  garble(rest) {
    const [draw, source, ticks, now, ...edits] = rest.split(" ");
    const packets = this.packets.at(-1);
    this.come(edited(ofStream(packets[Number(draw) % packets.length], source, ticks), edits), BigInt(now));
  }

  datagram(rest) {
    const [now, text] = rest.split(" ");
    this.come(bytesOf(text), BigInt(now));
  }

  only(rest) {
    this.source = Number(rest);
  }

  turn(rest) {
    this.playDue(BigInt(rest));
  }

  ask(rest) {
    const [trip, now] = rest.split(" ").map(BigInt);
    print("asked", ...this.following.missing(trip, now).flatMap(({ packet, following }) => [packet, following]));
  }

  bye(rest) {
    const [source, now] = rest.split(" ");
    this.following.bye(Number(source), BigInt(now));
    this.playDue(BigInt(now));
  }

  anew(rest) {
    this.following.reset(BigInt(rest));
    this.playDue(BigInt(rest));
    print("shown", sumOf(this.following.shown()));
  }

  back(rest) {
    this.note(this.said[Number(rest)]);
  }

  last(rest) {
    if (this.said.length) this.note(this.said.at(-1 - (Number(rest) % this.said.length)));
  }

  reply(rest) {
    this.note(bytesOf(rest));
  }

  note(message) {
    const reply = this.sending.feedback(message);
    print("noted", reply.kind, reply.fault?.number ?? 0, this.sending.known());
  }

  target(rest) {
    this.sending.target(Number(rest));
  }

  forget() {
    this.sending.forget();
  }

  reset(rest) {
    this.counts();
    this.sending.reset(Number(rest));
    this.receiving.reset();
    this.packets = [];
  }

  counts() {
    const numbers = ([name, count]) => WORDS[name]?.map((word) => count[word]) ?? count;
    for (const end of this.ends) print("counted", ...Object.entries(end.statistics()).flatMap(numbers));
  }
}

await load(process.env.H263RPS_MODULE ? new URL(process.env.H263RPS_MODULE, "file:") : undefined);
const run = new Run();
for (const step of readFileSync(process.argv[2], "utf8").split("\n")) if (step) run.step(step);
run.counts();
flush();
