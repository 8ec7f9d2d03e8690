#!/usr/bin/env node
/* A receiving side whose stream comes among junk: datagrams of chance, changed packets and packets of before, up to 20,000
   a second for three seconds. Nothing is thrown, and what came whole and in time is exact. */

import { readFileSync } from "node:fs";
import { Params, Sender, load } from "../../library/web/h263rps.js";
import { LEAD, LIMIT, RATE, SLOTS, TICKS, now } from "../src/call_settings.js";
import { Receiving } from "../src/receiving.js";

const SECONDS = 3;
const JUNK_EACH = Math.round(20_000 / RATE);

await load(readFileSync(process.env.H263RPS_MODULE));
const sender = new Sender(Params.of("qcif", { target: 1800, limit: LIMIT, slots: SLOTS, lead: LEAD }));
const receiving = new Receiving(0.1, {
  say: (message) => sender.feedback(message), ask: () => {}, carried: () => {}, tell: () => {}, paint: () => {},
});
const begin = now();
const old = [];
let spent = 0;
let junk = 0;

/** A picture's packets, with its time. */
function packetsOf(number) {
  const picture = new Uint8Array(38016).map((_, at) => (at + 3 * number) & 127);
  const ticks = Math.round((now() - begin) * TICKS);
  return sender.packets(sender.code(picture)).map((packet) => {
    new DataView(packet.buffer).setUint32(4, ticks);
    return packet;
  });
}

/** What no sender sent so. A change of the header alone, or a whole packet, may be taken: it is left to DTLS. */
function junkOf(kind) {
  const packet = old[Math.floor(Math.random() * old.length)]?.slice();
  if (kind === 0 || !packet) return crypto.getRandomValues(new Uint8Array(12 + Math.floor(Math.random() * 1400)));
  if (kind === 1) return packet.fill(255, 12 + Math.floor(Math.random() * 8));
  return packet.subarray(0, 12 + Math.floor(Math.random() * 4));
}

let sent = 0;
await new Promise((done) => {
  const timer = setInterval(() => {
    if (now() - begin > SECONDS) {
      clearInterval(timer);
      setTimeout(done, 500);
      return;
    }
    const time = performance.now();
    for (let n = 0; n < JUNK_EACH; n++, junk++) receiving.take(junkOf(junk % 3));
    spent += performance.now() - time;
    const packets = packetsOf(sent++);
    for (const packet of packets) receiving.take(packet);
    old.push(...packets);
  }, 1000 / RATE);
});
receiving.close();
const { played: marks } = receiving;
const micros = ((1000 * spent) / junk).toFixed(1);
console.log(`${sent} pictures among ${junk} datagrams of junk, ${micros} us each: ${JSON.stringify(marks)}, ${receiving.dropped} dropped`);
if (marks.exact < 0.9 * sent || receiving.dropped < 0.95 * junk) process.exitCode = 1;
