#!/usr/bin/env node
/* Lost packets that are asked for and sent again, in made time: half a minute of pictures over a way that loses 5 %, there and
   back. Where the round trip fits into the wait nearly all pictures are exact; where it doesn't nothing changes. */

import { readFileSync } from "node:fs";
import { Params, Sender, load } from "../../library/web/h263rps.js";
import { LEAD, LIMIT, RATE, SHORTEST_PACKET, SLOTS, TICKS, now } from "../src/call_settings.js";
import { Receiving } from "../src/receiving.js";
import { Repairs, SentPackets, isNack } from "../src/repair.js";
import { chanceOf, made, pass } from "./made_time.mjs";

const SECONDS = 30;
const LOSS = 0.05;
const WAIT = 0.1;
const TARGET = 1800;

class Call {
  // What is lost at first is the same in each call.
  #chance = chanceOf(7);
  #other = chanceOf(8);
  #sender = new Sender(Params.of("qcif", { target: TARGET, limit: LIMIT, slots: SLOTS, lead: LEAD }));
  #sent = new SentPackets(WAIT);
  #repairs = new Repairs(this.#sent, TARGET * RATE);
  #receiving;
  asked = 0;
  bytes = 0;

  constructor(way, isRepaired) {
    Object.assign(this, { way, isRepaired, begin: now() });
    const say = (bytes) => this.#carry(this.#other, () => this.#heard(bytes));
    this.#receiving = new Receiving(WAIT, { say, ask: say, carried: () => {}, tell: () => {}, paint: () => {} });
  }

  /** Something goes over the way, if it isn't lost. */
  #carry(chance, act) {
    if (chance() >= LOSS) setTimeout(act, 1000 * this.way);
  }

  #send(packets, chance) {
    for (const packet of packets) {
      this.bytes += packet.length;
      this.#carry(chance, () => this.#receiving.take(packet));
    }
  }

  #heard(bytes) {
    const view = new DataView(bytes.buffer);
    if (bytes.length < SHORTEST_PACKET) this.#sender.feedback(bytes);
    else if (!isNack(view)) throw new Error("neither a message nor what asks for packets");
    else this.#asked(view);
  }

  #asked(nack) {
    this.asked++;
    if (this.isRepaired) this.#send(this.#repairs.asked(nack, now()), this.#other);
  }

  picture(number) {
    const picture = new Uint8Array(38016).map((_, at) => (at + 3 * number) & 127);
    const packets = this.#sender.packets(this.#sender.code(picture));
    for (const packet of packets) {
      new DataView(packet.buffer).setUint32(4, Math.round((now() - this.begin) * TICKS));
      this.#sent.keep(packet, now());
    }
    this.#send(packets, this.#chance);
  }

  /** What became of the pictures. */
  end() {
    const { exact, patched, held } = this.#receiving.played;
    const share = (100 * exact) / (exact + patched + held);
    const { asked, bytes } = this;
    const { again } = this.#repairs;
    this.#receiving.close();
    this.#sent.close();
    this.#sender.close();
    return { share, asked, again, bytes };
  }
}

function called(way, isRepaired) {
  const call = new Call(way, isRepaired);
  const begin = made.time;
  const pictures = Math.round(SECONDS * RATE);
  for (let number = 0; number < pictures; number++) {
    made.acts.push({ id: made.next++, act: () => call.picture(number), at: begin + (1000 * number) / RATE });
  }
  pass();
  const ended = call.end();
  const { share, asked, again, bytes } = ended;
  const words = isRepaired ? `${again} packets sent again` : "without repair";
  console.log(`round trip ${Math.round(2000 * way)} ms, wait ${1000 * WAIT} ms: ${share.toFixed(1)} % exact, asked ${asked} times, ${words}, ${bytes} bytes`);
  return ended;
}

function must(isSo, words) {
  if (isSo) return;
  console.error(words);
  process.exitCode = 1;
}

await load(readFileSync(process.env.H263RPS_MODULE));
const [near, nearAlone, far, farAlone] = [[0.025, true], [0.025, false], [0.15, true], [0.15, false]].map((it) => called(...it));
must(near.share >= 99, "a round trip of 50 ms: at least 99 % are wanted");
must(nearAlone.share < 96, "without repair fewer must be exact, or this shows nothing");
must(Math.abs(far.share - farAlone.share) < 1, "a round trip beyond the wait: repair must change nothing");
must(far.asked <= 24, "a round trip beyond the wait: what is asked for in vain is hardly asked for again");
must(far.again === 0, "a round trip beyond the wait: no packet may be sent again");
