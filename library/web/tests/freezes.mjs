#!/usr/bin/env node
/* freezes.mjs: what a call must not freeze in, in made time: its way gets longer, packets are lost, one says a wrong time. Of
   the pictures that came whole those of the two seconds after may be wrong, and no later one. */

import { Params, Sender, Session, load } from "../h263rps.js";

const SECOND = 1_000_000_000n;
const TICKS = 90_000;
const SIZE = 18432;
/** Seconds: a call's length, when its way changes, until when all is exact again, and a message's way back. */
const LONG = 20;
const STEP = 10;
const SOON = 2;
const BACK = 0.03;

/** A picture of one packet, or of noise that has several. */
const pictureOf = (number, isLarge) =>
  new Uint8Array(SIZE).map((_, at) => (isLarge ? Math.imul(at + 7919 * number, 2654435761) >>> 24 : 64 + (number % 128)));

/** Numbers from 0 to 1, always the same. */
function* draws(seed) {
  for (let state = seed; ; ) {
    state = (Math.imul(state, 1664525) + 1013904223) >>> 0;
    yield state / 2 ** 32;
  }
}

class Call {
  #events = [];
  #now = 0;
  #draws = draws(5);
  lost = new Set();
  exact = new Set();

  constructor({ rate, second = 1, wait = 0.1, longer = 0, loss = 0, ahead = 0, isLarge = false }) {
    const period = second / rate;
    Object.assign(this, { period, longer, loss, ahead, isLarge });
    const lead = Math.min(62, Math.floor(wait / period) + 4);
    const params = Params.of("sub-qcif", { lead, slots: lead + 14, quant: 31 });
    this.sender = new Sender(params);
    this.session = new Session(params, { rate, second, wait: this.#time(wait) });
    this.pictures = Math.floor(LONG / period);
    for (let number = 0; number < this.pictures; number++) this.#at(number * period, () => this.#capture(number));
  }

  #time(seconds) {
    return BigInt(Math.round(Number(SECOND) * seconds));
  }

  #at(time, act) {
    const place = this.#events.findLastIndex((it) => it.time <= time) + 1;
    this.#events.splice(place, 0, { time, act });
  }

  #capture(number) {
    const now = this.#now;
    const packets = this.sender.packets(this.sender.code(pictureOf(number, this.isLarge)));
    const isFalse = number === Math.round(STEP / this.period);
    packets.forEach((packet, place) => {
      const said = now + (isFalse && place === 0 ? this.ahead : 0);
      new DataView(packet.buffer).setUint32(4, Math.round(TICKS * said));
      const way = 0.03 + 0.001 * place + (now >= STEP ? this.longer : 0);
      if (this.#draws.next().value < this.loss) this.lost.add(number);
      else this.#at(now + way, () => this.#come(packet));
    });
  }

  #come(packet) {
    let arrived;
    do {
      arrived = this.session.arrival(packet, this.#time(this.#now));
      this.#say(arrived.message);
      this.#play();
    } while (arrived.verdict === "ahead");
  }

  /** Plays what is due by now. */
  #play() {
    for (let turn; (turn = this.session.play(this.#time(this.#now))); ) {
      this.#say(turn.message);
      if (turn.mark === "exact") this.exact.add(turn.number);
    }
  }

  #say(message) {
    if (message.length) this.#at(this.#now + BACK, () => this.sender.feedback(message));
  }

  /** Does what there is to do, each at its time, and plays when something is due. */
  run() {
    for (;;) {
      const due = this.session.due();
      const when = due === null ? Infinity : Math.max(Number(due) / Number(SECOND), this.#now);
      const next = this.#events[0]?.time ?? Infinity;
      if (Math.min(when, next) === Infinity) return this;
      this.#now = Math.min(when, next);
      if (next <= when) this.#events.shift().act();
      else {
        // A time in seconds may be a nanosecond early.
        this.#now = Math.max(this.#now, Number(due + 1n) / Number(SECOND));
        this.#play();
      }
    }
  }

  /** Of the pictures from this one on that came whole, but for the last ones, how many there are, and are exact. */
  counts(first = 0) {
    const numbers = Array.from({ length: this.pictures - 3 - first }, (_, at) => first + at).filter((it) => !this.lost.has(it));
    return [numbers.length, numbers.filter((number) => this.exact.has(number)).length];
  }
}

const MANY = { rate: 30000, second: 1001 };
await load(process.env.H263RPS_MODULE ? new URL(process.env.H263RPS_MODULE, "file:") : undefined);
const calls = {
  "5 a second, 30 to 250 ms": { rate: 5, longer: 0.22 },
  "5 a second of several packets, 30 to 250 ms": { rate: 5, longer: 0.22, isLarge: true },
  "1 a second, 30 to 280 ms": { rate: 1, longer: 0.25 },
  "10 a second, 30 to 1,030 ms": { rate: 10, longer: 1 },
  "30 a second, 30 % lost, 30 to 250 ms": { ...MANY, longer: 0.22, loss: 0.3 },
  "30 a second of several packets, 10 % lost, 30 to 250 ms": { ...MANY, longer: 0.22, loss: 0.1, isLarge: true },
  "30 a second, a time 1.9 s ahead": { ...MANY, ahead: 1.9 },
  "30 a second of several packets, a time 1.9 s ahead": { ...MANY, ahead: 1.9, isLarge: true },
  "5 a second of several packets, a time 1.9 s ahead": { rate: 5, ahead: 1.9, isLarge: true },
  "30 a second, no wait, 30 to 280 ms": { ...MANY, wait: 0, longer: 0.25 },
};
for (const [name, words] of Object.entries(calls)) {
  const call = new Call(words).run();
  const soon = Math.max(2, Math.round(SOON / call.period));
  const [before, later] = [call.counts(), call.counts(Math.round(STEP / call.period) + soon)];
  const isWhole = later[0] === later[1] && before[0] - before[1] <= soon && later[0] > 3;
  console.log(`${name}: ${before[1]} of ${before[0]} exact, ${later[1]} of ${later[0]} from two seconds after on`);
  if (!isWhole) process.exitCode = 1;
}
