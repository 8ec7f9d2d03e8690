/**
 * Packets that were lost: asked for in a Generic NACK (RFC 4585, 6.2.1), which goes back as messages do, and sent again.
 * @module
 */

import { Repeats, SSRC } from "../../library/web/h263rps.js";
import { Budget } from "./budget.js";
import { LIMIT, RATE } from "./call_settings.js";

/** The first two bytes of such a packet: version 2, format 1, transport feedback. No RTP packet of a call begins so. */
const NACK = 0x81cd;
/** Bytes before its fields, and of a field; and the most fields: what a session can ask for at once, and one more. */
const NACK_HEAD = 12;
const NACK_FIELD = 4;
const MOST_FIELDS = 65;
/** Packets that the sending side keeps: of the largest pictures those of a second and more. */
const KEPT_PACKETS = 512;
/** So many milliseconds later it is asked a second time, since what asks may be lost, too. */
export const ASKED_TWICE = 5;
/** By so many pictures the shortest time on the way may be too long. */
const LATE_PICTURES = 2;
/** Within so many seconds a packet is sent again once. */
const ANSWERED = 0.02;
/** Seconds that a packet takes that is asked for, before the first one came. */
const FIRST_TRIP = 0.02;
/** So many trips are compared. */
const TRIPS = 8;
/** A trip that was measured so many seconds ago is old. */
const OLD_TRIP = 2;
/**
 * Nothing is sent again that would come too late, so then no answer tells how long one takes. After so many requests in a row
 * in vain there is one in so many seconds.
 */
const VAIN = 8;
const REST = 10;
/** A request that is so many seconds old is forgotten. */
const OLD_REQUEST = 4;

/** A Generic NACK with these fields. */
export function nackOf(fields) {
  const bytes = new Uint8Array(NACK_HEAD + NACK_FIELD * fields.length);
  const view = new DataView(bytes.buffer);
  view.setUint16(0, NACK);
  view.setUint16(2, bytes.length / 4 - 1);
  view.setUint32(4, SSRC);
  view.setUint32(8, SSRC);
  fields.forEach(({ packet, following }, n) => {
    view.setUint16(NACK_HEAD + NACK_FIELD * n, packet);
    view.setUint16(NACK_HEAD + NACK_FIELD * n + 2, following);
  });
  return bytes;
}

/** Whether this is a Generic NACK of the call's stream, by a DataView of all its bytes. */
export function isNack(view) {
  const fields = (view.byteLength - NACK_HEAD) / NACK_FIELD;
  if (!Number.isInteger(fields) || fields < 1 || fields > MOST_FIELDS) return false;
  return view.getUint16(0) === NACK && view.getUint16(2) === view.byteLength / 4 - 1 && view.getUint32(8) === SSRC;
}

/** The sequence numbers for which a field asks. */
function sequencesOf({ packet, following }) {
  const after = Array.from({ length: 16 }, (_, n) => n).filter((n) => following & (1 << n));
  return [packet, ...after.map((n) => (packet + n + 1) % 65536)];
}

/** The sequence numbers for which a Generic NACK asks. */
function askedIn(view) {
  const places = Array.from({ length: (view.byteLength - NACK_HEAD) / NACK_FIELD }, (_, n) => NACK_HEAD + NACK_FIELD * n);
  return places.flatMap((at) => sequencesOf({ packet: view.getUint16(at), following: view.getUint16(at + 2) }));
}

/** The packets that went out last: an older one than its picture waits would fill the line for nothing. */
export class SentPackets {
  #repeats = newRepeats();
  /** When they went out, by their sequence numbers, the oldest first. */
  #times = new Map();

  /** Of pictures that wait so many seconds. */
  constructor(wait) {
    this.wait = wait;
  }

  keep(packet, time) {
    for (const [sequence, when] of this.#times) {
      if (this.#isInTime(when, time)) break;
      this.#times.delete(sequence);
    }
    const sequence = new DataView(packet.buffer, packet.byteOffset).getUint16(2);
    this.#times.delete(sequence);
    this.#times.set(sequence, time);
    this.#repeats.keep(packet);
  }

  /** A copy of the newest one with this sequence number; null where it isn't kept, or its picture waits no longer. */
  find(sequence, time) {
    const when = this.#times.get(sequence) ?? -Infinity;
    return this.#isInTime(when, time) ? this.#repeats.find(sequence) : null;
  }

  #isInTime(when, time) {
    return when >= time - this.wait - LATE_PICTURES / RATE;
  }

  /** None of them is kept any longer. */
  forget() {
    this.close();
    this.#repeats = newRepeats();
    this.#times.clear();
  }

  close() {
    this.#repeats.close();
  }
}

const newRepeats = () => new Repeats({ count: KEPT_PACKETS, longest: LIMIT });

/** What one receiver is sent again of them: no more bytes a second than the stream may have. */
export class Repairs {
  #sent;
  #budget;
  #answered = new Map();
  /** How many were sent again. */
  again = 0;

  /** Of what was sent, in a stream that has so many bytes a second. */
  constructor(sent, rate) {
    this.#sent = sent;
    this.#budget = new Budget(rate);
  }

  /** The packets for which a Generic NACK asks at this time, as far as they are kept. */
  asked(view, time) {
    for (const [sequence, when] of this.#answered) {
      if (time - when > ANSWERED) this.#answered.delete(sequence);
    }
    const packets = askedIn(view).map((sequence) => this.#again(sequence, time)).filter((packet) => packet);
    this.again += packets.length;
    return packets;
  }

  #again(sequence, time) {
    if (this.#answered.has(sequence)) return null;
    const packet = this.#sent.find(sequence, time);
    if (!packet || !this.#budget.take(packet.length)) return null;
    this.#answered.set(sequence, time);
    return packet;
  }
}

/** How long it takes until a packet comes that is asked for. */
export class RepairTrip {
  #asked = new Map();
  #trips = [];
  #last = null;
  #unanswered = 0;
  #lastAsked = -Infinity;

  /** It is asked for packets, at this time in seconds. */
  asked(fields, time) {
    this.#lastAsked = time;
    this.#unanswered++;
    for (const [sequence, since] of this.#asked) {
      if (time - since > OLD_REQUEST) this.#asked.delete(sequence);
    }
    for (const sequence of fields.flatMap(sequencesOf)) {
      if (!this.#asked.has(sequence)) this.#asked.set(sequence, time);
    }
  }

  /** A packet came. Which request it answers isn't known where it was asked for twice: the first one counts. */
  came(sequence, time) {
    const since = this.#asked.get(sequence);
    if (since === undefined) return;
    this.#asked.delete(sequence);
    this.#trips = [...this.#trips.slice(1 - TRIPS), time - since];
    this.#last = time;
    this.#unanswered = 0;
  }

  /**
   * Seconds, at this time: the least of the last ones, since the others may have been asked for twice. Of an old one half,
   * and half again as it grows older, so that a shorter way is found. Longer than any wait where requests are in vain.
   */
  seconds(time) {
    if (this.#unanswered >= VAIN && time - this.#lastAsked < REST) return REST;
    if (!this.#trips.length) return FIRST_TRIP;
    return Math.min(...this.#trips) / 2 ** Math.floor((time - this.#last) / OLD_TRIP);
  }
}
