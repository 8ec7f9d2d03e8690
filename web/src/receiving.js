/**
 * The receiving side: datagrams to pictures. Of which stream and picture a packet is, and when that is played, the library's
 * session says, which is proved; here are its clock and its timer, and who is told what.
 * @module
 */

import { CLOCKS, Params, Refused, Session, packetStart } from "../../library/web/h263rps.js";
import { LEAD, RATE_OF, SLOTS, nanoseconds, now } from "./call_settings.js";
import { ASKED_TWICE, RepairTrip, nackOf } from "./repair.js";

export class Receiving {
  #session = null;
  #start = null;
  #timer = null;
  #record;
  #trip = new RepairTrip();
  #carriedOf = null;
  /** Datagrams that weren't heard. */
  dropped = 0;
  /** Pictures that were shown, by their marks. */
  played = { exact: 0, patched: 0, held: 0 };

  /**
   * With a wait in seconds. It calls `say(message)`; `ask(nack)`, which asks for packets again; `carried(message)` for what
   * pictures that come have in their headers; `tell(turn)` for each picture of the stream that is followed; and
   * `paint(picture, format)` for the last one of those that are due at once. A record may be kept.
   */
  constructor(wait, { say, ask, carried, tell, paint }, record = null) {
    Object.assign(this, { wait, say, ask, carried, tell, paint });
    this.#record = record;
  }

  /** A datagram came. */
  take(datagram) {
    if (!this.#session && !this.#begin(datagram)) {
      this.dropped++;
      return;
    }
    const seconds = now();
    const time = nanoseconds(seconds);
    let verdict;
    do {
      const arrived = this.#session.arrival(datagram, time);
      ({ verdict } = arrived);
      if (verdict === "heard") this.#hear(datagram, arrived);
      this.#playDue(time);
    } while (verdict === "ahead");
    this.dropped += verdict !== "heard";
    if (verdict === "heard") this.#repair(datagram, seconds);
  }

  /** How long a picture waits, in seconds. A session's wait is that of its start: answers whether one began anew. */
  setWait(wait) {
    if (wait === this.wait) return false;
    this.wait = wait;
    if (!this.#session) return false;
    this.close();
    this.#session = this.#started();
    return true;
  }

  /** What comes from now on isn't recorded. */
  endRecord() {
    this.#record?.end();
    this.#record = null;
  }

  close() {
    clearTimeout(this.#timer);
    this.#record?.end();
    this.#session?.close();
    this.#session = null;
  }

  /** Begins in the first packet's format and clock: the other side chooses them. */
  #begin(datagram) {
    this.#start = pictureStart(datagram);
    if (!this.#start) return false;
    this.#record?.receives(this.#start);
    this.#session = this.#started();
    return true;
  }

  #started() {
    const { format, clock } = this.#start;
    const params = Params.of(format, { clock: CLOCKS[clock], slots: SLOTS, lead: LEAD });
    return new Session(params, { ...RATE_OF, wait: nanoseconds(this.wait) });
  }

  #hear(datagram, { run, kind, message }) {
    this.#record?.heard(datagram, kind, message);
    if (message.length) this.say(message);
    if (run === "followed") this.#takeCarried(packetStart(datagram));
  }

  /** Each packet of a picture has its messages: they are taken once. */
  #takeCarried({ temporalReference, messages }) {
    if (temporalReference === this.#carriedOf) return;
    this.#carriedOf = temporalReference;
    messages.forEach((message) => this.carried(message));
  }

  /** Asks for what is missing and can still come in time. */
  #repair(datagram, seconds) {
    this.#trip.came((datagram[2] << 8) | datagram[3], seconds);
    const roundTrip = nanoseconds(this.#trip.seconds(seconds));
    const fields = this.#session.missing(roundTrip, nanoseconds(seconds));
    if (!fields.length) return;
    this.#trip.asked(fields, seconds);
    const nack = nackOf(fields);
    this.ask(nack.slice());
    setTimeout(() => this.#session && this.ask(nack), ASKED_TWICE);
  }

  #playDue(time) {
    let isShown = false;
    for (let turn = this.#session.play(time); turn; turn = this.#session.play(time)) {
      this.#record?.played(turn);
      if (turn.message.length) this.say(turn.message);
      if (turn.run !== "followed") continue;
      isShown = true;
      this.played[turn.mark]++;
      this.tell(turn);
    }
    // What is lent is good until the next call: it is painted before anything else.
    if (isShown) this.paint(this.#session.shown(), this.#start.format);
    this.#wake();
  }

  /** Comes back when something is due. */
  #wake() {
    clearTimeout(this.#timer);
    const due = this.#session.due();
    if (due === null) return;
    const left = Math.ceil(Number(due - nanoseconds()) / 1e6);
    this.#timer = setTimeout(() => this.#playDue(nanoseconds()), Math.max(0, left));
  }
}

/** What a packet says of its picture; null where it begins as none does. */
function pictureStart(packet) {
  try {
    return packetStart(packet);
  } catch (fault) {
    if (fault instanceof Refused) return null;
    throw fault;
  }
}
