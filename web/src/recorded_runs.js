/**
 * What a session heard, played and said, as runs of `recv`: each is what one receiver makes of its log. A run of the session
 * that begins anew begins one anew here, as the number of its next picture tells.
 * @module
 */

import { packetStart } from "../../library/web/h263rps.js";
import { now } from "./call_settings.js";

/** A run begins so many pictures before that of the packet that began it. */
const BEFORE = 2;

export class RecordedRuns {
  #record;
  #start = null;
  #run = null;
  // The number of the run's next picture.
  #next = null;
  // What was heard since the last play: of this run, or already of the next one.
  #waiting = [];

  /** As a part of this record. */
  constructor(record) {
    this.#record = record;
  }

  /** In the format and clock of what comes. */
  receives(start) {
    this.#start = start;
  }

  /** A packet was heard, with this answer and message. */
  heard(packet, kind, message) {
    const { temporalReference } = packetStart(packet);
    this.#waiting.push({ time: now(), packet, message, reference: kind === "late" ? null : temporalReference });
  }

  /** A picture was played. */
  played({ number, mark, message }) {
    if (number !== this.#next) this.#begin(number);
    this.#write();
    const time = now();
    this.#record.entry(`recv${this.#run}`, "P", time);
    this.#record.line(`recv${this.#run}`, `${number} ${mark}`);
    this.#record.time(`shown${this.#run}`, time);
    this.#say(message, time);
    this.#next = number + 1;
  }

  /** The session is over. */
  end() {
    if (this.#run !== null) this.#write();
    this.#waiting = [];
    this.#run = this.#next = null;
  }

  #begin(number) {
    const came = this.#waiting;
    const isFirst = ({ reference }) => reference !== null && Math.max(0, reference - BEFORE) === number;
    const place = this.#run === null ? 0 : came.findIndex(isFirst);
    const rest = place < 0 ? [] : came.slice(place);
    this.#waiting = came.slice(0, came.length - rest.length);
    this.end();
    this.#waiting = rest;
    const { format, clock } = this.#start;
    this.#run = this.#record.begins(format, clock, number);
  }

  #write() {
    for (const { time, packet, message } of this.#waiting) {
      this.#record.entry(`recv${this.#run}`, "K", time, packet);
      this.#say(message, time);
    }
    this.#waiting = [];
  }

  #say(message, time) {
    if (message.length) this.#record.entry(`messages${this.#run}`, "B", time, message);
  }
}
