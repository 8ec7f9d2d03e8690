/**
 * The rate that the line carries, by the library's rules (docs/LIVE.md, "Following the line"); here are the pictures' numbers.
 * @module
 */

import { Line } from "../../library/web/h263rps.js";
import { RATE, nanoseconds } from "./call_settings.js";

/** The least pictures are so many times smaller than the largest. */
const FLOOR = 30;
/** After so many pictures a temporal reference comes again. */
const REFERENCES = 256;
/** A message's first two bits. */
const MESSAGE_NACK = 2;
const MESSAGE_ACK = 3;

export class LineRate {
  #line;
  #newest = -1;

  /** Of pictures of so many bytes at the most, with which it begins, and with this finest quantiser. */
  constructor(target, finest) {
    const bounds = { first: target, least: Math.ceil(target / FLOOR), most: target, finest };
    this.#line = new Line({ ...bounds, period: Math.round(1e9 / RATE), now: nanoseconds() });
  }

  /** Whether the next frame may go out. */
  get hasRoom() {
    return this.#line.hasRoom(nanoseconds());
  }

  /** The next picture's target, in bytes. */
  get target() {
    return this.#line.target;
  }

  /** Kilobits a second. */
  get kbits() {
    return (8 * this.#line.rate) / 1000;
  }

  /** A picture went out in these packets. */
  sent(number, packets) {
    this.#newest = number;
    const size = packets.reduce((sum, { length }) => sum + length, 0);
    this.#line.sent(number, size, packets.length, nanoseconds());
  }

  /** A message came about the last picture that has its temporal reference. */
  told(message) {
    const kind = message[0] >> 6;
    if (message.length < 3 || (kind !== MESSAGE_ACK && kind !== MESSAGE_NACK)) return;
    const reference = (((message[0] << 16) | (message[1] << 8) | message[2]) >> 11) & 1023;
    const back = (((this.#newest - reference) % REFERENCES) + REFERENCES) % REFERENCES;
    if (back <= this.#newest) this.#line.told(this.#newest - back, kind === MESSAGE_ACK, nanoseconds());
  }

  close() {
    this.#line.close();
  }
}
