/**
 * Who receives what one sender sends: up to three other parties, each at a place, with a line of its own. A picture refers to
 * the newest one that all of them have. Who says nothing for a while, is known to have none of the last pictures, or takes none
 * would hold the others back: it leaves the group, is sent pictures as before, and joins again when it says something.
 * @module
 */

/** Seconds of a stream for which one is waited for. A longer step between two pictures counts as so much: nobody sent. */
const PATIENCE = 1;
const LONGEST_STEP = 0.2;
/** The longest time after which one that left may join again, which is twice the one before each time. */
const LONGEST_PAUSE = 8;

class Member {
  isIn = false;
  /** When it came or went, and for how long it is away. */
  since = 0;
  pause = PATIENCE;
  /** Seconds for which it said nothing, had none of the last pictures, and took none. */
  silent = 0;
  late = 0;
  full = 0;

  constructor(line, repairs) {
    Object.assign(this, { line, repairs });
  }

  get holdsBack() {
    return Math.max(this.silent, this.late, this.full) > PATIENCE;
  }
}

export class Receivers {
  #group;
  #members = new Map();
  #offered = 0;
  #sent = 0;

  /** Of a sender for many, or whatever has its `join(place)`, `leave(place)` and `waitingFor()`. */
  constructor(group) {
    this.#group = group;
  }

  /** One begins with the next picture. One that had its place is gone. */
  join(place, line, repairs, time) {
    this.#members.get(place)?.line.close();
    const member = new Member(line, repairs);
    this.#members.set(place, member);
    this.#enter(place, member, time);
  }

  leave(place, time) {
    const member = this.#members.get(place);
    if (!member) return;
    member.line.close();
    this.#members.delete(place);
    this.#group.leave(place);
    // Where nobody else is in the group, whoever is left is.
    if (!this.inside.length) for (const [other, it] of this.#members) this.#enter(other, it, time);
  }

  /** All places, and those of who is in the group. */
  get places() {
    return [...this.#members.keys()];
  }

  get inside() {
    return this.#inside.map(([place]) => place);
  }

  get #inside() {
    return [...this.#members].filter(([, { isIn }]) => isIn);
  }

  at(place) {
    return this.#members.get(place);
  }

  /** All of them are to need an intra picture. */
  forget() {
    for (const place of this.inside) this.#group.join(place);
  }

  /** One said something. */
  said(place, time) {
    const member = this.#members.get(place);
    if (!member) return;
    member.silent = 0;
    if (member.isIn || time - member.since < member.pause) return;
    member.pause = Math.min(2 * member.pause, LONGEST_PAUSE);
    this.#enter(place, member, time);
  }

  /** There is a picture to send, and the lines of the places `full` take none: who holds back leaves, but for the last one. */
  settle(time, full) {
    const step = Math.min(time - this.#offered, LONGEST_STEP);
    this.#offered = time;
    for (const [place, member] of this.#inside) {
      member.full = full.includes(place) ? member.full + step : 0;
      if (member.holdsBack && this.inside.length > 1) this.#go(place, member, time);
      else if (!member.late && time - member.since > PATIENCE) member.pause = PATIENCE;
    }
  }

  /** A picture goes out in these packets, to these places. */
  sent(number, packets, to, time) {
    const step = Math.min(time - this.#sent, LONGEST_STEP);
    this.#sent = time;
    const waited = this.#group.waitingFor();
    for (const place of to) {
      const member = this.#members.get(place);
      member.line.sent(number, packets);
      member.silent += step;
      member.late = place === waited ? member.late + step : 0;
    }
  }

  /** The least of the lines' targets, of those in the group. */
  get target() {
    return Math.min(...this.#inside.map(([, { line }]) => line.target));
  }

  /** Whether all lines have room, of those in the group. */
  get hasRoom() {
    return this.#inside.length > 0 && this.#inside.map(([, { line }]) => line.hasRoom).every(Boolean);
  }

  get again() {
    return [...this.#members.values()].reduce((sum, { repairs }) => sum + repairs.again, 0);
  }

  close() {
    for (const { line } of this.#members.values()) line.close();
    this.#members.clear();
  }

  #enter(place, member, time) {
    Object.assign(member, { isIn: true, since: time, silent: 0, late: 0, full: 0 });
    this.#group.join(place);
  }

  #go(place, member, time) {
    Object.assign(member, { isIn: false, since: time });
    this.#group.leave(place);
  }
}
