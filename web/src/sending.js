/**
 * The sending side: pictures to packets, which all other parties are sent alike.
 * @module
 */

import { Group, Params } from "../../library/web/h263rps.js";
import { LEAD, LIMIT, RATE, SLOTS, TARGETS, TICKS, now } from "./call_settings.js";
import { LineRate } from "./line_rate.js";
import { SIZES, covering, fillPlanes } from "./planes.js";
import { Receivers } from "./receivers.js";
import { Repairs, SentPackets } from "./repair.js";

/** A picture that comes sooner after the one before is left out: no stream goes on faster than at its rate. */
const LEAST_STEP = 0.9 / RATE;
/** Times of capture that are kept: one for each temporal reference. */
const KEPT = 256;

export class Sending {
  #group;
  #receivers;
  #finest;
  #planes;
  #pen;
  #began = null;
  #captured = [];
  #sent;
  /** When the last picture was captured. */
  last = -Infinity;
  /** Seconds that the last picture took to become planes, and to be coded. */
  took = { planes: 0, code: 0 };

  /** Pictures of this format, of so many bytes at the most, that wait so many seconds; a record of them may be kept. */
  constructor(format, wait, record = null, target = TARGETS[format]) {
    Object.assign(this, { record, target });
    this.#sent = new SentPackets(wait);
    const [width, height] = SIZES[format];
    Object.assign(this, { width, height });
    const params = Params.of(format, { target, limit: LIMIT, slots: SLOTS, lead: LEAD });
    this.#group = new Group(params);
    this.#receivers = new Receivers(this.#group);
    this.#finest = params.quant;
    this.#planes = new Uint8Array((width * height * 3) / 2);
    this.#pen = new OffscreenCanvas(width, height).getContext("2d", { alpha: false, willReadFrequently: true });
  }

  /** The party at this place is sent what comes from now on. */
  join(place) {
    const line = new LineRate(this.target, this.#finest);
    this.#receivers.join(place, line, new Repairs(this.#sent, this.target * RATE), now());
  }

  leave(place) {
    this.#receivers.leave(place, now());
  }

  /** So many seconds pictures wait from now on. */
  setWait(wait) {
    this.#sent.wait = wait;
  }

  /** What was sent so far is sent nobody again. */
  forgetSent() {
    this.#sent.forget();
  }

  /**
   * The packets of a picture, with messages in its header, and the places to which they go: none where it comes too soon, or
   * where a line has no room for it. The lines of the places `full` take nothing at present.
   */
  packets(source, width, height, { messages = () => [], full = [] } = {}) {
    const time = now();
    if (time - this.last < LEAST_STEP || !this.#mayGo(time, full)) return { packets: [], to: [] };
    this.last = time;
    this.#began ??= time;
    this.#fill(source, width, height);
    const filled = now();
    const { target, places } = this.#receivers;
    this.#group.target(target);
    const coded = this.#group.code(this.#planes, messages());
    this.#captured[coded.number % KEPT] = time;
    const packets = this.#group.packets(coded);
    const to = places.filter((place) => !full.includes(place));
    this.#receivers.sent(coded.number, packets, to, time);
    if (this.record) this.#note(coded, packets, time, target);
    this.took = { planes: filled - time, code: now() - filled };
    const ticks = Math.round((time - this.#began) * TICKS);
    return { packets: packets.map((packet) => this.#kept(stamped(packet, ticks), time)), to };
  }

  /** Whether all who are waited for can take a picture. */
  #mayGo(time, full) {
    const receivers = this.#receivers;
    receivers.settle(time, full);
    return !receivers.inside.some((place) => full.includes(place)) && receivers.hasRoom;
  }

  #kept(packet, time) {
    this.#sent.keep(packet, time);
    return packet;
  }

  /** The packets that a Generic NACK of this party asks for. */
  repeats(place, nack) {
    return this.#receivers.at(place)?.repairs.asked(nack, now()) ?? [];
  }

  #fill(source, width, height) {
    this.#pen.drawImage(source, ...covering(width, height, this.width, this.height), 0, 0, this.width, this.height);
    fillPlanes(this.#pen.getImageData(0, 0, this.width, this.height).data, this.width, this.height, this.#planes);
  }

  /** In how many seconds the next picture comes, if the camera keeps to its rate. */
  get untilNext() {
    return this.last + 1 / RATE - now();
  }

  /** When the picture was captured that the other end knows by this number: one that joins late counts from less. */
  captured(number) {
    return this.#captured[number % KEPT];
  }

  #note({ number, reference }, packets, time, target) {
    const [place] = this.#receivers.inside;
    this.record.line("targets", `${target} ${this.#receivers.at(place).line.kbits.toFixed(0)}`);
    this.record.entry("send", "S", time);
    for (const packet of packets) this.record.entry("packets", "K", now(), packet);
    this.record.line("send", reference === null ? `${number} intra` : `${number} from ${reference}`);
  }

  /** Takes a message of this party. */
  feedback(place, message) {
    const member = this.#receivers.at(place);
    if (!member) return;
    this.record?.entry("send", "B", now(), message);
    this.#receivers.said(place, now());
    if (member.isIn) this.#group.feedback(place, message);
    member.line.told(message);
  }

  /** The next picture refers to none before it. */
  forget() {
    this.#receivers.forget();
  }

  get statistics() {
    return { ...this.#group.statistics(), again: this.#receivers.again };
  }

  close() {
    this.#group.close();
    this.#sent.close();
    this.#receivers.close();
  }
}

/** The packet with a time of capture in the place of RTP's timestamp. */
function stamped(packet, ticks) {
  new DataView(packet.buffer, packet.byteOffset).setUint32(4, ticks % 2 ** 32);
  return packet;
}
