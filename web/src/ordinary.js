/**
 * An ordinary coder beside ours, over the same losses: the browser's own VP8, which predicts each picture from the one
 * before. Where one doesn't come whole, the next one that can be shown is a key frame, which is asked for at once. Each of
 * its pictures is shown when ours is, and so much later as it was coded later.
 * @module
 */

import { LIMIT, RATE, TARGETS, now } from "./call_settings.js";
import { SIZES, covering } from "./planes.js";

/** What stands before a packet's bytes: picture, place, count, whether it is a key frame, and its time of capture. */
const HEAD = 20;
/** Seconds between two requests for a key frame, at the least. */
const ASKED_AGAIN = 0.3;
/** Pictures that wait to be shown, at the most. */
const MOST_OPEN = 64;

/** Whether the browser has it, in this size. */
export async function hasOrdinary(format) {
  if (typeof VideoEncoder !== "function" || typeof VideoDecoder !== "function") return false;
  const { supported } = await VideoEncoder.isConfigSupported(settingsOf(format)).catch(() => ({}));
  return Boolean(supported);
}

function settingsOf(format) {
  const [width, height] = SIZES[format];
  const bitrate = Math.round(8 * RATE * TARGETS[format]);
  return { codec: "vp8", width, height, bitrate, framerate: RATE, latencyMode: "realtime" };
}

export class Ordinary {
  #pen;
  #encoder;
  #decoder;
  #count = 0;
  #wantsKey = true;
  #begun = new Map();
  #open = new Map();
  #next = 0;
  #isWhole = false;
  #asked = -Infinity;
  /** Pictures that were shown and held, and the seconds from the capture of the last one to the screen. */
  counts = { shown: 0, held: 0, keys: 0, code: 0, late: 0 };

  /** It calls `send(datagrams)`, `ask()` for a key frame, and `show(frame)`, which closes it. */
  constructor(format, { send, ask, show }) {
    Object.assign(this, { send, ask, show });
    const [width, height] = SIZES[format];
    this.#pen = new OffscreenCanvas(width, height).getContext("2d", { alpha: false });
    this.#encoder = new VideoEncoder({ output: (chunk) => this.#coded(chunk), error: () => {} });
    this.#encoder.configure(settingsOf(format));
    this.#decoder = new VideoDecoder({ output: (frame) => this.#shown(frame), error: () => {} });
    this.#decoder.configure({ codec: "vp8" });
  }

  /** The picture that ours has just taken, which was captured then. */
  code(source, width, height, captured) {
    if (this.#encoder.state !== "configured" || this.#encoder.encodeQueueSize > 2) return;
    const { width: across, height: down } = this.#pen.canvas;
    this.#pen.drawImage(source, ...covering(width, height, across, down), 0, 0, across, down);
    const number = this.#count++;
    const frame = new VideoFrame(this.#pen.canvas, { timestamp: number });
    this.#begun.set(number, { captured, time: now() });
    this.#encoder.encode(frame, { keyFrame: this.#wantsKey });
    this.#wantsKey = false;
    frame.close();
  }

  /** The other end asks for a key frame. */
  asked() {
    this.#wantsKey = true;
  }

  close() {
    for (const coder of [this.#encoder, this.#decoder]) if (coder.state !== "closed") coder.close();
  }

  /** A picture is coded: its packets, of the same length as ours at the most. */
  #coded(chunk) {
    const number = chunk.timestamp;
    const { captured, time } = this.#begun.get(number);
    this.#begun.delete(number);
    this.counts.code = now() - time;
    this.counts.keys += chunk.type === "key";
    const bytes = new Uint8Array(chunk.byteLength);
    chunk.copyTo(bytes);
    const count = Math.max(1, Math.ceil(bytes.length / (LIMIT - HEAD)));
    this.send(Array.from({ length: count }, (_, place) => {
      const part = bytes.subarray(place * (LIMIT - HEAD), (place + 1) * (LIMIT - HEAD));
      const packet = new Uint8Array(HEAD + part.length);
      const head = new DataView(packet.buffer);
      head.setUint32(0, number);
      [place, count, Number(chunk.type === "key")].forEach((word, at) => head.setUint16(4 + 2 * at, word));
      head.setFloat64(12, captured);
      packet.set(part, HEAD);
      return packet;
    }));
  }

  /** A packet came. */
  take(packet) {
    const head = new DataView(packet.buffer, packet.byteOffset);
    const number = head.getUint32(0);
    if (number < this.#next) return;
    const [place, count, isKey] = [4, 6, 8].map((at) => head.getUint16(at));
    const time = head.getFloat64(12);
    if (!this.#open.has(number) && this.#open.size < MOST_OPEN) {
      this.#open.set(number, { parts: new Array(count), left: count, isKey, time });
    }
    const picture = this.#open.get(number);
    if (!picture || picture.parts[place]) return;
    picture.parts[place] = packet.subarray(HEAD);
    picture.left--;
  }

  /** Ours of this time of capture is shown. */
  follow(captured) {
    setTimeout(() => this.#playUntil(captured), 1000 * this.counts.code);
  }

  /** Plays up to the last one that came of those that were captured by then. */
  #playUntil(captured) {
    if (this.#decoder.state !== "configured") return;
    const due = [...this.#open].filter(([, { time }]) => time <= captured).map(([number]) => number);
    for (const last = Math.max(...due); this.#next <= last; ) this.#play(this.#next++);
  }

  #play(number) {
    const picture = this.#open.get(number);
    this.#open.delete(number);
    this.#isWhole = Boolean(picture) && picture.left === 0 && (this.#isWhole || Boolean(picture.isKey));
    if (!this.#isWhole) {
      this.counts.held++;
      this.#askKey();
      return;
    }
    this.counts.shown++;
    const type = picture.isKey ? "key" : "delta";
    this.#decoder.decode(new EncodedVideoChunk({ type, timestamp: Math.round(1e6 * picture.time), data: joinedParts(picture.parts) }));
  }

  #askKey() {
    if (now() - this.#asked < ASKED_AGAIN) return;
    this.#asked = now();
    this.ask();
  }

  #shown(frame) {
    this.counts.late = now() - frame.timestamp / 1e6;
    this.show(frame);
  }
}

function joinedParts(parts) {
  const bytes = new Uint8Array(parts.reduce((sum, part) => sum + part.length, 0));
  parts.reduce((at, part) => (bytes.set(part, at), at + part.length), 0);
  return bytes;
}
