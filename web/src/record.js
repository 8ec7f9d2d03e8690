/**
 * A call's record: what both ends read and wrote, with times, as the folder that docs/LIVE.md ("A recorded call")
 * describes, but for its videos. `h263rps recv` makes those anew of the logs. Kept in memory, up to a limit.
 * @module
 */

import { LEAD, LIMIT, RATE_TEXT, SLOTS } from "./call_settings.js";
import { archive } from "./tar.js";

/** Bytes that a record takes at the most: some ten minutes of the largest pictures both ways. */
const MOST_RECORDED = 256 << 20;
/** What an entry costs besides its bytes. */
const ENTRY_COST = 64;

const textBytes = (text) => new TextEncoder().encode(text);

/** An entry of a log: its letter, a length with the high byte first, and its bytes. */
function entryOf(letter, body) {
  const bytes = new Uint8Array(3 + body.length);
  bytes.set([letter.charCodeAt(0), body.length >> 8, body.length & 255]);
  bytes.set(body, 3);
  return bytes;
}

export class Record {
  #parts = new Map();
  #size = 0;
  #isCut = false;
  #facts;
  #recv = [];

  /**
   * Of a call that begins at this time. `settings` are what is said of it: party, format, wait, target, network; and
   * `sent`, `received`: the numbers by which each stream is known in the folders of both sides.
   */
  constructor(began, settings) {
    Object.assign(this, { began, settings });
    const { party, format, wait, target, network } = settings;
    this.#facts = {
      version: 1, began: new Date().toISOString().replace("Z", "+00:00"), party, format, rate: RATE_TEXT,
      clock: "standard", messages: 1, wait, lead: LEAD, slots: SLOTS, target, adapts: true, network,
    };
  }

  /** One more entry of send, packets, recv or messages; a capture or a play has no bytes. */
  entry(log, letter, time, body = new Uint8Array()) {
    this.#add(`${log}.log`, entryOf(letter, body));
    this.time(log, time);
  }

  /** A line of the report of send, or of recv. */
  line(end, text) {
    this.#add(`${end}.txt`, textBytes(`${text}\n`));
  }

  /** The time of one more entry, or picture, of a file. */
  time(file, time) {
    this.#add(`${file}.times`, textBytes(`${(time - this.began).toFixed(6)}\n`));
  }

  /** A run of the receiver begins, at the picture of this number: answers what its files' names end in. */
  begins(format, clock, joined) {
    this.#facts.format = format;
    this.#facts.clock = clock;
    const end = this.#recv.length ? `-${this.#recv.length + 1}` : "";
    this.#recv.push({
      log: `recv${end}.log`, video: `shown${end}.y4m`, wire: `messages${end}.log`, report: `recv${end}.txt`,
      source: this.settings.received, joined,
      options: [`--format=${format}`, `--clock=${clock}`, `--slots=${SLOTS}`, `--lead=${LEAD}`],
    });
    // A run that says nothing has a file of no messages.
    for (const file of [`messages${end}.log`, `messages${end}.times`]) this.#add(file, new Uint8Array());
    return end;
  }

  get isEmpty() {
    return this.#size === 0;
  }

  /** Whether it was full before the call was over. */
  get isCut() {
    return this.#isCut;
  }

  /** The folder of this name as one file (tar), after so many seconds of call. */
  file(name, seconds) {
    const files = [["call.json", [textBytes(`${JSON.stringify(this.#told(seconds), null, 1)}\n`)]], ...this.#parts];
    return archive(files.map(([file, parts]) => [`${name}/${file}`, parts]));
  }

  #told(seconds) {
    const { format, target, sent } = this.settings;
    const send = {
      video: "captured.y4m", log: "send.log", wire: "packets.log", report: "send.txt", targets: "targets.txt", source: sent, first_sequence: 0,
      first_time: 0, options: [`--format=${format}`, `--limit=${LIMIT}`, `--slots=${SLOTS}`, `--lead=${LEAD}`, `--target=${target}`],
    };
    const counts = this.#isCut ? {} : { counts: { seconds } };
    return { ...this.#facts, send: [send], recv: this.#recv, ...counts };
  }

  /** A record that is full is cut off here, all of it, and the call goes on. */
  #add(file, bytes) {
    this.#size += bytes.length + ENTRY_COST;
    this.#isCut ||= this.#size > MOST_RECORDED;
    if (this.#isCut) return;
    if (!this.#parts.has(file)) this.#parts.set(file, []);
    this.#parts.get(file).push(bytes);
  }
}
