/**
 * Both ends of a video call in H.263 with acknowledged reference pictures, over RTP: the proved
 * library as WebAssembly. docs/LIBRARY.md, "In JavaScript", is the guide, and h263rps.d.ts has the
 * types. Needs 64-bit memory: Chrome and Edge 133, Firefox 134, Node 24 (or 20 with
 * --experimental-wasm-memory64).
 *
 *     await load();
 *     const sender = new Sender(Params.of("qcif", { target: 1800 }));
 *     const coded = sender.code(picture);
 *     for (const packet of sender.packets(coded)) ...
 *     const reply = sender.feedback(message);
 *
 *     const pace = new Pace("qcif", { target: 1000, room: 20_000 });
 *     const quant = pace.next(sender);         // before each picture: the sender codes with it
 *     pace.coded(coded, quant, size);          // after it: the bytes of its packets together
 *
 *     const group = new Group(Params.of("qcif"));       // one sender for up to 16 receivers
 *     group.join(0);                           // each at a place of its own, from group.sent() on
 *     const reply = group.feedback(0, message);         // `code` and `packets` as a sender's
 *
 *     const receiver = new Receiver(Params.of("qcif"));
 *     const heard = receiver.packet(packet);   // heard.message goes back where it has bytes
 *     const played = receiver.playLent();      // played.picture, played.mark, played.message
 *
 *     const session = new Session(Params.of("qcif"), { rate: 30000, second: 1001, wait: 60_000_000n });
 *     const arrived = session.arrival(datagram, now);   // whatever came; times are BigInts of nanoseconds
 *     const turn = session.play(now);          // null where nothing is due; session.shown() has the picture
 *     const asked = session.missing(roundTrip, now);    // what to send as Generic NACKs, where it is repeated
 *
 *     const repeats = new Repeats({ count: 512, longest: 1500 });   // the packets that were sent last
 *     repeats.keep(packet);
 *     const again = repeats.find(sequence);    // null where it isn't kept
 *
 *     const line = new Line({ first: 900, least: 300, most: 3600, finest: 4, period: 33_366_667, now });
 *     if (line.hasRoom(now)) ...               // code a picture of about line.wanted bytes, and then:
 *     line.sent(coded.number, size, coded.packets, now);
 *     line.told(number, true, now);            // of each message about a picture
 *
 * A picture that is lent is a view of the receiver's or session's own, good until the next call of anything here:
 * read it, and don't write it. All else that a call gives is the caller's.
 * @module
 */

import { LONGEST, Memory, SIZE, bytesOf, counted, longCounted } from "./memory.js";
import {
  CAUSES, CLOCKS, DISTANCES, FAULTS, FORMATS, Fault, GROUPS, HEARD, MARKS, MessageFault, NOTED, PACES, PARAMS, RUNS, Refused,
  STATUS, VERDICTS,
} from "./words.js";

export {
  CAUSES, CLOCKS, DISTANCES, FAULTS, FORMATS, Fault, GROUPS, HEARD, MARKS, MessageFault, NOTED, PACES, PARAMS, RUNS, Refused,
  STATUS, VERDICTS,
};

/** What a sender's packets have, and a receiver's must have. */
export const SSRC = 0x48323633;
export const PAYLOAD_TYPE = 96;

/** The shortest RTP packet, its header; and the greatest payload type. */
const RTP_HEADER = 12;
const MOST_TYPE = 127;
/** The most messages of a picture's header. */
const HEADER_MESSAGES = 4;
/** What a group has where there is no receiver, or no picture. */
const NONE = 0xffffffff;
/** The longest message, after which its struct has its length. */
const MESSAGE = 5;

// ---- the module -------------------------------------------------------------------------------

/** The instance that all ends share, once it is loaded. */
let memory = null;

/**
 * Loads the module, which everything else needs. `source` is where it is, or its bytes, or what was
 * compiled of them; by default the h263rps.wasm beside this file. A second call does nothing, unless
 * a call was broken off.
 */
export async function load(source = new URL("h263rps.wasm", import.meta.url)) {
  if (memory && !memory.isLost) return;
  const module = source instanceof WebAssembly.Module ? source : await compiled(source);
  memory = new Memory(await WebAssembly.instantiate(module, {}));
}

/** The module of bytes, or of what lies at an address. */
async function compiled(source) {
  const isPlace = typeof source === "string" || source instanceof URL;
  try {
    return await WebAssembly.compile(isPlace ? await read(source) : bytesOf("source", source));
  } catch (fault) {
    if (fault instanceof WebAssembly.CompileError && !hasLongMemory()) {
      const who = "Chrome or Edge 133, Firefox 134 or Node 24 have one";
      throw new Error(`this engine has no 64-bit WebAssembly memory: ${who}`, { cause: fault });
    }
    throw fault;
  }
}

/** Whether the engine has memories of 64 bits: a module with nothing but one tells. */
export function hasLongMemory() {
  return WebAssembly.validate(new Uint8Array([0, 97, 115, 109, 1, 0, 0, 0, 5, 3, 1, 4, 0]));
}

async function read(place) {
  const isFile = String(place).startsWith("file:");
  if (isFile && globalThis.process?.versions?.node) {
    const { readFile } = await import("node:fs/promises");
    return readFile(new URL(place));
  }
  const answer = await fetch(place);
  if (!answer.ok) throw new Error(`${place}: ${answer.status} ${answer.statusText}`);
  return answer.arrayBuffer();
}

function loaded() {
  if (!memory) throw new Error("the module isn't loaded: await load() first");
  return memory;
}

// ---- before the start -------------------------------------------------------------------------

/** Refuses a call whose answer isn't 0. A newer library may have more refusals. */
function must(call, status, detail) {
  if (status) throw new Refused(call, STATUS[status] ?? "other", detail);
}

function formatNumber(format) {
  if (!Object.hasOwn(FORMATS, format)) throw new RangeError(`there is no format ${String(format)}`);
  return FORMATS[format];
}

/** The word of a number: of a format or a clock. */
function wordOf(table, number) {
  return Object.keys(table).find((word) => table[word] === number);
}

/** The bytes of a pace's struct. */
const PACE_SIZE = 40;

/** Where each parameter stands in its struct, and how many bits it has. */
const PLACES = Object.freeze({
  format: [4, 32], quant: [8, 8], keep: [9, 8], radius: [10, 8], messages: [11, 8],
  limit: [12, 32], slots: [16, 32], lead: [20, 32], clock: [24, 16], pace: [26, 16], target: [28, 32],
});

/**
 * The parameters of a call; the header says what each means. Both ends need the same `format` and
 * `clock`, and a receiver's `slots - lead` is at least its sender's.
 */
export class Params {
  #values = {};

  constructor() {
    Object.seal(this);
  }

  /** The defaults, with what is changed: Params.of("cif", { target: 9000 }). */
  static of(format, changed = {}) {
    const { structRoom: at } = loaded();
    must("defaults", memory.call("defaults", formatNumber(format), BigInt(at)));
    const params = new Params();
    for (const name of PARAMS) params[name] = Params.#read(at, name);
    params.pace = PACES.fits;
    for (const [name, value] of Object.entries(changed)) {
      if (!PARAMS.includes(name) || name === "format") throw new TypeError(`there is no parameter ${name} to change`);
      if (value !== undefined) params[name] = value;
    }
    return params;
  }

  static #read(at, name) {
    const [place, bits] = PLACES[name];
    return memory.bytes.slice(at + place, at + place + bits / 8).reduceRight((value, byte) => 256 * value + byte, 0);
  }

  /** Puts the parameters at a place in memory. */
  static write(params, at) {
    if (!(params instanceof Params)) throw new TypeError("params: Params are wanted, as Params.of gives them");
    memory.setNumber(at, SIZE.params);
    for (const name of PARAMS) {
      const [place, bits] = PLACES[name];
      for (let n = 0; n < bits / 8; n++) memory.bytes[at + place + n] = params[name] >>> 8 * n;
    }
  }

  static {
    for (const name of PARAMS) {
      const most = 2 ** PLACES[name][1] - 1;
      Object.defineProperty(Params.prototype, name, {
        enumerable: true,
        get() {
          return this.#values[name];
        },
        set(value) {
          if (counted(name, value) > most) throw new RangeError(`${name}: ${value} is out of its range`);
          this.#values[name] = value;
        },
      });
    }
  }
}

/** The version of the library: 10,000 times its major number and 100 times its minor one. */
export function version() {
  return loaded().call("version");
}

/** How many bytes a picture has. */
export function pictureSize(format) {
  return loaded().call("picture_size", formatNumber(format));
}

/**
 * An RTP packet with another SSRC and payload type, as a new one. A sender writes SSRC and
 * PAYLOAD_TYPE; a receiver takes no others.
 */
export function label(packet, ssrc, payloadType) {
  const text = bytesOf("packet", packet).slice();
  if (text.length < RTP_HEADER) throw new Refused("label", "wrong length");
  if (counted("payloadType", payloadType) > MOST_TYPE) {
    throw new RangeError(`payloadType: ${payloadType} is out of its range`);
  }
  text[1] = (text[1] & 0x80) | payloadType;
  new DataView(text.buffer).setUint32(8, counted("ssrc", ssrc));
  return text;
}

/**
 * What a whole RTP packet says of its picture; bytes that begin as no packet are Refused.
 * @param {import("./h263rps.js").Bytes} packet
 * @returns {import("./h263rps.js").Start}
 */
export function packetStart(packet) {
  return startOf("packet", packet);
}

/**
 * The same of one whose SSRC may be any, as a session takes it. Its messages are for one's own sender where the session
 * heard it, in the followed run: any datagram may carry some.
 * @param {import("./h263rps.js").Bytes} datagram
 * @returns {import("./h263rps.js").Start}
 */
export function datagramStart(datagram) {
  return startOf("datagram", datagram);
}

function startOf(name, packet) {
  const { answerRoom: to } = loaded();
  const call = (at, size) => memory.call(`${name}_start`, at, size, BigInt(to));
  must(`${name} start`, memory.passed(bytesOf(name, packet), call));
  const [format, clock, temporalReference, isIntra, reference, count] = memory.numbers(to, 6);
  return {
    format: wordOf(FORMATS, format),
    clock: wordOf(CLOCKS, clock),
    temporalReference,
    reference: isIntra ? null : reference,
    messages: Array.from({ length: count }, (_, n) => memory.message(to + 24 + SIZE.message * n)),
  };
}

// ---- both ends --------------------------------------------------------------------------------

/** Gives back what an end took that nobody closed, once nobody has it any more. */
const unclosed = new FinalizationRegistry((held) => held.finish());

/** What an end has in memory. It is apart from the end, so that it can be given back without it. */
class Held {
  constructor(name, size) {
    this.name = name;
    this.memory = memory;
    this.at = memory.taken(size, "start");
    memory.bytes.fill(0, this.at, this.at + size);
  }

  /** Ends the end, where it began, and gives all back. A second one does nothing. */
  finish() {
    if (!this.at || this.memory.isLost) return;
    if (this.memory.number(this.at)) this.memory.call(`${this.name}_finish`, BigInt(this.at));
    this.memory.giveBack(this.at);
    this.at = 0;
  }
}

/** What starts without the parameters of a call, and so tells of no fault of theirs. */
const NO_PARAMS = Symbol("no parameters");

/** An end, or what stands beside one, between its start and its close. */
class Started {
  #held;

  /** `more` are words between the parameters and the fault. */
  constructor(name, start, params, ...more) {
    const { structRoom: words, answerRoom: fault } = loaded();
    const has = params !== NO_PARAMS;
    if (has) Params.write(params, words);
    this.#held = new Held(name, SIZE[name] ?? SIZE.end);
    memory.setNumber(fault, 0);
    const all = has ? [BigInt(words), ...more, BigInt(fault)] : more;
    const status = memory.call(`${name}_${start}`, BigInt(this.#held.at), ...all);
    if (status) {
      const detail = FAULTS[memory.number(fault) - 1];
      this.#held.finish();
      must("start", status, detail);
    }
    unclosed.register(this, this.#held, this);
  }

  /** Calls a function of this end, whose status it answers. */
  _call(call, name, ...words) {
    if (!this.#held.at) throw new Refused(call, "not started");
    return this.#held.memory.call(`${this.#held.name}_${name}`, BigInt(this.#held.at), ...words);
  }

  /** Calls a function of this end; a refusal is thrown under the call's own name. */
  _must(call, name, ...words) {
    must(call, this._call(call, name, ...words));
  }

  _count(name) {
    this._must(name, name, BigInt(memory.answerRoom));
    return memory.number(memory.answerRoom);
  }

  /** Its counts, the first of which stands at this place among them, by words. */
  _counted() {
    const { answerRoom: at } = memory;
    this._must("statistics", "statistics", BigInt(at));
    const long = (place) => memory.long(at + 8 * place);
    const by = (words, first) => Object.fromEntries(words.map((word, n) => [word, long(first + n)]));
    return { packets: long(0), bytes: long(1), by };
  }

  /** Gives the memory back. A second one does nothing. */
  close() {
    unclosed.unregister(this);
    this.#held.finish();
  }
}

if (Symbol.dispose) {
  Started.prototype[Symbol.dispose] = Started.prototype.close;
}

// ---- the sender and the group -----------------------------------------------------------------

/** What codes pictures into packets. */
class Coder extends Started {
  #limit;
  // The picture that was coded last, itself: after a reset another one has its number.
  #last = null;

  constructor(name, params) {
    super(name, "start", params);
    this.#limit = params.limit;
    memory.reserve(Math.max(this.#limit, memory.call("picture_size", params.format)));
  }

  /**
   * Codes the next picture, with up to four messages in its header.
   * @param {import("./h263rps.js").Bytes} picture
   * @param {Iterable<import("./h263rps.js").Bytes>} messages
   * @returns {import("./h263rps.js").Coded}
   */
  code(picture, messages = []) {
    const samples = bytesOf("picture", picture);
    const { structRoom: back, answerRoom: to } = memory;
    const count = writeMessages(Array.from(messages, (message) => bytesOf("message", message)));
    memory.passed(samples, (at, size) => this._must("code", "code", at, size, BigInt(back), BigInt(count), BigInt(to)));
    const [number, packets, isIntra, reference] = memory.numbers(to, 4);
    this.#last = Object.freeze({ number, packets, reference: isIntra ? null : reference });
    return this.#last;
  }

  /**
   * A packet of the picture that was coded last.
   * @param {number} number
   * @returns {Uint8Array}
   */
  packet(number) {
    const { room, answerRoom: at } = memory;
    this._must("packet", "packet", counted("number", number), BigInt(room), BigInt(this.#limit), BigInt(at));
    return memory.copied(room, memory.long(at));
  }

  /**
   * The packets of the picture that was coded last; of an older one they are gone.
   * @param {import("./h263rps.js").Coded} coded
   * @returns {Uint8Array[]}
   */
  packets(coded) {
    if (coded === null || coded !== this.#last) {
      throw new Refused("packets", "no packet", `picture ${coded?.number} isn't the last one`);
    }
    return Array.from({ length: coded.packets }, (_, number) => this.packet(number));
  }

  /** Takes a message, of the receiver at this place where there are several. */
  _heard(message, ...receiver) {
    const { answerRoom: to } = memory;
    const call = (at, size) => this._must("feedback", "feedback", ...receiver, at, size, BigInt(to));
    memory.passed(bytesOf("message", message), call);
    return { kind: NOTED[memory.number(to)], fault: MessageFault.of(memory.number(to + 4)) };
  }

  /** There is no picture any more that was coded last. */
  _anew() {
    this.#last = null;
  }

  /** Follows this many bytes a picture from the next picture on, or none where it is 0. */
  target(size) {
    this._must("target", "target", counted("target", size));
  }

  /** Codes with this quantiser, 1 to 31, from the next picture on, and follows no target. */
  quant(quant) {
    this._must("quant", "quant", counted("quant", quant) < 32 ? quant : 0);
  }

  /** How many pictures were coded: the number of the next one. */
  sent() {
    return this._count("sent");
  }

  /** What it has counted since its start or reset. */
  statistics() {
    const { packets, bytes, by } = this._counted();
    return { packets, bytes, coded: by(DISTANCES, 16), noted: by(NOTED, 22) };
  }
}

/** The end that codes pictures into packets, and hears the other side's messages. */
export class Sender extends Coder {
  constructor(params) {
    super("sender", params);
  }

  /**
   * Takes a message of the other side.
   * @param {import("./h263rps.js").Bytes} message
   * @returns {import("./h263rps.js").Reply}
   */
  feedback(message) {
    return this._heard(message);
  }

  /** Takes no earlier picture as a reference again: the next one is intra. */
  forget() {
    this._must("forget", "forget");
  }

  /** Begins a call anew, with this target: as after its start, with no picture coded and nothing counted. */
  reset(target) {
    this._must("reset", "reset", counted("target", target));
    this._anew();
  }

  /** How many pictures it knows to be complete on the other side, of those to which its next picture may refer. */
  known() {
    return this._count("known");
  }
}

/**
 * One sender for up to 16 receivers, each at a place from 0 to 15: a picture is coded once, and refers to the newest one
 * that all are known to have.
 */
export class Group extends Coder {
  constructor(params) {
    super("group", params);
  }

  /**
   * A receiver joins at a place: it begins with the next picture, whose number `sent()` has, and is known to have none. One
   * that was there has left.
   */
  join(receiver) {
    this._must("join", "join", counted("receiver", receiver));
  }

  /** The receiver at this place leaves: what it has doesn't matter any more. */
  leave(receiver) {
    this._must("leave", "leave", counted("receiver", receiver));
  }

  /**
   * Takes a message of the receiver at this place; Refused, as "no receiver", where none is.
   * @param {number} receiver
   * @param {import("./h263rps.js").Bytes} message
   * @returns {import("./h263rps.js").Reply}
   */
  feedback(receiver, message) {
    return this._heard(message, counted("receiver", receiver));
  }

  /**
   * The first receiver that is known to have none of the pictures to which the next may refer, or null: while there is one,
   * each picture is intra.
   */
  waitingFor() {
    return this.#unlessNone("waitingFor", "waiting_for");
  }

  /**
   * The newest picture that all are known to have, of those to which the next may refer; null where there is none, so that
   * the next one is intra.
   */
  reference() {
    return this.#unlessNone("reference", "reference");
  }

  #unlessNone(call, name) {
    const { answerRoom: at } = memory;
    this._must(call, name, BigInt(at));
    const number = memory.number(at);
    return number === NONE ? null : number;
  }
}

/** Puts messages where the next call finds them, and answers how many it finds: too many are one too many. */
function writeMessages(messages) {
  const count = Math.min(messages.length, HEADER_MESSAGES + 1);
  for (let n = 0; n < count; n++) {
    const at = memory.structRoom + SIZE.message * n;
    memory.bytes.fill(0, at, at + SIZE.message).set(messages[n].subarray(0, MESSAGE), at);
    memory.bytes[at + MESSAGE] = Math.min(messages[n].length, 255);
  }
  return count;
}

// ---- repeats and the line ---------------------------------------------------------------------

/** A whole number from 0 to 2^16 - 1: the module would cut any other. */
function shortCounted(name, value) {
  if (counted(name, value) > 0xffff) throw new RangeError(`${name}: ${value} is out of its range`);
  return value;
}

/** The packets that were sent last, so that those can be sent again for which a receiver asks. */
export class Repeats extends Started {
  /**
   * Of packets with sequence numbers that follow one another it keeps the last `count`, 1 to 65,536, or somewhat more; each
   * has at most `longest` bytes, 12 to 65,507.
   * @param {{ count?: number, longest?: number }} size
   */
  constructor({ count = 512, longest = 1500 } = {}) {
    super("repeats", "start", NO_PARAMS, counted("count", count), counted("longest", longest));
  }

  /**
   * Keeps an RTP packet that was sent; not one that is longer than `longest`, or too short.
   * @param {import("./h263rps.js").Bytes} packet
   */
  keep(packet) {
    memory.passed(bytesOf("packet", packet), (at, size) => this._must("keep", "keep", at, size));
  }

  /**
   * A copy of the newest packet with this sequence number; null where it isn't kept.
   * @param {number} sequence
   * @returns {Uint8Array | null}
   */
  find(sequence) {
    const { answerRoom: at } = memory;
    this._must("find", "find", shortCounted("sequence", sequence), BigInt(at));
    const length = memory.long(at + 8);
    return length ? memory.copied(memory.long(at), length) : null;
  }
}

/** Puts a line's bounds where its start finds them, and answers where that is. */
function boundsAt({ first, least, most, finest, period }) {
  const { structRoom: at } = loaded();
  const bounds = Object.entries({ first, least, most, finest, period });
  for (const [n, [name, value]] of bounds.entries()) memory.setNumber(at + 4 * n, counted(name, value));
  return BigInt(at);
}

/**
 * The rate that a line carries, by what the messages of the other side tell. Each time is a BigInt of nanoseconds, of one
 * clock.
 */
export class Line extends Started {
  /**
   * It begins at `first` bytes a picture and stays between `least` and `most`; `finest` is the finest quantiser, and a
   * picture comes each `period` nanoseconds.
   * @param {import("./h263rps.js").Bounds} bounds
   */
  constructor(bounds = {}) {
    super("line", "start", NO_PARAMS, boundsAt(bounds), longCounted("now", bounds.now));
  }

  /** The picture of this number went out, with `size` bytes in so many packets. */
  sent(number, size, packets, now) {
    const words = [counted("number", number), counted("size", size), shortCounted("packets", packets)];
    this._must("sent", "sent", ...words, longCounted("now", now));
  }

  /** A message came about this picture: it is whole at the other side, or it isn't. */
  told(number, isWhole, now) {
    this._must("told", "told", counted("number", number), isWhole ? 1 : 0, longCounted("now", now));
  }

  /** Whether the next frame may go out; else it is to be left out. */
  hasRoom(now) {
    const { answerRoom: at } = memory;
    this._must("hasRoom", "has_room", longCounted("now", now), BigInt(at));
    return memory.number(at) !== 0;
  }

  /** Bytes a second that the line carries, with the heads of IP and UDP. */
  get rate() {
    return this._count("rate");
  }

  /** Bytes that the next picture may have. */
  get wanted() {
    return this._count("wanted");
  }

  /** The next picture's target, for `target` of a sender. */
  get target() {
    return this._count("target");
  }

  /** The quantiser at which the next picture would have about the bytes that it may have. */
  get quant() {
    return this._count("quant");
  }
}

// ---- a pace -----------------------------------------------------------------------------------

/**
 * Fits the pictures of a sender to a target in bytes a picture, which their sum may exceed by a room: of some 20 targets, so
 * that the first pictures, which are intra, are fine enough.
 */
export class Pace {
  // The library's struct, which stands in the module's memory for a call alone.
  #words = new Uint8Array(PACE_SIZE);

  /**
   * @param {import("./h263rps.js").Format} format
   * @param {{ target: number, room: number }} bytes
   */
  constructor(format, { target, room } = {}) {
    loaded();
    const words = [formatNumber(format), counted("target", target), counted("room", room)];
    must("start", this.#call("start", ...words));
  }

  #call(name, ...words) {
    const { structRoom: at } = memory;
    memory.bytes.set(this.#words, at);
    const answer = memory.call(`pace_${name}`, BigInt(at), ...words);
    this.#words = memory.copied(at, PACE_SIZE);
    return answer;
  }

  /** Follows these from the next picture on. What was sent beyond the target stays counted. */
  target(target, room) {
    must("target", this.#call("redirect", counted("target", target), counted("room", room)));
  }

  /** The quantiser for the next picture of a sender or a group, 2 to 31, which it codes with. */
  next(sender) {
    const isIntra = sender instanceof Group ? sender.reference() === null : !sender.known();
    const quant = this.#call("quant", isIntra ? 1 : 0);
    sender.quant(quant);
    return quant;
  }

  /**
   * The picture was coded with this quantiser, and its packets have so many bytes together.
   * @param {import("./h263rps.js").Coded} coded
   * @param {number} quant
   * @param {number} size
   */
  coded(coded, quant, size) {
    if (counted("quant", quant) > 0xff) throw new RangeError(`quant: ${quant} is out of its range`);
    this.#call("coded", coded.reference === null ? 1 : 0, quant, counted("size", size));
  }

  /** Bytes by which the pictures exceed the target. */
  get level() {
    return Number(new DataView(this.#words.buffer).getBigUint64(8, true));
  }
}

// ---- the receiver -----------------------------------------------------------------------------

/** One that lends the picture that it shows. */
class Lending extends Started {
  #size;

  constructor(name, start, params, ...at) {
    super(name, start, params, ...at);
    this.#size = memory.call("picture_size", params.format);
  }

  /** Lends the picture that is shown: a view to be read until the next call. */
  shown() {
    const { answerRoom: at } = memory;
    this._must("shown", "shown", BigInt(at));
    const from = memory.long(at);
    return memory.bytes.subarray(from, from + this.#size);
  }
}

/** What a play answers of its picture, at this place. */
function playedAt(at) {
  const [kind, , , number, isPredicted, reference] = memory.numbers(at, 6);
  return { mark: MARKS[kind], message: memory.message(at + 24), number, reference: isPredicted ? reference : null };
}

/** The end that hears packets and plays a picture at each picture's time. */
export class Receiver extends Lending {
  /** A receiver whose next picture is the one of this number, up to 1,048,576. */
  constructor(params, number = 0) {
    super("receiver", "start_at", params, counted("number", number));
  }

  /**
   * Takes a whole RTP packet, whatever it is.
   * @param {import("./h263rps.js").Bytes} packet
   * @returns {import("./h263rps.js").Heard}
   */
  packet(packet) {
    const { answerRoom: to } = memory;
    memory.passed(bytesOf("packet", packet), (at, size) => this._must("packet", "packet", at, size, BigInt(to)));
    const [kind, fault, at, number] = memory.numbers(to, 4);
    return { kind: HEARD[kind], fault: Fault.of(fault), at, message: memory.message(to + 24), number };
  }

  /**
   * Plays the next picture, and gives a copy of it.
   * @returns {import("./h263rps.js").Played}
   */
  play() {
    const played = this.playLent();
    return { ...played, picture: played.picture.slice() };
  }

  /**
   * Plays the next picture, and lends it where `play` copies it: a view that is good until the next call.
   * @returns {import("./h263rps.js").Played}
   */
  playLent() {
    const { answerRoom: at } = memory;
    this._must("play", "next", BigInt(at));
    const played = playedAt(at);
    return { ...played, picture: this.shown() };
  }

  /** Begins a call anew at the picture of this number: as after its start, with nothing heard and nothing counted. */
  reset(number = 0) {
    this._must("reset", "reset", counted("number", number));
  }

  /** How many pictures were played, those before its start too: the number of the next one. */
  played() {
    return this._count("played");
  }

  /** What it has counted since its start or reset. */
  statistics() {
    const { packets, bytes, by } = this._counted();
    return { packets, bytes, heard: by(HEARD, 2), faults: by(GROUPS, 8), played: by(MARKS, 13) };
  }
}

// ---- the session ------------------------------------------------------------------------------

/** The number by which a refusal says that no stream has a run. */
const NO_STREAM = STATUS.indexOf("no stream");

/** Puts a session's timing after its parameters, and answers where it is. */
function timingAt({ rate, second = 1, wait }) {
  const at = loaded().structRoom + SIZE.params;
  memory.setNumber(at, counted("rate", rate));
  memory.setNumber(at + 4, counted("second", second));
  memory.setLong(at + 8, longCounted("wait", wait));
  return BigInt(at);
}

/**
 * Between a network and a screen: which stream is followed, of which picture a packet is, and when a picture is played.
 * Each time is a BigInt of nanoseconds, of one clock that doesn't go back: so it is exact, whatever the clock's zero.
 */
export class Session extends Lending {
  /**
   * With the parameters of both ends; `rate` pictures come in `second` seconds, and each is due `wait` nanoseconds after it
   * would come on the shortest way of late.
   * @param {Params} params
   * @param {import("./h263rps.js").Timing} timing
   */
  constructor(params, timing = {}) {
    super("session", "start", params, timingAt(timing));
  }

  /**
   * Takes a datagram that came then, whatever it is. Where `verdict` is "ahead" play until nothing is due, and hand it in
   * again.
   * @param {import("./h263rps.js").Bytes} datagram
   * @param {bigint} now
   * @returns {import("./h263rps.js").Arrived}
   */
  arrival(datagram, now) {
    return this.#arrival("arrival", [], datagram, now);
  }

  /**
   * The same, of the stream with this SSRC alone: another one's packets are dropped, as of an "other stream".
   * @param {number} source
   * @param {import("./h263rps.js").Bytes} datagram
   * @param {bigint} now
   * @returns {import("./h263rps.js").Arrived}
   */
  arrivalOf(source, datagram, now) {
    return this.#arrival("arrival_of", [counted("source", source)], datagram, now);
  }

  #arrival(name, of, datagram, now) {
    const { answerRoom: to } = memory;
    const then = longCounted("now", now);
    const call = (at, size) => this._must("arrival", name, ...of, at, size, then, BigInt(to));
    memory.passed(bytesOf("datagram", datagram), call);
    const [verdict, cause, run, source, ahead, rival, kind, fault, at] = memory.numbers(to, 9);
    const is = VERDICTS[verdict];
    const isDropped = is === "dropped";
    return {
      verdict: is,
      cause: isDropped ? CAUSES[cause - 1] : null,
      run: isDropped ? null : RUNS[run],
      source: isDropped ? null : source,
      ahead: is === "ahead" ? ahead : null,
      isRival: rival !== 0,
      kind: is === "heard" ? HEARD[kind] : null,
      fault: Fault.of(fault),
      at,
      message: memory.message(to + 48),
    };
  }

  /** When something is due next if nothing comes: 0n where it is at once, and null where nothing is known to be. */
  due() {
    const { answerRoom: at } = memory;
    this._must("due", "due", BigInt(at));
    const due = memory.exactLong(at);
    return due === LONGEST ? null : due;
  }

  /**
   * Plays the next picture that is due by then, one a call; null where none is. `shown` lends it.
   * @param {bigint} now
   * @returns {import("./h263rps.js").Turn | null}
   */
  play(now) {
    const { answerRoom: at } = memory;
    this._must("play", "play", longCounted("now", now), BigInt(at));
    const [isPlayed, run, source] = memory.numbers(at, 3);
    return isPlayed ? { run: RUNS[run], source, ...playedAt(at + 12) } : null;
  }

  /**
   * The packets of the followed stream that are missing and could still come in time, if their repeats take so many
   * nanoseconds: PID and BLP of Generic NACKs (RFC 4585, 6.2.1) about `source()`. They count as asked for then.
   * @param {bigint} roundTrip
   * @param {bigint} now
   * @returns {import("./h263rps.js").Nack[]}
   */
  missing(roundTrip, now) {
    const { answerRoom: at } = memory;
    const times = [longCounted("roundTrip", roundTrip), longCounted("now", now)];
    const asked = [];
    for (;;) {
      this._must("missing", "missing", ...times, BigInt(at));
      const [asks, field] = memory.numbers(at, 2);
      if (!asks) return asked;
      asked.push({ packet: field & 0xffff, following: field >>> 16 });
    }
  }

  /** The stream with this SSRC has ended, as an RTCP BYE says: if it is the followed one, another may be followed at once. */
  bye(source, now) {
    this._must("bye", "bye", counted("source", source), longCounted("now", now));
  }

  /** Begins anew, as with another party: no stream has a run any more. The clock and what was counted stay. */
  reset(now) {
    this._must("reset", "reset", longCounted("now", now));
  }

  /**
   * The SSRC of the stream that has this run; null where none has.
   * @param {import("./h263rps.js").Run} run
   * @returns {number | null}
   */
  source(run = "followed") {
    if (!RUNS.includes(run)) throw new RangeError(`there is no run ${String(run)}`);
    const { answerRoom: at } = memory;
    const status = this._call("source", "source", RUNS.indexOf(run), BigInt(at));
    if (status === NO_STREAM) return null;
    must("source", status);
    return memory.number(at);
  }

  /** What it has counted since its start. */
  statistics() {
    const { packets: taken, by } = this._counted();
    return { taken, dropped: by(CAUSES, 2), played: by(MARKS, 7) };
  }
}
