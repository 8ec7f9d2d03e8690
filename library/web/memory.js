/**
 * The module's memory and functions: its structs by their places, and bytes as callers hand them
 * over. A pointer is a number here, and a BigInt at the module's own functions alone.
 * @module
 */

import { Refused } from "./words.js";

/** How many bytes each struct of the header has. */
export const SIZE = Object.freeze({
  end: 216, group: 216, params: 32, message: 6, answer: 32, coded: 16, start: 48, lent: 16, reply: 8, statistics: 200,
  session: 16, timing: 16, arrived: 56, turn: 44, session_counts: 80, nack: 8,
});

/** Room for a packet of any length that RTP over UDP can have. */
const LEAST_ROOM = 65536;
/** Where a struct is put that is handed over or answered: the longest one fits. */
const STRUCT_ROOM = 256;
/** The greatest number of 64 bits. */
export const LONGEST = 2n ** 64n - 1n;

/**
 * Which bytes these are, without a copy; the name is said where they are none.
 * @param {string} name
 * @param {unknown} data
 * @returns {Uint8Array}
 */
export function bytesOf(name, data) {
  if (data instanceof Uint8Array) return data;
  if (ArrayBuffer.isView(data)) {
    const item = data.BYTES_PER_ELEMENT ?? 1;
    if (item !== 1) throw new TypeError(`${name}: bytes are wanted, and not items of ${item} bytes`);
    return new Uint8Array(data.buffer, data.byteOffset, data.byteLength);
  }
  const isShared = typeof SharedArrayBuffer === "function" && data instanceof SharedArrayBuffer;
  if (isShared || data instanceof ArrayBuffer) return new Uint8Array(data);
  throw new TypeError(`${name}: bytes are wanted: a Uint8Array, an ArrayBuffer or a view of one`);
}

/**
 * A whole number from 0 to 2^32 - 1: the module would cut any other.
 * @param {string} name
 * @param {unknown} value
 * @returns {number}
 */
export function counted(name, value) {
  if (typeof value !== "number" || !Number.isInteger(value)) {
    throw new TypeError(`${name}: a whole number is wanted`);
  }
  if (value < 0 || value > 0xffffffff) throw new RangeError(`${name}: ${value} is out of its range`);
  return value;
}

/**
 * A whole number from 0 to 2^64 - 1, as a BigInt: the module would cut any other.
 * @param {string} name
 * @param {unknown} value
 * @returns {bigint}
 */
export function longCounted(name, value) {
  if (typeof value !== "bigint") throw new TypeError(`${name}: a BigInt is wanted`);
  if (value < 0n || value > LONGEST) throw new RangeError(`${name}: ${value} is out of its range`);
  return value;
}

/** One instance of the module. All ends of a page or worker share it. */
export class Memory {
  /** @type {{ buffer: ArrayBuffer, bytes: Uint8Array, words: DataView } | null} */
  #seen = null;
  /** Whether the engine broke a call off. */
  isLost = false;

  /** @param {WebAssembly.Instance} instance */
  constructor({ exports }) {
    this.exports = exports;
    // What is handed over for a call, or is given out by it.
    this.room = this.taken(LEAST_ROOM);
    this.roomSize = LEAST_ROOM;
    this.structRoom = this.taken(STRUCT_ROOM);
    this.answerRoom = this.taken(STRUCT_ROOM);
  }

  /** Views of the memory as it is: one that grew has another buffer. */
  #views() {
    const { buffer } = this.exports.memory;
    if (this.#seen?.buffer !== buffer) this.#seen = { buffer, bytes: new Uint8Array(buffer), words: new DataView(buffer) };
    return this.#seen;
  }

  /** The bytes as they are now. */
  get bytes() {
    return this.#views().bytes;
  }

  /** Room for so many bytes, for this call. */
  taken(size, call = "memory") {
    const at = Number(this.exports.malloc(BigInt(size)));
    if (!at) throw new Refused(call, "no memory", `${size} bytes`);
    return at;
  }

  /** Gives room back. */
  giveBack(at) {
    this.exports.free(BigInt(at));
  }

  /**
   * Calls a function of the library, whose status it answers. If the engine breaks it off, as it does where
   * JavaScript has no stack left, nobody knows what became of the ends: then none is called again.
   * @param {string} name
   * @param {...(number | bigint)} words
   * @returns {number}
   */
  call(name, ...words) {
    if (this.isLost) throw new Error("a call was broken off by the engine: load the module anew");
    this.isLost = true;
    const status = this.exports[`h263rps_raw_${name}`](...words) >>> 0;
    this.isLost = false;
    return status;
  }

  /** The number of 32 bits at this place. */
  number(at) {
    return this.#views().words.getUint32(at, true);
  }

  /** So many numbers of 32 bits, from this place on. */
  numbers(at, count) {
    return Array.from({ length: count }, (_, n) => this.number(at + 4 * n));
  }

  /** The number of 64 bits at this place. It is exact up to 2^53. */
  long(at) {
    return Number(this.exactLong(at));
  }

  /** The number of 64 bits at this place, as a BigInt. */
  exactLong(at) {
    return this.#views().words.getBigUint64(at, true);
  }

  setNumber(at, value) {
    this.#views().words.setUint32(at, value, true);
  }

  setLong(at, value) {
    this.#views().words.setBigUint64(at, value, true);
  }

  /** A copy of so many bytes. */
  copied(at, size) {
    return this.bytes.slice(at, at + size);
  }

  /** The bytes of a message's struct. */
  message(at) {
    return this.copied(at, this.bytes[at + 5]);
  }

  /** Has room for so many bytes, which are then handed over without asking for any. */
  reserve(size) {
    if (size <= this.roomSize) return;
    const at = this.taken(size);
    this.giveBack(this.room);
    this.room = at;
    this.roomSize = size;
  }

  /**
   * Hands bytes over for one call: puts them into the module's memory, and answers what `act(at, size)` does.
   * @template T
   * @param {Uint8Array} data
   * @param {(at: bigint, size: bigint) => T} act
   * @returns {T}
   */
  passed(data, act) {
    const { length } = data;
    if (length <= this.roomSize) {
      this.bytes.set(data, this.room);
      return act(BigInt(this.room), BigInt(length));
    }
    // The room for them may make the memory grow, which takes a view of it away.
    const kept = data.buffer === this.exports.memory.buffer ? data.slice() : data;
    const at = this.taken(length);
    try {
      this.bytes.set(kept, at);
      return act(BigInt(at), BigInt(length));
    } finally {
      this.giveBack(at);
    }
  }
}
