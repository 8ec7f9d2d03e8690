/**
 * The words and numbers of include/h263rps.h, each with its text: those of the Python package.
 * @module
 */

/** @type {Readonly<Record<import("./h263rps.js").Format, number>>} */
export const FORMATS = Object.freeze({ "sub-qcif": 1, qcif: 2, cif: 3 });

/** @type {Readonly<Record<import("./h263rps.js").Clock, number>>} */
export const CLOCKS = Object.freeze({ standard: 0, custom: 1 });

/** What a sender makes of its target. */
export const PACES = Object.freeze({ follows: 0, fits: 1 });

/** The kinds of an answer to a packet. */
export const HEARD = words("taken", "completed", "late", "early", "repeat", "refused");

/** How what is shown stands to the sender's picture. */
export const MARKS = words("exact", "patched", "held");

/** The groups by which refused packets are counted. */
export const GROUPS = words("bytes", "other clock", "header differs", "missing reference", "overlap");

/** How far back the reference of a picture is, as pictures are counted. */
export const DISTANCES = words("intra", "1", "2", "3", "4 to 7", "8 or more");

/** The kinds of an answer to a message. */
export const NOTED = words("noted", "old", "no message");

/** A session's verdicts on a datagram. */
export const VERDICTS = words("dropped", "no place", "ahead", "heard");

/** Why a session drops a datagram, from number 1 on. */
export const CAUSES = words("long", "malformed", "other pictures", "too fast", "other stream");

/** The runs of a session: of the stream that is followed, of one that was followed before, of one that is tried. */
export const RUNS = words("followed", "former", "tried");

/** The parameters, the first ten in the order of their numbers. */
export const PARAMS = words(
  "quant", "keep", "radius", "limit", "slots", "lead", "messages", "format", "clock", "target", "pace",
);

/** What a start names: a parameter, the number at which a receiver begins, the struct's size, or a setting of a session. */
export const FAULTS = words(...PARAMS.slice(0, 10), "number", "size", "rate", "wait", "pace");

/** Why a call was refused, by its number. */
export const STATUS = words(
  "ok", "not started", "started", "other end", "bad params", "no memory", "ended", "wrong length",
  "bad messages", "no packet", "short room", "null", "too long", "no start", "no stream",
  "no receiver",
);

/** What a status means, where its word doesn't say it. */
export const STATUS_TEXTS = Object.freeze({
  started: "started already",
  "other end": "the other end's function",
  "bad params": "a parameter is out of its range",
  "no memory": "out of memory",
  ended: "1,048,576 pictures, the most of a run",
  "wrong length": "not the length of a picture",
  "bad messages": "no messages, or too many",
  "no packet": "no packet of this number",
  "short room": "too short a room",
  null: "a null pointer",
  "too long": "too great a length",
  "no start": "no start of a packet",
  "no stream": "no stream has this run",
  "no receiver": "nobody is at this place of the group",
  other: "no status",
});

/** A call that changed nothing. `status` is why, a word of STATUS, and `text` says what it means. */
export class Refused extends Error {
  constructor(call, status, detail = "") {
    super(`${call}: ${status}${detail && `: ${detail}`}`);
    Object.assign(this, { name: "Refused", call, status, detail, text: STATUS_TEXTS[status] ?? status });
  }
}

/** A list of words that stays as it is. */
function words(...list) {
  return Object.freeze(list);
}

/** A number with a name and a text. There is one object for each, so that `===` compares them. */
class Named {
  constructor(number, name, text) {
    Object.assign(this, { number, name, text });
    Object.freeze(this);
  }

  toString() {
    return this.name;
  }
}

/**
 * Makes the table of a kind: its objects by name, and `of`, which has them by number. No fault is
 * null; a number of a newer library has a name and no text.
 */
function tableOf(Kind, first, rows) {
  const byNumber = new Map();
  let number = first;
  for (const [name, text, own] of rows) {
    number = own ?? number;
    Kind[name] = new Kind(number, name, text);
    byNumber.set(number++, Kind[name]);
  }
  Kind.of = (asked) => {
    if (!asked) return null;
    if (!byNumber.has(asked)) byNumber.set(asked, new Kind(asked, `NUMBER_${asked}`, "no fault"));
    return byNumber.get(asked);
  };
  return Object.freeze(Kind);
}

/** Why a packet is refused (`enum h263rps_fault`). From BYTES_ENDED on its bytes are at fault. */
export const Fault = tableOf(class Fault extends Named {}, 1, [
  ["OTHER_CLOCK", "the other picture clock"],
  ["HEADER_DIFFERS", "another header than its picture's packets so far"],
  ["MISSING_REFERENCE", "the picture that it refers to isn't complete here"],
  ["OVERLAP", "a part of it was taken before"],
  ["BYTES_ENDED", "the bits end inside a field or a word", 100],
  ["BYTES_BAD_CODE", "no word of the table"],
  ["BYTES_BAD_DC", "INTRADC of 0 or 128"],
  ["BYTES_BAD_LEVEL", "an escape whose LEVEL is 0 or -128"],
  ["BYTES_PAST_END", "an event after the last coefficient of its block"],
  ["BYTES_FOUR_VECTORS", "a macroblock with four vectors"],
  ["BYTES_BAD_VECTOR", "a vector that points out of its reach"],
  ["BYTES_MARKER", "a bit against start code emulation is wrong"],
  ["BYTES_ADDRESS", "a slice's macroblock address"],
  ["BYTES_QUANT", "a quantiser of 0"],
  ["BYTES_SLICE_REFERENCE", "a slice names another reference than its picture"],
  ["BYTES_BCI", "a back-channel indication that is neither 1 nor 01"],
  ["BYTES_EMPTY", "a slice with no macroblock"],
  ["BYTES_TRAILING", "more than padding after the last macroblock"],
  ["BYTES_NO_START", "not the rest of a start code"],
  ["BYTES_PICTURE_TYPE", "PTYPE isn't the extended one"],
  ["BYTES_UFEP", "UFEP isn't 001"],
  ["BYTES_SOURCE_FORMAT", "another source format than the three"],
  ["BYTES_OTHER_FORMAT", "not the expected source format"],
  ["BYTES_MODES", "the optional modes aren't Annexes K and N alone"],
  ["BYTES_PICTURE_KIND", "a picture that is neither I nor P"],
  ["BYTES_RESAMPLING", "resampling"],
  ["BYTES_CPM", "continuous presence multipoint"],
  ["BYTES_DIVISOR", "a custom picture clock whose divisor is 0"],
  ["BYTES_SLICE_MODE", "slices that are rectangular or in any order"],
  ["BYTES_RPSMF", "another mode of the back channel than the four"],
  ["BYTES_INTRA_REFERENCE", "an I picture that names a reference"],
  ["BYTES_NO_REFERENCE", "a P picture that names none"],
  ["BYTES_HIGH_BITS", "a temporal reference of more than eight bits"],
  ["BYTES_MESSAGES", "a back-channel message with a fault"],
  ["BYTES_MANY_MESSAGES", "a fifth message"],
  ["BYTES_FOLLOW_ON", "a packet that begins neither a picture nor a slice"],
  ["BYTES_EXTRA_HEADER", "an extra picture header that isn't as it must be"],
  ["BYTES_NO_EXTRA_HEADER", "no extra picture header before a later slice"],
  ["BYTES_LONG", "more than 65,535 bytes"],
  ["BYTES_SHORT", "it ends inside its RTP header"],
  ["BYTES_VERSION", "another version of RTP than 2"],
  ["BYTES_PADDING", "RTP padding whose count doesn't fit"],
  ["BYTES_PAYLOAD_TYPE", "another payload type"],
  ["BYTES_SOURCE", "another source"],
]);

/** Why bytes aren't a message (`enum h263rps_message_fault`). */
export const MessageFault = tableOf(class MessageFault extends Named {}, 1, [
  ["LENGTH", "neither three bytes nor five, as it says itself"],
  ["KIND", "neither an acknowledgement nor its opposite"],
  ["HIGH", "a picture number that the clock doesn't have"],
  ["MARKER", "a marker bit is 0"],
  ["PAIR", "an acknowledgement of two pictures"],
]);
