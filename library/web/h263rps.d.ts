/** Both ends of a video call in H.263 with acknowledged reference pictures, over RTP, in WebAssembly. */

/** Whatever has its bytes in one piece, each an item of its own. It is copied before the call goes on. */
export type Bytes = ArrayBufferView | ArrayBufferLike;

export type Format = "sub-qcif" | "qcif" | "cif";
export type Pacing = "fits" | "follows";
export type Clock = "standard" | "custom";
export type Kind = "taken" | "completed" | "late" | "early" | "repeat" | "refused";
export type Mark = "exact" | "patched" | "held";
export type Note = "noted" | "old" | "no message";
export type Verdict = "dropped" | "no place" | "ahead" | "heard";
export type Cause = "long" | "malformed" | "other pictures" | "too fast" | "other stream";
export type Run = "followed" | "former" | "tried";
export type FaultGroup = "bytes" | "other clock" | "header differs" | "missing reference" | "overlap";
export type Distance = "intra" | "1" | "2" | "3" | "4 to 7" | "8 or more";
export type Param =
  "quant" | "keep" | "radius" | "limit" | "slots" | "lead" | "messages" | "format" | "clock" | "target" | "pace";
export type Status =
  | "not started" | "started" | "other end" | "bad params" | "no memory" | "ended" | "wrong length"
  | "bad messages" | "no packet" | "short room" | "null" | "too long" | "no start" | "no stream" | "no receiver" | "other";

export const FORMATS: Readonly<Record<Format, number>>;
export const CLOCKS: Readonly<Record<Clock, number>>;
export const PACES: Readonly<Record<Pacing, number>>;
export const HEARD: readonly Kind[];
export const MARKS: readonly Mark[];
export const NOTED: readonly Note[];
export const VERDICTS: readonly Verdict[];
/** Those of a dropped datagram, from number 1 on. */
export const CAUSES: readonly Cause[];
export const RUNS: readonly Run[];
export const GROUPS: readonly FaultGroup[];
export const DISTANCES: readonly Distance[];
export const PARAMS: readonly Param[];
/** What a start names: a parameter, the number at which a receiver begins, the struct's size, or a setting of a session. */
export const FAULTS: readonly (Param | "number" | "size" | "rate" | "wait")[];
/** Each status by its number; the first is "ok". */
export const STATUS: readonly (Status | "ok")[];
/** What a sender's packets have, and a receiver's must have. */
export const SSRC: 0x48323633;
export const PAYLOAD_TYPE: 96;

/** A call that changed nothing. */
export class Refused extends Error {
  readonly name: "Refused";
  /** Which call: "start", "code", "packet" .. */
  readonly call: string;
  readonly status: Status;
  /** What more there is to say: the parameter that a start refuses. */
  readonly detail: string;
  /** What the status means, in a few words. */
  readonly text: string;
}

/** A number of the header, with its name there and what it means. Equal ones are one object. */
interface Named {
  readonly number: number;
  readonly name: string;
  readonly text: string;
}

type Table<T, Names extends string> = { readonly [name in Names]: T } & {
  /** The one of this number, null for 0. */
  of(number: number): T | null;
};

/** Why a packet is refused. */
export type Fault = Named;
export const Fault: Table<Fault,
  | "OTHER_CLOCK" | "HEADER_DIFFERS" | "MISSING_REFERENCE" | "OVERLAP" | "BYTES_ENDED" | "BYTES_BAD_CODE"
  | "BYTES_BAD_DC" | "BYTES_BAD_LEVEL" | "BYTES_PAST_END" | "BYTES_FOUR_VECTORS" | "BYTES_BAD_VECTOR"
  | "BYTES_MARKER" | "BYTES_ADDRESS" | "BYTES_QUANT" | "BYTES_SLICE_REFERENCE" | "BYTES_BCI" | "BYTES_EMPTY"
  | "BYTES_TRAILING" | "BYTES_NO_START" | "BYTES_PICTURE_TYPE" | "BYTES_UFEP" | "BYTES_SOURCE_FORMAT"
  | "BYTES_OTHER_FORMAT" | "BYTES_MODES" | "BYTES_PICTURE_KIND" | "BYTES_RESAMPLING" | "BYTES_CPM"
  | "BYTES_DIVISOR" | "BYTES_SLICE_MODE" | "BYTES_RPSMF" | "BYTES_INTRA_REFERENCE" | "BYTES_NO_REFERENCE"
  | "BYTES_HIGH_BITS" | "BYTES_MESSAGES" | "BYTES_MANY_MESSAGES" | "BYTES_FOLLOW_ON" | "BYTES_EXTRA_HEADER"
  | "BYTES_NO_EXTRA_HEADER" | "BYTES_LONG" | "BYTES_SHORT" | "BYTES_VERSION" | "BYTES_PADDING"
  | "BYTES_PAYLOAD_TYPE" | "BYTES_SOURCE">;

/** Why bytes aren't a message. */
export type MessageFault = Named;
export const MessageFault: Table<MessageFault, "LENGTH" | "KIND" | "HIGH" | "MARKER" | "PAIR">;

/** What may be changed of the defaults; the header says what each means. */
export interface Changed {
  quant?: number;
  keep?: number;
  radius?: number;
  limit?: number;
  slots?: number;
  lead?: number;
  messages?: number;
  /** A number of CLOCKS. */
  clock?: number;
  target?: number;
  /** A number of PACES. */
  pace?: number;
}

/** The parameters of a call. Both ends need the same `format` and `clock`. */
export class Params implements Required<Changed> {
  static of(format: Format, changed?: Changed): Params;
  quant: number;
  keep: number;
  radius: number;
  limit: number;
  slots: number;
  lead: number;
  messages: number;
  /** A number of FORMATS. */
  format: number;
  clock: number;
  target: number;
  pace: number;
}

/** A picture that was coded. `reference` is the picture that it is predicted from, null for intra. */
export interface Coded {
  readonly number: number;
  readonly packets: number;
  readonly reference: number | null;
}

/** A receiver's answer to a packet. `at` is the bit of a fault of its bytes, `number` its picture's. */
export interface Heard {
  kind: Kind;
  fault: Fault | null;
  at: number;
  /** What goes back to the sender, where it has bytes. */
  message: Uint8Array;
  number: number;
}

/** A picture that is shown: Y, Cb, Cr, each by rows from the top. */
export interface Played {
  mark: Mark;
  /** Of playLent a view of the receiver's own, to be read until the next call of anything here. */
  picture: Uint8Array;
  message: Uint8Array;
  number: number;
  /** Null where the picture is intra, or nothing of it was taken. */
  reference: number | null;
}

/** A sender's answer to a message. */
export interface Reply {
  kind: Note;
  fault: MessageFault | null;
}

/** What a receiver has counted. */
export interface Received {
  packets: number;
  bytes: number;
  heard: Record<Kind, number>;
  faults: Record<FaultGroup, number>;
  played: Record<Mark, number>;
}

/** What a sender has counted. */
export interface Sent {
  packets: number;
  bytes: number;
  coded: Record<Distance, number>;
  noted: Record<Note, number>;
}

/** When a session's pictures are due: `rate` come in `second` seconds (1), and each waits so many nanoseconds. */
export interface Timing {
  rate: number;
  second?: number;
  wait: bigint;
}

/** A session's answer to a datagram. */
export interface Arrived {
  verdict: Verdict;
  /** Why it is dropped. */
  cause: Cause | null;
  /** The run that took it, and the SSRC of its stream. */
  run: Run | null;
  source: number | null;
  /** The number of a picture that is ahead. */
  ahead: number | null;
  /** Said once a second: another stream comes beside the one that is followed, so one of them is forged. */
  isRival: boolean;
  /** The receiver's answer where it is heard; else null, null, 0 and no bytes. */
  kind: Kind | null;
  fault: Fault | null;
  at: number;
  message: Uint8Array;
}

/** A picture that a session played. That of the followed run is shown; what else is said is a receiver's. */
export interface Turn {
  run: Run;
  source: number;
  mark: Mark;
  message: Uint8Array;
  number: number;
  reference: number | null;
}

/** The field of a Generic NACK (RFC 4585, 6.2.1): PID, a packet's sequence number, and BLP, a bit for each of the 16 after it. */
export interface Nack {
  packet: number;
  following: number;
}

/** What a session has counted: datagrams that a run took, the others by their causes, and the followed streams' pictures. */
export interface Followed {
  taken: number;
  dropped: Record<Cause, number>;
  played: Record<Mark, number>;
}

/** What a packet says of its picture, before any end takes it. */
export interface Start {
  format: Format;
  clock: Clock;
  temporalReference: number;
  reference: number | null;
  /** Each is for `feedback` of one's own sender. */
  messages: Uint8Array[];
}

/** Loads the module: from an address, or of its bytes, or compiled; by default h263rps.wasm beside the script. */
export function load(source?: string | URL | Bytes | WebAssembly.Module): Promise<void>;
/** Whether the engine has memories of 64 bits, without which nothing can be loaded. */
export function hasLongMemory(): boolean;
/** The version of the library: 10,000 times its major number and 100 times its minor one. */
export function version(): number;
/** How many bytes a picture has. */
export function pictureSize(format: Format): number;
/** What a packet says of its picture; bytes that begin as no packet are Refused. */
export function packetStart(packet: Bytes): Start;
/** The same of one whose SSRC may be any, as a session takes it: for a sender where it was heard, in the followed run. */
export function datagramStart(datagram: Bytes): Start;
/** An RTP packet with another SSRC and payload type, as a new one. */
export function label(packet: Bytes, ssrc: number, payloadType: number): Uint8Array;

/** Where a line begins, between which its rate stays, and when: a BigInt of nanoseconds. */
export interface Bounds {
  /** Bytes a picture, with 1 <= least <= first <= most <= 999,999. */
  first: number;
  least: number;
  most: number;
  /** The finest quantiser, 1 to 31. */
  finest: number;
  /** The time of a picture, in nanoseconds. */
  period: number;
  now: bigint;
}

/** An end, or what stands beside one, between its start and its close. */
declare class Started {
  /** Gives the memory back. A second one does nothing. */
  close(): void;
}

/** What codes pictures into packets. */
declare class Coder extends Started {
  constructor(params: Params);
  /** Codes the next picture, with up to four messages in its header. */
  code(picture: Bytes, messages?: Iterable<Bytes>): Coded;
  /** A packet of the picture that was coded last. */
  packet(number: number): Uint8Array;
  /** The packets of the picture that was coded last; of an older one they are gone. */
  packets(coded: Coded): Uint8Array[];
  /** Follows this many bytes a picture from the next picture on, or none where it is 0. */
  target(size: number): void;
  /** Codes with this quantiser, 1 to 31, from the next picture on, and follows no target. */
  quant(quant: number): void;
  /** How many pictures were coded: the number of the next one. */
  sent(): number;
  statistics(): Sent;
}

/** The end that codes pictures into packets, and hears the other side's messages. */
export class Sender extends Coder {
  /** Takes a message of the other side. */
  feedback(message: Bytes): Reply;
  /** Takes no earlier picture as a reference again: the next one is intra. */
  forget(): void;
  /** Begins a call anew, with this target. */
  reset(target: number): void;
  /** How many pictures it knows to be complete on the other side, of those to which its next one may refer. */
  known(): number;
}

/** One sender for up to 16 receivers at places from 0 to 15: a picture refers to the newest one that all are known to have. */
export class Group extends Coder {
  /** A receiver joins at a place, and begins with the next picture, whose number `sent()` has. One that was there has left. */
  join(receiver: number): void;
  /** The receiver at this place leaves: what it has doesn't matter any more. */
  leave(receiver: number): void;
  /** Takes a message of the receiver at this place; Refused, as "no receiver", where none is. */
  feedback(receiver: number, message: Bytes): Reply;
  /** The first receiver known to have none of the pictures to which the next may refer: while there is one, all are intra. */
  waitingFor(): number | null;
  /** The newest picture that all are known to have, of those to which the next may refer; null: the next one is intra. */
  reference(): number | null;
}

/** The packets that were sent last, so that those can be sent again for which a receiver asks. */
export class Repeats extends Started {
  /** At least the last `count` packets (512), of at most `longest` bytes (1,500). */
  constructor(size?: { count?: number; longest?: number });
  /** Keeps an RTP packet that was sent; not one that is longer than `longest`, or too short. */
  keep(packet: Bytes): void;
  /** A copy of the newest packet with this sequence number; null where it isn't kept. */
  find(sequence: number): Uint8Array | null;
}

/** The rate that a line carries, by what the messages of the other side tell. */
export class Line extends Started {
  constructor(bounds: Bounds);
  /** The picture of this number went out, with `size` bytes in so many packets. */
  sent(number: number, size: number, packets: number, now: bigint): void;
  /** A message came about this picture: it is whole at the other side, or it isn't. */
  told(number: number, isWhole: boolean, now: bigint): void;
  /** Whether the next frame may go out; else it is to be left out. */
  hasRoom(now: bigint): boolean;
  /** Bytes a second that the line carries, with the heads of IP and UDP. */
  readonly rate: number;
  /** Bytes that the next picture may have. */
  readonly wanted: number;
  /** The next picture's target, for `target` of a sender. */
  readonly target: number;
  /** The quantiser at which the next picture would have about the bytes that it may have. */
  readonly quant: number;
}

/** Fits the pictures of a sender to a target in bytes a picture, which their sum may exceed by a room. */
export class Pace {
  constructor(format: Format, bytes: { target: number; room: number });
  /** Follows these from the next picture on. What was sent beyond the target stays counted. */
  target(target: number, room: number): void;
  /** The quantiser for the next picture of a sender or a group, 2 to 31, which it codes with. */
  next(sender: Sender | Group): number;
  /** The picture was coded with this quantiser, and its packets have so many bytes together. */
  coded(coded: Coded, quant: number, size: number): void;
  /** Bytes by which the pictures exceed the target. */
  readonly level: number;
}

/** The end that hears packets and plays a picture at each picture's time. */
export class Receiver extends Started {
  /** A receiver whose next picture is the one of this number, up to 1,048,576. */
  constructor(params: Params, number?: number);
  /** Takes a whole RTP packet, whatever it is. */
  packet(packet: Bytes): Heard;
  /** Plays the next picture, and gives a copy of it. */
  play(): Played;
  /** Plays the next picture, and lends it: a view to be read, and not written, until the next call. */
  playLent(): Played;
  /** Lends the picture that is shown, in the same way. */
  shown(): Uint8Array;
  /** Begins a call anew at the picture of this number. */
  reset(number?: number): void;
  /** How many pictures were played, those before its start too: the number of the next one. */
  played(): number;
  statistics(): Received;
}

/** Between a network and a screen. Each time is in nanoseconds of one clock that doesn't go back, and so exact. */
export class Session extends Started {
  constructor(params: Params, timing: Timing);
  /** Takes a datagram that came then, whatever it is. One that is "ahead" is handed in again once nothing is due. */
  arrival(datagram: Bytes, now: bigint): Arrived;
  /** The same, of the stream with this SSRC alone. */
  arrivalOf(source: number, datagram: Bytes, now: bigint): Arrived;
  /** When something is due next if nothing comes: 0n where it is at once, and null where nothing is known to be. */
  due(): bigint | null;
  /** Plays the next picture that is due by then, one a call; null where none is. */
  play(now: bigint): Turn | null;
  /** Lends the followed stream's picture that was played last: a view to be read until the next call of anything here. */
  shown(): Uint8Array;
  /** What to ask for of the followed stream, if repeats take so many nanoseconds. It counts as asked for then. */
  missing(roundTrip: bigint, now: bigint): Nack[];
  /** The stream with this SSRC has ended: if it is the followed one, another may be followed at once. */
  bye(source: number, now: bigint): void;
  /** Begins anew, as with another party; the clock and what was counted stay. */
  reset(now: bigint): void;
  /** The SSRC of the stream that has this run, the followed one by default; null where none has. */
  source(run?: Run): number | null;
  statistics(): Followed;
}
