#!/usr/bin/env node
/* wrong.mjs: wrong calls of the module for JavaScript: each is an exception that names what is wrong, and never a trap. */

import {
  Line, Pace, Params, PAYLOAD_TYPE, Receiver, Repeats, SSRC, Sender, Session, datagramStart, label, load, packetStart, pictureSize,
  version,
} from "../h263rps.js";

/** The acknowledgement of picture 0. */
const ACK = new Uint8Array([0xc0, 0x04, 0x00]);
const QCIF = 38016;
const bytes = (length, value = 0) => new Uint8Array(length).fill(value);

function wanted(told, call) {
  let is;
  try {
    is = JSON.stringify(call(), (_, it) => (typeof it === "bigint" ? `${it}n` : it));
  } catch (fault) {
    if (fault instanceof WebAssembly.RuntimeError) throw fault;
    is = `${fault.name}: ${fault.message}`;
  }
  if (is !== told) {
    console.error(`${is}, and not ${told}`);
    process.exitCode = 1;
  }
}

/** What is done with a sender and a receiver of QCIF. */
function withEnds(act) {
  const ends = [new Sender(Params.of("qcif")), new Receiver(Params.of("qcif"))];
  act(...ends);
  ends.forEach((end) => end.close());
}

/** The module's instance, which only this test looks into. */
let instance;
const { instantiate } = WebAssembly;
WebAssembly.instantiate = async (...words) => (instance = await instantiate(...words));

wanted("Error: the module isn't loaded: await load() first", () => Params.of("qcif"));
wanted("Error: the module isn't loaded: await load() first", version);
await load(process.env.H263RPS_MODULE ? new URL(process.env.H263RPS_MODULE, "file:") : undefined);

// Parameters.
wanted("Refused: start: bad params: slots", () => new Sender(Params.of("qcif", { slots: 65 })));
wanted("RangeError: quant: 264 is out of its range", () => Params.of("qcif", { quant: 264 }));
wanted("RangeError: lead: -1 is out of its range", () => Params.of("qcif", { lead: -1 }));
wanted("TypeError: lead: a whole number is wanted", () => Params.of("qcif", { lead: 1.5 }));
wanted("TypeError: lead: a whole number is wanted", () => Params.of("qcif", { lead: "3" }));
wanted("RangeError: there is no format vga", () => Params.of("vga"));
wanted("RangeError: there is no format toString", () => pictureSize("toString"));
wanted("RangeError: there is no format Symbol(qcif)", () => pictureSize(Symbol("qcif")));
wanted("TypeError: there is no parameter slot to change", () => Params.of("qcif", { slot: 9 }));
wanted("TypeError: Cannot add property slot, object is not extensible", () => { Params.of("qcif").slot = 9; });
wanted("TypeError: params: Params are wanted, as Params.of gives them", () => new Sender({ format: 2 }));
wanted("TypeError: params: Params are wanted, as Params.of gives them", () => new Receiver());
wanted("Refused: start: bad params: format", () => new Sender(new Params()));
wanted("Refused: start: bad params: number", () => new Receiver(Params.of("qcif"), 1048577));
wanted("RangeError: number: -1 is out of its range", () => new Receiver(Params.of("qcif"), -1));
wanted("TypeError: number: a whole number is wanted", () => new Receiver(Params.of("qcif"), 1n));

// Bytes of all kinds, and what is none.
wanted("Refused: packet start: no start", () => packetStart(Buffer.from("abc")));
wanted("Refused: packet start: no start", () => packetStart(bytes(100000)));
wanted("TypeError: packet: bytes are wanted: a Uint8Array, an ArrayBuffer or a view of one", () => packetStart("abc"));
wanted("TypeError: packet: bytes are wanted: a Uint8Array, an ArrayBuffer or a view of one", () => packetStart([1, 2]));
wanted("TypeError: packet: bytes are wanted: a Uint8Array, an ArrayBuffer or a view of one", () => packetStart(null));
wanted("TypeError: packet: bytes are wanted, and not items of 2 bytes", () => packetStart(new Uint16Array(9)));

withEnds((sender, receiver) => {
  wanted("Refused: code: wrong length", () => sender.code(bytes(3)));
  wanted("Refused: code: wrong length", () => sender.code(bytes(1 << 20)));
  wanted("Refused: code: bad messages", () => sender.code(bytes(QCIF), [bytes(6)]));
  wanted("Refused: code: bad messages", () => sender.code(bytes(QCIF), [bytes(256)]));
  for (const length of [1, 2, 4, 5]) {
    const message = new Uint8Array(length);
    message.set(ACK.subarray(0, length));
    wanted("Refused: code: bad messages", () => sender.code(bytes(QCIF), [bytes(0), message]));
  }
  wanted("Refused: code: bad messages", () => sender.code(bytes(QCIF), Array(5).fill(bytes(0))));
  wanted("Refused: code: bad messages", () => sender.code(bytes(QCIF), Array(1000).fill(ACK)));
  wanted("TypeError: message: bytes are wanted: a Uint8Array, an ArrayBuffer or a view of one", () => sender.code(bytes(QCIF), [3]));
  wanted("TypeError: number 3 is not iterable (cannot read property Symbol(Symbol.iterator))", () => sender.code(bytes(QCIF), new Set(3)));
  wanted("Refused: packet: no packet", () => sender.packet(0));
  wanted("TypeError: number: a whole number is wanted", () => sender.packet());
  wanted("Refused: packets: no packet: picture undefined isn't the last one", () => sender.packets(null));
  wanted("Refused: target: bad params", () => sender.target(1000000));
  wanted("RangeError: target: 4294967296 is out of its range", () => sender.target(2 ** 32));
  wanted("TypeError: target: a whole number is wanted", () => sender.target(NaN));
  wanted("Refused: quant: bad params", () => sender.quant(0));
  wanted("Refused: quant: bad params", () => sender.quant(288));
  wanted("TypeError: quant: a whole number is wanted", () => sender.quant(8.5));
  wanted("Refused: reset: bad params", () => sender.reset(1000000));
  wanted("Refused: reset: bad params", () => receiver.reset(1048577));
  wanted("RangeError: number: -1 is out of its range", () => receiver.reset(-1));
  wanted("[0,0,0]", () => [sender.sent(), sender.known(), receiver.played()]);
  wanted('{"kind":"no message","fault":{"number":1,"name":"LENGTH","text":"neither three bytes nor five, as it says itself"}}',
    () => sender.feedback(bytes(0)));
  wanted("1", () => sender.statistics().noted["no message"]);
  wanted('["refused","BYTES_SHORT",0]', () => {
    const { kind, fault, at } = receiver.packet(new ArrayBuffer(0));
    return [kind, fault.name, at];
  });
  wanted('["held",0,null,38016,128]', () => {
    const { mark, number, reference, picture } = receiver.playLent();
    return [mark, number, reference, picture.length, picture.at(-1)];
  });
  wanted("true", () => Buffer.from(receiver.play().picture).equals(Buffer.from(receiver.shown())));
});

// Ends that are closed, or were never begun.
withEnds((sender, receiver) => {
  sender.close();
  receiver.close();
  sender.close();
  wanted("Refused: code: not started", () => sender.code(bytes(QCIF)));
  wanted("Refused: forget: not started", () => sender.forget());
  wanted("Refused: packet: not started", () => sender.packet(0));
  wanted("Refused: statistics: not started", () => sender.statistics());
  wanted("Refused: shown: not started", () => receiver.shown());
  wanted("Refused: play: not started", () => receiver.play());
  wanted("Refused: packet: not started", () => receiver.packet(bytes(12)));
  wanted("TypeError: Receiver.prototype.shown.call(...) is not an end", () => {
    try {
      return Receiver.prototype.shown.call({});
    } catch (fault) {
      throw fault instanceof TypeError ? new TypeError("Receiver.prototype.shown.call(...) is not an end") : fault;
    }
  });
});
wanted("Refused: play: ended", () => new Receiver(Params.of("qcif"), 1048576).play());

// A session: what it is started with, times, and what comes.
const SESSION = { rate: 30000, second: 1001, wait: 60_000_000n };
for (const [told, timing] of [
  ["Refused: start: bad params: rate", { rate: 0, wait: 1n }],
  ["Refused: start: bad params: rate", { rate: 65537, wait: 1n }],
  ["Refused: start: bad params: rate", { rate: 30, second: 4097, wait: 1n }],
  ["Refused: start: bad params: wait", { ...SESSION, wait: 100_100_001n }],
  ["TypeError: wait: a BigInt is wanted", { ...SESSION, wait: 60e6 }],
  ["RangeError: wait: -1 is out of its range", { ...SESSION, wait: -1n }],
  ["RangeError: wait: 18446744073709551616 is out of its range", { ...SESSION, wait: 2n ** 64n }],
  ["RangeError: second: 4294967296 is out of its range", { ...SESSION, second: 2 ** 32 }],
  ["TypeError: rate: a whole number is wanted", { ...SESSION, rate: 29.97 }],
  ["TypeError: rate: a whole number is wanted", undefined],
]) wanted(told, () => new Session(Params.of("qcif"), timing));
wanted("TypeError: params: Params are wanted, as Params.of gives them", () => new Session({ format: 2 }, SESSION));
wanted("Refused: start: bad params: slots", () => new Session(Params.of("qcif", { slots: 65 }), { rate: 0, wait: 1n }));
withEnds((sender) => {
  const session = new Session(Params.of("qcif"), { ...SESSION, wait: 0n });
  wanted("TypeError: now: a BigInt is wanted", () => session.arrival(bytes(12), 5));
  wanted("TypeError: now: a BigInt is wanted", () => session.play());
  wanted("RangeError: now: -1 is out of its range", () => session.play(-1n));
  wanted("TypeError: datagram: bytes are wanted: a Uint8Array, an ArrayBuffer or a view of one", () => session.arrival("abc", 0n));
  wanted("RangeError: there is no run shown", () => session.source("shown"));
  wanted("[null,null,null,null]", () => [session.due(), session.play(0n), session.source(), session.source("tried")]);
  wanted('["dropped","malformed",null,null,null,null]', () => {
    const { verdict, cause, run, source, kind, fault } = session.arrival(bytes(0), 0n);
    return [verdict, cause, run, source, kind, fault];
  });
  wanted('["malformed","long"]', () => [9000, 9001].map((length) => session.arrival(bytes(length), 0n).cause));
  wanted('["dropped","malformed"]', () => Object.values(session.arrivalOf(7, bytes(0), 0n)).slice(0, 2));
  wanted("RangeError: source: -1 is out of its range", () => session.arrivalOf(-1, bytes(0), 0n));
  wanted("TypeError: source: a whole number is wanted", () => session.arrivalOf(bytes(0), 0n));
  wanted("[]", () => session.missing(0n, 0n));
  wanted("TypeError: roundTrip: a BigInt is wanted", () => session.missing(50e6, 0n));
  wanted("RangeError: now: -1 is out of its range", () => session.missing(0n, -1n));
  wanted("TypeError: now: a BigInt is wanted", () => session.bye(7));
  wanted("RangeError: source: 4294967296 is out of its range", () => session.bye(2 ** 32, 0n));
  wanted("TypeError: now: a BigInt is wanted", () => session.reset());
  wanted("[null,null]", () => [session.bye(7, 0n), session.reset(0n)].map((it) => it ?? null));
  wanted("[38016,128]", () => [session.shown().length, session.shown().at(-1)]);
  const [packet] = sender.packets(sender.code(bytes(QCIF)));
  wanted('["heard","tried",7,"completed",3]', () => {
    const { verdict, run, source, kind, message } = session.arrival(label(packet, 7, PAYLOAD_TYPE), 10n ** 18n);
    return [verdict, run, source, kind, message.length];
  });
  // From 2^62 - 1 on the clock stands; and it never goes back.
  wanted('["1000000000001000000n",7,"exact",0]', () => {
    const due = session.due();
    const { source, mark, number } = session.play(2n ** 64n - 1n);
    return [due, source, mark, number];
  });
  wanted('{"taken":1,"dropped":{"long":1,"malformed":3,"other pictures":0,"too fast":0,"other stream":0},"played":{"exact":1,"patched":0,"held":0}}',
    () => session.statistics());
  session.close();
  session.close();
  wanted("Refused: arrival: not started", () => session.arrival(bytes(12), 0n));
  wanted("Refused: arrival: not started", () => session.arrivalOf(7, bytes(12), 0n));
  wanted("Refused: missing: not started", () => session.missing(0n, 0n));
  wanted("Refused: bye: not started", () => session.bye(7, 0n));
  wanted("Refused: reset: not started", () => session.reset(0n));
  wanted("Refused: due: not started", () => session.due());
  wanted("Refused: play: not started", () => session.play(0n));
  wanted("Refused: source: not started", () => session.source());
  wanted("Refused: shown: not started", () => session.shown());
  wanted("Refused: statistics: not started", () => session.statistics());
});

// A header has the messages of the places that aren't empty; a picture before the last one has no packets any more.
withEnds((sender) => {
  const [plain, empty, one] = [[], [bytes(0)], [bytes(0), ACK, bytes(0)]].map((back) => {
    sender.forget();
    return sender.packets(sender.code(bytes(QCIF), back))[0].length;
  });
  wanted("[true,true]", () => [plain === empty, empty < one]);
  const first = sender.code(bytes(QCIF));
  const second = sender.code(bytes(QCIF));
  wanted("Refused: packets: no packet: picture 3 isn't the last one", () => sender.packets(first));
  wanted("true", () => sender.packets(second).length === second.packets);
  sender.reset(0);
  wanted("Refused: packets: no packet: picture 4 isn't the last one", () => sender.packets(second));
});

// Another SSRC and payload type, and back.
withEnds((sender, receiver) => {
  const [packet] = sender.packets(sender.code(bytes(QCIF)));
  const other = label(packet, 1, 127);
  wanted("[127,\"refused\"]", () => [other[1] & 127, receiver.packet(other).kind]);
  wanted("true", () => Buffer.from(label(other, SSRC, PAYLOAD_TYPE)).equals(Buffer.from(packet)));
  wanted('"completed"', () => receiver.packet(label(other, SSRC, PAYLOAD_TYPE)).kind);
  wanted("Refused: label: wrong length", () => label(packet.slice(0, 11), 1, 127));
  wanted("RangeError: payloadType: 128 is out of its range", () => label(packet, 1, 128));
  wanted("RangeError: ssrc: -1 is out of its range", () => label(packet, -1, 96));
});

// The module's own memory as what is handed over: a picture that is lent, and a packet longer than any.
withEnds((sender, receiver) => {
  wanted("0", () => sender.code(receiver.shown()).number);
  wanted('"BYTES_LONG"', () => receiver.packet(new Uint8Array(receiver.shown().buffer)).fault.name);
});

// Bytes of what several threads share.
withEnds((sender) => wanted("0", () => sender.code(new Uint8Array(new SharedArrayBuffer(QCIF))).number));

// A call that the engine breaks off, for want of stack: no end of that module is called again, and a new one serves.
withEnds((sender) => {
  const deep = () => {
    sender.known();
    deep();
  };
  try {
    deep();
  } catch (fault) {
    if (!(fault instanceof RangeError) && !/broken off/.test(fault.message)) throw fault;
  }
});
await load(process.env.H263RPS_MODULE ? new URL(process.env.H263RPS_MODULE, "file:") : undefined);
withEnds((sender) => wanted("0", () => sender.code(bytes(QCIF)).number));

// Packets that were sent.
for (const size of [{ count: 0 }, { count: 65537 }, { longest: 11 }, { longest: 65508 }]) {
  wanted("Refused: start: bad params", () => new Repeats(size));
}
wanted("TypeError: count: a whole number is wanted", () => new Repeats({ count: "9" }));
{
  const repeats = new Repeats({ count: 4, longest: 20 });
  const packet = (n, length) => Uint8Array.from({ length }, (_, at) => [128, 96, n >> 8, n & 255][at] ?? n % 251);
  const numbers = [65534, 65535, 0, 1, 2];
  for (const n of numbers) repeats.keep(packet(n, 13));
  wanted("[null,13,13,13,13]", () => numbers.map((n) => repeats.find(n)?.length ?? null));
  wanted(JSON.stringify(Array.from(packet(2, 13))), () => Array.from(repeats.find(2)));
  repeats.keep(packet(2, 21));
  repeats.keep(packet(2, 11));
  wanted("13", () => repeats.find(2).length);
  wanted("RangeError: sequence: 65536 is out of its range", () => repeats.find(65536));
  wanted("TypeError: packet: bytes are wanted: a Uint8Array, an ArrayBuffer or a view of one", () => repeats.keep("a"));
  repeats.close();
  wanted("Refused: find: not started", () => repeats.find(1));
  wanted("Refused: keep: not started", () => repeats.keep(packet(2, 13)));
}

// A line: of eight pictures one is whole, so that three eighths of its rate are left.
const BOUNDS = { first: 1800, least: 60, most: 999_999, finest: 8, period: 100_000_000, now: 0n };
for (const more of [{ least: 0 }, { first: 59 }, { most: 1799 }, { most: 1e6 }, { finest: 0 }, { finest: 32 }, { period: 0 }]) {
  wanted("Refused: start: bad params", () => new Line({ ...BOUNDS, ...more }));
}
wanted("TypeError: first: a whole number is wanted", () => new Line());
wanted("TypeError: now: a BigInt is wanted", () => new Line({ ...BOUNDS, now: 0 }));
{
  const line = new Line(BOUNDS);
  wanted("[18000,1800,1800,8]", () => [line.rate, line.wanted, line.target, line.quant]);
  for (let n = 0; n < 9; n++) {
    line.sent(n, 1800, 2, BigInt(n) * 100_000_000n);
    line.told(n, n < 2, BigInt(n) * 100_000_000n + 20_000_000n);
  }
  wanted("6750", () => line.rate);
  wanted("[false,true]", () => [line.hasRoom(1_019_000_000n), line.hasRoom(1_020_000_000n)]);
  wanted("RangeError: packets: 65536 is out of its range", () => line.sent(9, 1, 65536, 0n));
  wanted("TypeError: now: a BigInt is wanted", () => line.hasRoom(5));
  line.close();
  wanted("Refused: rate: not started", () => line.rate);
  wanted("Refused: hasRoom: not started", () => line.hasRoom(0n));
}

// The messages of a packet with any SSRC.
withEnds((sender) => {
  const packet = label(sender.packets(sender.code(bytes(QCIF), [ACK]))[0], 7, PAYLOAD_TYPE);
  wanted("Refused: packet start: no start", () => packetStart(packet));
  wanted("[[192,4,0]]", () => datagramStart(packet).messages.map((message) => Array.from(message)));
  wanted("Refused: datagram start: no start", () => datagramStart(label(packet, 7, 97)));
  wanted("Refused: datagram start: no start", () => datagramStart(bytes(9001)));
});

// Ends that are started and finished again and again take no more memory than those that are open at once.
const sizes = { "sub-qcif": 18432, qcif: QCIF, cif: 152064 };
const size = (receiver) => receiver.shown().buffer.byteLength;
let most = 0;
for (let n = 0; n < 10_000; n++) {
  const format = Object.keys(sizes)[n % 3];
  const params = Params.of(format, { slots: 2 + (n % 7), lead: 0, limit: 1200 + (n % 5) * 1000 });
  const sender = new Sender(params);
  const receiver = new Receiver(params);
  if (n % 500 === 0) for (const packet of sender.packets(sender.code(bytes(sizes[format])))) receiver.packet(packet);
  const is = size(receiver);
  if (n < 100) most = Math.max(most, is);
  else if (is > most) {
    wanted(`the memory of the first hundred, ${most} bytes`, () => is);
    break;
  }
  // In either order.
  for (const end of n % 2 ? [sender, receiver] : [receiver, sender]) end.close();
}
console.log(`10,000 senders and receivers in ${(most / 1e6).toFixed(1)} MB`);
for (let n = 0, first = 0; n < 1000; n++) {
  const session = new Session(Params.of(Object.keys(sizes)[n % 3]), SESSION);
  const is = size(session);
  if (n === 3) first = is;
  if (n > 3) wanted(String(first), () => is);
  session.close();
}

// A pace.
wanted("Refused: start: bad params", () => new Pace("qcif", { target: 0, room: 8000 }));
wanted("Refused: start: bad params", () => new Pace("qcif", { target: 1000000, room: 8000 }));
wanted("RangeError: there is no format vga", () => new Pace("vga", { target: 1000, room: 8000 }));
wanted("TypeError: room: a whole number is wanted", () => new Pace("qcif", { target: 1000 }));
wanted("TypeError: target: a whole number is wanted", () => new Pace("qcif"));
withEnds((sender) => {
  const pace = new Pace("qcif", { target: 1000, room: 8000 });
  wanted("6", () => pace.next(sender));
  const coded = sender.code(bytes(QCIF));
  pace.coded(coded, 9, 3000);
  wanted("[2000,11]", () => [pace.level, pace.next(sender)]);
  wanted("RangeError: quant: 256 is out of its range", () => pace.coded(coded, 256, 3000));
  wanted("RangeError: size: -1 is out of its range", () => pace.coded(coded, 9, -1));
  wanted("Refused: target: bad params", () => pace.target(0, 8000));
  pace.target(500, 1000);
  wanted("[2000,31]", () => [pace.level, pace.next(sender)]);
});

// No memory left: a start is refused, and so is room for a packet longer than any; all else is as it was.
withEnds((sender, receiver) => {
  const { malloc, free } = instance.exports;
  const some = malloc(1n << 20n);
  const taken = [];
  for (let bytes = 2 ** 30; bytes >= 16; bytes /= 2) {
    for (let at = malloc(BigInt(bytes)); at; at = malloc(BigInt(bytes))) taken.push(at);
  }
  wanted("Refused: start: no memory: 216 bytes", () => new Receiver(Params.of("cif")));
  wanted("Refused: start: no memory: 16 bytes", () => new Session(Params.of("cif"), SESSION));
  wanted("Refused: memory: no memory: 200000 bytes", () => receiver.packet(bytes(200_000)));
  wanted("[0,\"held\"]", () => [sender.code(bytes(QCIF)).number, receiver.play().mark]);
  // There is some again, and too little: what a start took before it found that out it has given back.
  free(some);
  for (let n = 0; n < 3; n++) wanted("Refused: start: no memory", () => new Session(Params.of("cif"), SESSION));
  wanted("false", () => malloc((1n << 20n) - 64n) === 0n);
  taken.forEach(free);
});
withEnds((sender) => wanted("0", () => sender.code(bytes(QCIF)).number));
