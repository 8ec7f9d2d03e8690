/* What TypeScript takes and refuses of the module's types: tsc --noEmit. */

import {
  Fault, Group, Line, Pace, Params, Receiver, Refused, Repeats, Sender, Session, datagramStart, hasLongMemory, label, load, packetStart,
  pictureSize,
} from "../h263rps.js";
import type { Cause, Coded, Format, Mark, Turn } from "../h263rps.js";

export async function call(pictures: Iterable<Uint8Array>, format: Format): Promise<Record<Mark, number>> {
  if (!hasLongMemory()) throw new Error("no 64-bit memory");
  await load(new URL("h263rps.wasm", "file:///"));
  const sender = new Sender(Params.of(format, { target: 1800 }));
  const receiver = new Receiver(Params.of(format), 0);
  for (const picture of pictures) {
    const coded: Coded = sender.code(picture, []);
    for (const packet of sender.packets(coded)) {
      const heard = receiver.packet(label(packet, 1, 96));
      if (heard.fault === Fault.BYTES_SHORT) console.log(heard.fault.text, heard.at, packetStart(packet.buffer).format);
      if (heard.message.length) sender.feedback(heard.message);
    }
    const { picture: shown, reference } = receiver.playLent();
    if (reference !== null && shown.length !== pictureSize(format)) throw new RangeError();
  }
  const pace = new Pace(format, { target: 1000, room: 20_000 });
  const quant: number = pace.next(sender);
  sender.quant(quant + pace.level);
  try {
    sender.target(-1);
  } catch (fault) {
    if (fault instanceof Refused && fault.status === "bad params") console.log(fault.detail);
  }
  return receiver.statistics().played;
}

export function follow(datagrams: Iterable<[Uint8Array, bigint]>, reply: (source: number, message: Uint8Array) => void): Record<Cause, number> {
  const session = new Session(Params.of("cif", { lead: 4 }), { rate: 30000, second: 1001, wait: 60_000_000n });
  for (const [datagram, now] of datagrams) {
    const { verdict, source, message, isRival } = session.arrival(datagram, now);
    if (source !== null && message.length && verdict === "heard" && !isRival) reply(source, message);
    for (let turn: Turn | null = session.play(now); turn; turn = session.play(now)) {
      if (turn.run === "followed" && turn.mark === "exact") console.log(turn.number, session.shown().length, session.source("former"));
    }
    const due = session.due();
    if (due !== null) console.log(due - now);
    for (const { packet, following } of session.missing(50_000_000n, now)) console.log(packet + following);
    if (source !== null && session.arrivalOf(source, datagram, now).cause === "other stream") session.bye(source, now);
  }
  session.reset(0n);
  session.close();
  return session.statistics().dropped;
}

export function beside(packet: Uint8Array, now: bigint): Uint8Array | null {
  const line = new Line({ first: 900, least: 300, most: 3600, finest: 4, period: 33_366_667, now });
  if (line.hasRoom(now)) line.sent(0, packet.length, 1, now);
  line.told(0, datagramStart(packet).messages.length > 0, now);
  console.log(line.rate + line.wanted + line.target + line.quant);
  line.close();
  const repeats = new Repeats({ count: 512 });
  repeats.keep(packet);
  return repeats.find(7);
}

export function many(picture: Uint8Array, messages: Iterable<[number, Uint8Array]>): number | null {
  const group = new Group(Params.of("qcif"));
  group.join(3);
  const quant: number = new Pace("qcif", { target: 1000, room: 20_000 }).next(group);
  const coded: Coded = group.code(picture);
  for (const [receiver, message] of messages) console.log(group.feedback(receiver, message).kind, quant);
  if (group.reference() === null) console.log(group.packets(coded).length, group.statistics().coded.intra);
  group.leave(3);
  return group.waitingFor();
}

// @ts-expect-error: a message is of a receiver
new Group(Params.of("cif")).feedback(new Uint8Array(3));
// @ts-expect-error: a line wants the time
new Line({ first: 900, least: 300, most: 3600, finest: 4, period: 33_366_667 });
// @ts-expect-error: times are BigInts
new Session(Params.of("cif"), { rate: 30, wait: 60 });
// @ts-expect-error: a session wants its timing
new Session(Params.of("cif"));
// @ts-expect-error: there is no such run
new Session(Params.of("cif"), { rate: 30, wait: 0n }).source("shown");
// @ts-expect-error: a round trip is a BigInt
new Session(Params.of("cif"), { rate: 30, wait: 0n }).missing(0.05, 0n);
// @ts-expect-error: there is no such format
Params.of("vga");
// @ts-expect-error: there is no such parameter
Params.of("cif", { slot: 9 });
// @ts-expect-error: a sender takes no packets
new Sender(Params.of("cif")).packet(new Uint8Array(9));
// @ts-expect-error: there is no such fault
Fault.BYTES_OFF;
