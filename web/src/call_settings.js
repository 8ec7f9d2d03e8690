/**
 * What both sides of a call take for granted.
 * @module
 */

/** Pictures a second, at the most. */
export const RATE_OF = Object.freeze({ rate: 30000, second: 1001 });
export const RATE = RATE_OF.rate / RATE_OF.second;
export const RATE_TEXT = `${RATE_OF.rate}/${RATE_OF.second}`;
/** RTP's clock for video, in ticks a second. */
export const TICKS = 90_000;
/** Pictures that may come before their play: those of the longest wait, and three. */
export const LEAD = 15;
/** Pictures that each end keeps: besides the lead, those that may be referred to while a message is on its way. */
export const SLOTS = 48;
/** The most bytes of a packet: with what DTLS and SCTP add it is one datagram everywhere. */
export const LIMIT = 1200;
/** Bytes a picture, by format: some 215, 430 and 1,440 kbit/s. */
export const TARGETS = Object.freeze({ "sub-qcif": 900, qcif: 1800, cif: 6000 });
/** A datagram that is shorter is a message: no RTP packet is. One that is longer than a sender's longest is neither. */
export const SHORTEST_PACKET = 12;
export const LONGEST_PACKET = 9000;

/** Seconds, on a clock that all threads of a page share and that doesn't go back. */
export function now() {
  return (performance.timeOrigin + performance.now()) / 1000;
}

/** Seconds as a session has its times: whole nanoseconds. */
export function nanoseconds(seconds = now()) {
  return BigInt(Math.round(1e9 * seconds));
}
