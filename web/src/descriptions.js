/**
 * What of another side's description of a session is taken: sound and data channels, by DTLS, over so many ways at the
 * most. Ways that lead to no machine of a network (loopback, many machines at once) are left out.
 * @module
 */

import { BadCode } from "./codes.js";

/** Ways of a description, and of a call. */
export const MOST_WAYS = 40;
const MOST_OF_DESCRIPTION = 32768;
/** Loopback, this network, multicast and broadcast; and the one by which clouds tell a machine its secrets. */
const NOWHERE = /^(127\.|0\.|22[4-9]\.|2[345]\d\.|169\.254\.169\.254$|::$|::1$|::ffff:|ff)/i;

/** Whether a way, as a line of a description has it, leads to a machine of a network. */
export function leadsSomewhere(way) {
  const [, , kind, , address, port] = way.replace(/^a=/, "").split(" ");
  if (!/^(udp|tcp)$/i.test(kind ?? "") || !/^\d{1,5}$/.test(port ?? "")) return false;
  return /^[0-9A-Za-z.:-]{2,64}$/.test(address) && !NOWHERE.test(address);
}

/** The description as it is taken; one that isn't of a call of this telephone is a BadCode. */
export function checked({ type, sdp }) {
  if (sdp.length > MOST_OF_DESCRIPTION) throw new BadCode("size");
  const lines = sdp.split(/\r?\n/);
  const kinds = lines.filter((line) => line.startsWith("m=")).map((line) => line.split(" ")[0]);
  if (kinds.sort().join() !== "m=application,m=audio") throw new BadCode("media");
  if (!lines.some((line) => /^a=fingerprint:sha-(256|384|512) /i.test(line))) throw new BadCode("encryption");
  let ways = 0;
  const isTaken = (line) => !line.startsWith("a=candidate:") || (leadsSomewhere(line) && ++ways <= MOST_WAYS);
  return { type, sdp: lines.filter(isTaken).join("\r\n") };
}
