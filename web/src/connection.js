/**
 * Connections of the browser: encrypted, with datagrams that are neither put in order nor sent again, words that are,
 * and sound.
 * @module
 */

import { PAYLOAD_TYPE, SSRC } from "../../library/web/h263rps.js";
import { Budget } from "./budget.js";
import { LONGEST_PACKET, SHORTEST_PACKET } from "./call_settings.js";
import { MOST_WAYS, checked } from "./descriptions.js";
import { isNack } from "./repair.js";

/** Bytes that may wait to go out before pictures are left out, and before a datagram is lost, as on a full line. */
const WAITING = 1 << 15;
const MOST_WAITING = 1 << 18;
/** Milliseconds that sound can be asked to wait. */
const MOST_SOUND_WAIT = 4000;
/** Letters of words, and how many words, packets and messages a second are taken of a side that says more. */
const MOST_SAID = 1000;
const WORDS_A_SECOND = 20;
const DATAGRAMS_A_SECOND = 1500;
/**
 * So much may be refused of a side, at once and a second, until the connection is closed: to hear it costs a page its time.
 * All these guard the page, where each datagram is a message to the worker; the stream is guarded by the session there.
 */
const MOST_REFUSED = 4000;
const REFUSED_A_SECOND = 200;

/** One side of a connection. */
export class Side {
  onDatagram = () => {};
  onWords = () => {};
  onSound = () => {};
  onState = () => {};
  onWay = () => {};
  onFlood = () => {};
  #sound = null;
  #ways = 0;
  #spoken = new Budget(WORDS_A_SECOND);
  #packets = new Budget(DATAGRAMS_A_SECOND);
  #messages = new Budget(DATAGRAMS_A_SECOND);
  #patience = new Budget(REFUSED_A_SECOND, MOST_REFUSED);

  constructor(servers = []) {
    this.peer = new RTCPeerConnection({ iceServers: servers });
    const asDatagrams = { ordered: false, maxRetransmits: 0 };
    this.datagrams = this.peer.createDataChannel("pictures", { negotiated: true, id: 0, ...asDatagrams });
    this.words = this.peer.createDataChannel("words", { negotiated: true, id: 1 });
    this.datagrams.binaryType = "arraybuffer";
    this.datagrams.onmessage = ({ data }) => data instanceof ArrayBuffer && this.#came(data);
    this.words.onmessage = ({ data }) => this.#heard(data);
    this.peer.onicecandidate = ({ candidate }) => candidate?.candidate && this.onWay({ candidate: candidate.candidate, mid: candidate.sdpMid ?? "" });
    this.peer.ontrack = ({ track }) => this.onSound(new MediaStream([track]));
    this.peer.onconnectionstatechange = () => this.onState(this.peer.connectionState);
    this.isOpen = Promise.all([this.datagrams, this.words].map(opened));
  }

  /** An offer of a call. */
  async offer() {
    const sound = this.peer.addTransceiver("audio", { direction: "sendrecv" });
    // One codec has fewer words, which may be sent along by hand.
    const opus = RTCRtpReceiver.getCapabilities("audio").codecs.filter(({ mimeType }) => mimeType === "audio/opus");
    if (opus.length) sound.setCodecPreferences?.(opus);
    await this.peer.setLocalDescription();
    return this.peer.localDescription;
  }

  /** The own description once all ways to this machine are in it, or after so many milliseconds. */
  async complete(patience = 3000) {
    const { peer } = this;
    const gathered = new Promise((done) => {
      peer.addEventListener("icegatheringstatechange", () => peer.iceGatheringState === "complete" && done());
    });
    const late = new Promise((done) => setTimeout(done, patience));
    if (peer.iceGatheringState !== "complete") await Promise.race([gathered, late]);
    return peer.localDescription;
  }

  /** The answer to an offer. */
  async answer(offer) {
    await this.peer.setRemoteDescription(checked(offer));
    for (const transceiver of this.peer.getTransceivers()) transceiver.direction = "sendrecv";
    this.setSound(this.#sound);
    await this.peer.setLocalDescription();
    return this.peer.localDescription;
  }

  async accept(answer) {
    await this.peer.setRemoteDescription(checked(answer));
    this.setSound(this.#sound);
  }

  /** One more way to the other side. What is none is passed over. */
  async addWay({ candidate, mid }) {
    if (++this.#ways > MOST_WAYS) return;
    await this.peer.addIceCandidate({ candidate, sdpMid: mid }).catch(() => {});
  }

  /** What is heard on the other side: a track, or nothing. */
  setSound(track) {
    this.#sound = track;
    for (const { sender } of this.peer.getTransceivers()) sender.replaceTrack(track).catch(() => {});
  }

  /** Sound waits about so many seconds, as pictures do, where the browser lets a page say so. */
  setWait(wait) {
    for (const receiver of this.peer.getReceivers()) {
      if ("jitterBufferTarget" in receiver) receiver.jitterBufferTarget = Math.min(1000 * wait, MOST_SOUND_WAIT);
    }
  }

  /** Whether more waits than the line takes. */
  get isFull() {
    return this.datagrams.bufferedAmount > WAITING;
  }

  send(datagram) {
    if (this.datagrams.readyState !== "open" || this.datagrams.bufferedAmount > MOST_WAITING) return false;
    this.datagrams.send(datagram);
    return true;
  }

  say(words) {
    if (this.words.readyState === "open") this.words.send(JSON.stringify(words));
  }

  close() {
    this.onState = () => {};
    this.peer.close();
  }

  /** What is no datagram of a call, or more than a call has, is dropped here: it costs a look at twelve bytes. */
  #came(data) {
    const isBack = goesBack(data);
    const isTaken = (isBack || isPacket(data)) && (isBack ? this.#messages : this.#packets).take();
    if (isTaken) this.onDatagram(data);
    else this.#refuse();
  }

  #refuse() {
    if (this.#patience.take()) return;
    this.datagrams.onmessage = this.words.onmessage = null;
    this.close();
    this.onFlood();
  }

  #heard(data) {
    if (typeof data !== "string" || data.length > MOST_SAID || !this.#spoken.take()) {
      this.#refuse();
      return;
    }
    try {
      this.onWords(JSON.parse(data));
    } catch {
      // Words that are none are passed over.
    }
  }
}

/** Whether a datagram goes from a receiving side to a sending one: a message, or what asks for packets again. */
export function goesBack(data) {
  return data.byteLength < SHORTEST_PACKET || isNack(new DataView(data));
}

/** Whether a datagram is of a length, and begins, as an RTP packet of the telephone does. Messages name no stream: there is one. */
function isPacket(data) {
  if (data.byteLength > LONGEST_PACKET) return false;
  const head = new DataView(data);
  return head.getUint8(0) === 0x80 && (head.getUint8(1) & 0x7f) === PAYLOAD_TYPE && head.getUint32(8) === SSRC;
}

function opened(channel) {
  return new Promise((done) => channel.addEventListener("open", done, { once: true }));
}

/** Both sides of a call with oneself. What one side sends goes over a network that is made worse, and comes back here. */
export class SelfCall {
  #near = new Side();
  #far = new Side();
  #isDirect = false;

  /** It calls `hear(datagram)`, and `listen(stream)` when there is sound. The one party has place 0. */
  constructor(network, hear, listen) {
    Object.assign(this, { network, hear });
    this.#near.onDatagram = this.#far.onDatagram = hear;
    this.#far.onSound = listen;
  }

  /** Connects both sides; answers whether the browser let them, within so many milliseconds. */
  async connect(patience = 5000) {
    for (const [side, other] of [[this.#near, this.#far], [this.#far, this.#near]]) {
      side.peer.onicecandidate = ({ candidate }) => candidate && other.peer.addIceCandidate(candidate).catch(() => {});
    }
    await this.#near.accept(await this.#far.answer(await this.#near.offer()));
    const late = new Promise((done) => setTimeout(done, patience, false));
    const both = Promise.all([this.#near.isOpen, this.#far.isOpen]).then(() => true);
    const isOpen = await Promise.race([both, late]);
    this.#isDirect = !isOpen;
    return isOpen;
  }

  /** A packet goes out on the near side, and what goes back on the far one. */
  send(datagram) {
    const side = goesBack(datagram.buffer) ? this.#far : this.#near;
    const out = (bytes) => (this.#isDirect ? this.hear(bytes.buffer) : side.send(bytes));
    this.network.carry(datagram, out);
  }

  setSound(track) {
    this.#near.setSound(track);
  }

  soundHeard() {
    return soundOf([this.#far.peer]);
  }

  /** Sound doesn't go over the bad network, so it waits for that as well. */
  setWait(wait) {
    this.#far.setWait(wait + this.network.delay);
  }

  say() {}

  get full() {
    return this.#near.isFull ? [0] : [];
  }

  close() {
    this.#near.close();
    this.#far.close();
  }
}

/** One's own sides of a call with up to three others, each at a place. */
export class OtherCall {
  #sides = new Map();

  /**
   * It calls `hear(datagram, place)`, `heard(words, place)`, `listen(stream, place)` when there is sound, `lost(place)`, and
   * `flooded(place)` where the other side sent so much that it was closed.
   */
  constructor(told) {
    this.told = told;
  }

  join(place, side) {
    this.leave(place);
    this.#sides.set(place, side);
    const { hear, heard, listen, lost, flooded } = this.told;
    const once = (act) => (...words) => this.#sides.get(place) === side && act(...words, place);
    side.onDatagram = once(hear);
    side.onSound = once(listen);
    side.onWords = once(heard);
    side.onFlood = once(flooded);
    side.onState = (state) => state === "failed" && once(lost)();
    side.words.addEventListener("close", () => once(lost)());
    listen(new MediaStream(side.peer.getReceivers().map(({ track }) => track)), place);
  }

  /** One is gone, but what was said last still goes out for so many milliseconds. */
  leave(place, farewell = 0) {
    const side = this.#sides.get(place);
    this.#sides.delete(place);
    if (side) setTimeout(() => side.close(), farewell);
  }

  /** The places whose lines take nothing at present. */
  get full() {
    return [...this.#sides].filter(([, { isFull }]) => isFull).map(([place]) => place);
  }

  send(datagram, to) {
    for (const place of to) this.#sides.get(place)?.send(datagram);
  }

  /** To one of them, or to all. */
  say(words, place) {
    if (place !== undefined) this.#sides.get(place)?.say(words);
    else for (const side of this.#sides.values()) side.say(words);
  }

  setSound(track) {
    for (const side of this.#sides.values()) side.setSound(track);
  }

  soundHeard() {
    return soundOf([...this.#sides.values()].map(({ peer }) => peer));
  }

  setWait(wait) {
    for (const side of this.#sides.values()) side.setWait(wait);
  }

  close() {
    for (const place of [...this.#sides.keys()]) this.leave(place);
  }
}

/** How many packets of sound came, and how many milliseconds sound waited before it was played. */
async function soundOf(peers) {
  const all = { packets: 0, delay: 0, played: 0 };
  for (const peer of peers) {
    const stats = [...(await peer.getStats()).values()];
    const heard = stats.find(({ type, kind }) => type === "inbound-rtp" && kind === "audio");
    all.packets += heard?.packetsReceived ?? 0;
    all.delay += heard?.jitterBufferDelay ?? 0;
    all.played += heard?.jitterBufferEmittedCount ?? 0;
  }
  return { packets: all.packets, wait: Math.round((1000 * all.delay) / Math.max(all.played, 1)) };
}
