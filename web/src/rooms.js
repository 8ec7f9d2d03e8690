/**
 * How a call comes about in a room: where tools/rooms serves this page, up to four go into the room of one word, and the server
 * hands offers, answers and ways from one to the other. Who is in the call has its secret: by it they find each other, and a
 * side that is loaded anew comes back. One who hasn't asks to be let in, by any of them.
 * @module
 */

import { cut, digitsOf } from "./codes.js";
import { Side } from "./connection.js";
import { MOST_WAYS, leadsSomewhere } from "./descriptions.js";
import { Ring } from "./ring.js";
import { RoomSocket } from "./room_socket.js";
import { isSecret, newSecret, proofOf } from "./secrets.js";
import { serversOf } from "./servers.js";

const piece = (id) => document.getElementById(id);
/** What there is to see of a room, one at a time. */
const ROOM_STEPS = ["room_out", "room_in", "room_calls", "room_rings"];
/** By this name the session keeps the room, and the call's secret. */
const KEPT_ROOM = "room";
/** In a link this stands before the room's word. */
const ROOM_MARK = "#room=";
const MOST_WORD = 40;
/** Milliseconds after which nobody answers, for which a call waits for a party, and before it is called again. */
const RINGS = 60_000;
const COMES_BACK = 30_000;
const CALLED_AGAIN = 2000;

/** Another page, in the room or in the call. */
class Other {
  isHere = true;
  // A connection that comes about: what it is made by, this side of it, whether its offer is proved, the offer that came, and
  // whether it is being answered, ways that came too early, and until when it rings.
  making = null;
  side = null;
  isProved = false;
  offer = null;
  isAnswered = false;
  ways = [];
  ringing = null;
  // In the call: how it is told words, whether this side called it, and until when it is waited for.
  say = null;
  isCalled = false;
  waiting = null;

  constructor(id, name) {
    Object.assign(this, { id, name });
  }

  get rings() {
    return Boolean(this.offer) && !this.isAnswered;
  }

  get comesAbout() {
    return Boolean(this.making || this.side || this.offer);
  }

  get isParty() {
    return Boolean(this.say);
  }

  drop() {
    clearTimeout(this.ringing);
    this.side?.close();
    this.making = this.side = this.offer = null;
    this.isAnswered = false;
    this.ways = [];
  }

  leaveCall() {
    clearTimeout(this.waiting);
    this.say = this.waiting = null;
  }
}

export class Rooms {
  #socket = new RoomSocket({
    heard: (words) => this.#heard(words),
    opened: () => this.#enter(),
    lost: () => this.#lostServer(),
  });
  #ring = new Ring();
  #kept = { word: "", name: "", secret: "", key: newSecret() };
  #others = new Map();
  #isCalled = false;
  #isRinging = false;
  #step = "";

  /**
   * It says texts by `text(name, ..words)`. `prepare()` is awaited before a side is made, and answers its sound;
   * `begin({ id, side, name, digits, isCaller })` has one more party of the call; `gone(id)` is told that the call waits for it,
   * and `lost(id)` that it does no longer; `leave()` that no call comes about.
   */
  constructor({ text, prepare, begin, gone, lost, leave }) {
    Object.assign(this, { text, prepare, begin, gone, lost, leave });
    const pressed = (id, act) => piece(id).addEventListener("click", () => {
      this.#tell("");
      this.#try(act);
    });
    pressed("room_enter", () => this.#goIn());
    pressed("room_leave", () => this.#goOut());
    pressed("room_call", () => this.#callAll());
    pressed("room_cancel", () => this.#cancel());
    const ofRinger = (act) => () => {
      const ringer = this.#ringer;
      if (ringer) this.#try(() => act(ringer), ringer);
    };
    for (const id of ["room_accept", "knock_accept"]) pressed(id, ofRinger((ringer) => this.#answerCall(ringer)));
    for (const id of ["room_decline", "knock_decline"]) pressed(id, ofRinger((ringer) => this.#decline(ringer)));
    pressed("room_copy", () => this.#copy());
    for (const id of ["room_word", "room_name"]) {
      piece(id).addEventListener("keydown", ({ key }) => key === "Enter" && piece("room_enter").click());
    }
    document.body.classList.add("has_rooms");
  }

  /** The page is ready: back into the room, and into the call, in which it was. A link alone leads in nowhere. */
  rings() {
    const kept = readKept();
    const word = location.hash.startsWith(ROOM_MARK) ? decoded(location.hash.slice(ROOM_MARK.length)) : "";
    piece("room_word").value = word || kept?.word || "";
    piece("room_name").value = kept?.name ?? "";
    piece("room_enter").disabled = false;
    if (!kept || (word && word !== kept.word)) return;
    this.#kept = kept;
    this.#socket.open();
  }

  /** Whether the other sides of the call may come back. */
  get comesBack() {
    return Boolean(this.#isCalled && this.#kept.secret);
  }

  /** Another call with oneself goes first. */
  cancel() {
    if (this.#comeAbout.length) this.#cancel();
  }

  translate() {
    this.#show();
  }

  /** A party is in the call, and told words by `say`. Both tell what they know of the call's secret. */
  begun({ id, isCaller, say }) {
    const other = this.#others.get(id);
    this.#isCalled = true;
    clearTimeout(other.waiting);
    Object.assign(other, { say, isCalled: isCaller, waiting: null });
    say({ is: "secret", secret: this.#kept.secret });
    this.#show();
  }

  /** A party has left the call. */
  left(id) {
    const other = this.#others.get(id);
    other?.leaveCall();
    if (other && !other.isHere) this.#others.delete(id);
  }

  /** The call is over. */
  ended() {
    if (!this.#isCalled) return;
    this.#isCalled = false;
    for (const { id } of [...this.#others.values()]) {
      this.#others.get(id).drop();
      this.left(id);
    }
    this.#keep("");
    this.#show();
  }

  /** A party's words came by the call itself. Who called first makes the secret; of two secrets the lesser one counts. */
  heard(id, { is, secret }) {
    const other = this.#others.get(id);
    const own = this.#kept.secret;
    if (is !== "secret" || !other?.isParty) return;
    if (secret === "" && !own && other.isCalled) this.#share(newSecret());
    if (!isSecret(secret) || (own && secret >= own)) return;
    this.#share(secret);
    for (const one of this.#here) if (!one.isParty) this.#try(() => this.#offerTo(one), one);
  }

  /** The connection to a party is gone. It may be loaded anew; if it isn't, who called calls again. */
  wait(id) {
    const other = this.#others.get(id);
    this.gone(id);
    clearTimeout(other.waiting);
    other.waiting = setTimeout(() => other.waiting && this.lost(id), COMES_BACK);
    const again = () => other.waiting && !other.side && other.isHere && this.#offerTo(other);
    if (other.isCalled) setTimeout(() => this.#try(again, other), CALLED_AGAIN);
  }

  // ---- the room ---------------------------------------------------------------------------------

  #goIn() {
    const word = piece("room_word").value.trim();
    if (!word) return this.#tell("no_word");
    this.#kept = { ...this.#kept, word, name: cut(piece("room_name").value), secret: "" };
    history.replaceState(null, "", `${ROOM_MARK}${encodeURIComponent(word)}`);
    this.#tell("connecting");
    return this.#socket.open();
  }

  #goOut() {
    this.#socket.close();
    this.#kept = { ...this.#kept, word: "", secret: "" };
    sessionStorage.removeItem(KEPT_ROOM);
    this.#others.clear();
    history.replaceState(null, "", location.href.split("#")[0]);
    this.#showStep("room_out", "room_word");
  }

  #enter() {
    const { word, name, key } = this.#kept;
    this.#socket.say({ is: "enter", room: word, name, key });
  }

  #lostServer() {
    const cameAbout = this.#comeAbout.length;
    this.#forgetOthers();
    if (this.#isCalled) return;
    if (cameAbout) this.#stop("");
    else this.#show();
    this.#tell("no_server");
  }

  /** Nobody is known to be here, but for the parties of a call. */
  #forgetOthers() {
    for (const other of [...this.#others.values()]) {
      other.isHere = false;
      if (other.isParty) continue;
      other.drop();
      this.#others.delete(other.id);
    }
  }

  get #here() {
    return [...this.#others.values()].filter(({ isHere }) => isHere);
  }

  /** With whom a connection comes about. */
  get #comeAbout() {
    return [...this.#others.values()].filter(({ comesAbout }) => comesAbout);
  }

  /** Who calls, or asks to be let in: the first one that isn't answered. */
  get #ringer() {
    return [...this.#others.values()].find(({ rings }) => rings);
  }

  #nameOf(...others) {
    return this.text("names", others.map(({ name }) => name || this.text("someone")));
  }

  /** Shows how things are; `why` is the name of a text about this one. */
  #show(why = "", about = null) {
    if (!this.#kept.word) return;
    const ringer = this.#ringer;
    const here = this.#here;
    const isHere = ["nobody_here", "is_here", "are_here"][Math.min(here.length, 2)];
    piece("room_here").textContent = this.text(isHere, this.#nameOf(...here));
    piece("room_inside").textContent = this.text("in_room", this.#kept.word);
    piece("room_link").value = location.href;
    piece("room_call").disabled = !here.length;
    piece("knock").hidden = !ringer || !this.#isCalled;
    const calls = ringer ? this.text(this.#isCalled ? "knocks" : "calls", this.#nameOf(ringer)) : "";
    piece("room_caller").textContent = piece("knock_who").textContent = calls;
    const called = this.#comeAbout;
    const isAnswered = called.some(({ offer }) => offer);
    piece("room_calling").textContent = this.text(isAnswered ? "connecting" : "calling", this.#nameOf(...called));
    if (ringer) this.#showStep("room_rings", this.#isCalled ? "" : "room_accept");
    else if (called.length) this.#showStep("room_calls", this.#isCalled ? "" : "room_cancel");
    else this.#showStep("room_in");
    if (Boolean(ringer) !== this.#isRinging) this.#ring[ringer ? "start" : "stop"]();
    this.#isRinging = Boolean(ringer);
    document.title = calls || this.text("title");
    this.#tell(why, about);
  }

  #keep(secret) {
    this.#kept.secret = secret;
    sessionStorage.setItem(KEPT_ROOM, JSON.stringify(this.#kept));
  }

  /** The call has this secret, which all of its parties are told. */
  #share(secret) {
    this.#keep(secret);
    for (const { say } of this.#others.values()) say?.({ is: "secret", secret });
  }

  /** Words of the server, or of another side by way of it, which may say anything. */
  #heard(words) {
    const own = {
      entered: () => this.#entered(),
      full: () => this.#refused("room_full"),
      "no room": () => this.#refused("no_room"),
      "no word": () => this.#refused("no_word"),
      came: ({ from, name = "" }) => this.#came(from, name),
    };
    const ofOther = {
      left: (other) => this.#left(other),
      offer: (other, offer) => this.#offered(other, offer),
      answer: (other, answer) => this.#answered(other, answer),
      candidate: (other, way) => this.#way(other, way),
      decline: (other) => other.side && this.#without(other, this.#whyDeclined),
      cancel: (other) => other.offer && this.#without(other, "was_cancelled"),
    };
    const other = this.#others.get(words.from);
    if (Object.hasOwn(own, words.is)) this.#try(() => own[words.is](words));
    else if (other && Object.hasOwn(ofOther, words.is)) this.#try(() => ofOther[words.is](other, words), other);
  }

  /** In a call somebody may have declined who isn't in it. */
  get #whyDeclined() {
    if (this.#isCalled) return "";
    return this.#kept.secret ? "call_over" : "was_declined";
  }

  #entered() {
    this.#keep(this.#kept.secret);
    this.#forgetOthers();
    this.#show();
  }

  #refused(why) {
    if (this.#isCalled) return;
    this.#goOut();
    this.#tell(why);
  }

  /** Another side is there. Who was loaded anew in a call with it goes on. */
  #came(id, name) {
    if (typeof id !== "string") return undefined;
    const other = this.#others.get(id) ?? new Other(id, "");
    Object.assign(other, { name: cut(name), isHere: true });
    this.#others.set(id, other);
    this.#show();
    return !this.#isCalled && this.#kept.secret ? this.#offerTo(other) : undefined;
  }

  /** Another side has left the room; a call goes on without it, or its connection tells. */
  #left(other) {
    const { comesAbout } = other;
    other.isHere = false;
    if (!other.isParty) this.#others.delete(other.id);
    if (comesAbout) this.#without(other, "was_cancelled");
    else this.#show();
  }

  // ---- who calls --------------------------------------------------------------------------------

  async #callAll() {
    for (const other of this.#here) await this.#offerTo(other);
  }

  async #offerTo(other) {
    other.drop();
    const side = await this.#made(other);
    if (!side) return;
    other.isProved = Boolean(this.#kept.secret);
    await this.#say(other, await side.offer());
    other.ringing = setTimeout(() => side === other.side && this.#giveUp(other, "nobody_answers"), RINGS);
  }

  async #answered(other, { sdp, proof }) {
    const { side } = other;
    if (side?.peer.signalingState !== "have-local-offer") return;
    const answer = { type: "answer", sdp };
    // A call that went on goes on with who was in it alone.
    if (other.isProved && !(await this.#isSame(answer, proof))) {
      this.#giveUp(other, "call_over");
      return;
    }
    clearTimeout(other.ringing);
    const own = side.peer.localDescription;
    await side.accept(answer);
    await this.#opened(other, true, own, answer);
  }

  // ---- who is called ----------------------------------------------------------------------------

  async #offered(other, { sdp, proof }) {
    const offer = { type: "offer", sdp };
    // Where both call at once the greater offer counts.
    const own = other.side?.peer.localDescription;
    if (own?.type === "offer" && sdp < own.sdp) return;
    const isAgain = this.#kept.secret ? await this.#isSame(offer, proof) : false;
    other.drop();
    if (!isAgain && (proof || (this.#kept.secret && !this.#isCalled))) {
      this.#socket.say({ is: "decline", to: other.id });
      this.#show();
      return;
    }
    other.offer = offer;
    if (isAgain || own) await this.#answerCall(other);
    else this.#show();
  }

  async #answerCall(other) {
    const { offer } = other;
    other.isAnswered = true;
    const side = await this.#made(other);
    if (!side) return;
    await this.#say(other, await side.answer(offer));
    await this.#opened(other, false, side.peer.localDescription, offer);
  }

  #decline(other) {
    this.#socket.say({ is: "decline", to: other.id });
    this.#without(other, "you_declined");
  }

  // ---- both -------------------------------------------------------------------------------------

  /** This side of a connection, or null where the other one is gone before the camera is there. */
  async #made(other) {
    const making = {};
    other.making = making;
    this.#show();
    const sound = await this.prepare();
    if (other.making !== making) return null;
    const side = new Side(serversOf(piece("servers").value));
    side.setSound(sound);
    side.onWay = (way) => side === other.side && this.#socket.say({ is: "candidate", to: other.id, ...way });
    side.onState = (state) => state === "failed" && side === other.side && this.#giveUp(other, "no_way");
    other.side?.close();
    Object.assign(other, { side, making: null });
    this.#show();
    return side;
  }

  async #say(other, { type, sdp }) {
    const { secret } = this.#kept;
    this.#socket.say({ is: type, to: other.id, sdp, proof: secret && (await proofOf(secret, { type, sdp })) });
  }

  async #isSame(description, proof) {
    return proof === (await proofOf(this.#kept.secret, description));
  }

  async #way(other, way) {
    if (!leadsSomewhere(way.candidate)) return;
    if (other.side?.peer.remoteDescription) await other.side.addWay(way);
    else if (other.ways.length < MOST_WAYS) other.ways.push(way);
  }

  async #opened(other, isCaller, ...descriptions) {
    const { side } = other;
    for (const way of other.ways.splice(0)) await side.addWay(way);
    await side.isOpen;
    if (side !== other.side) return;
    other.side = null;
    other.drop();
    const digits = await digitsOf(...descriptions);
    this.begin({ id: other.id, side, name: other.name, digits, isCaller });
  }

  #giveUp(other, why) {
    this.#socket.say({ is: "cancel", to: other.id });
    this.#without(other, why);
  }

  /** With this one no connection comes about; `why` is the name of a text. */
  #without(other, why) {
    other.drop();
    if (this.#isCalled || this.#comeAbout.length) this.#show(why, other);
    else this.#stop(why, other);
  }

  #cancel(why = "") {
    for (const { id } of this.#comeAbout) this.#socket.say({ is: "cancel", to: id });
    this.#stop(why);
  }

  /** No call comes about; one that waits goes on waiting. `why` is the name of a text. */
  #stop(why, about = null) {
    for (const other of this.#others.values()) other.drop();
    if (this.#isCalled) return;
    if (this.#kept.word) this.#keep("");
    this.#show(why, about);
    this.leave();
  }

  async #copy() {
    piece("room_link").select();
    await navigator.clipboard.writeText(piece("room_link").value).catch(() => document.execCommand("copy"));
    piece("room_copy").textContent = this.text("copied");
    setTimeout(() => { piece("room_copy").textContent = this.text("copy"); }, 2000);
  }

  #showStep(step, focused) {
    for (const id of ROOM_STEPS) piece(id).hidden = id !== step;
    if (focused && step !== this.#step) piece(focused).focus();
    this.#step = step;
  }

  #tell(name, about) {
    piece("room_told").textContent = name && this.text(name, about ? this.#nameOf(about) : this.text("someone"));
  }

  async #try(act, other = null) {
    try {
      await act();
    } catch {
      if (other) this.#giveUp(other, "bad_call");
      else this.#cancel("bad_call");
    }
  }
}

function decoded(text) {
  try {
    return decodeURIComponent(text).slice(0, MOST_WORD);
  } catch {
    return "";
  }
}

/** What the session keeps of before this page was loaded anew, or null. */
function readKept() {
  try {
    const { word, name, secret, key } = JSON.parse(sessionStorage.getItem(KEPT_ROOM));
    const kept = { word: String(word), name: cut(String(name)) };
    return { ...kept, secret: isSecret(secret) ? secret : "", key: isSecret(key) ? key : newSecret() };
  } catch {
    return null;
  }
}
