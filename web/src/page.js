/**
 * The page: its parts put together, and what is pressed.
 * @module
 */

import { hasLongMemory } from "../../library/web/h263rps.js";
import { Camera, devices } from "./camera.js";
import { OtherCall, SelfCall } from "./connection.js";
import { Invitations } from "./invitations.js";
import { BadNetwork } from "./network.js";
import { roomsPath } from "./room_socket.js";
import { Rooms } from "./rooms.js";
import { Told } from "./told.js";
import { hasText, otherLanguage, ownLanguage, text } from "./words.js";

const byId = (id) => document.getElementById(id);
/** The element of this name, of the party at this place. */
const ofParty = (id, place) => byId(place ? `${id}_${place + 1}` : id);
/** Places of other parties. */
const PARTY_PLACES = Object.freeze([0, 1, 2]);
/** The sliders: what one step of each is in seconds, or as a share, and the text of its value. */
const SLIDERS = Object.freeze({
  loss: [0.01, "percent"],
  delay: [0.001, "milliseconds"],
  jitter: [0.001, "milliseconds"],
  wait: [0.001, "milliseconds"],
});
/** The camera that is none. */
const MADE = "made";
/** By this name the session keeps with whom a call is, in case that the page is loaded anew. */
const KEPT_NAME = "in_call_with";
/** Milliseconds for which a connection stays after one has hung up. */
const FAREWELL = 3000;
/** Milliseconds between two tellings of the numbers. */
const TOLD_AGAIN = 500;

class Telephone {
  #language = ownLanguage();
  #worker = workerOf(byId("worker").textContent);
  #network = new BadNetwork();
  #told = new Told((...words) => this.#text(...words));
  #camera = new Camera((frame) => this.#give(frame), () => this.#lostCamera());
  // How a call with another side comes about: by the server that serves this page, where it has rooms, or by a link.
  #meeting = new (roomsPath() ? Rooms : Invitations)({
    text: (...words) => this.#text(...words),
    prepare: () => this.#prepare(),
    begin: (party) => this.#join(party),
    gone: (id) => this.#tellGone(this.#placeOf(id)),
    lost: (id) => this.#leave(this.#placeOf(id), "party_lost"),
    leave: () => this.#call || this.#camera.stop(),
  });
  #call = null;
  // By their places: who the others are, and whether their cameras are off.
  #parties = new Map();
  #isBusy = false;
  #keeps = false;
  #state = ["starting"];
  #ticking = null;

  constructor() {
    const heard = {
      ready: () => { this.#isBusy = false; },
      datagrams: ({ datagrams, to }) => datagrams.forEach((datagram) => this.#call?.send(datagram, to)),
      played: (played) => this.#played(played),
      counts: (counts) => { this.#told.counts = counts; },
      // What a worker says is wrong is a fault of this page.
      fault: ({ words }) => this.#tellFault(this.#text("fault", words)),
      recorded: (record) => this.#offerRecord(record),
      ordinary: ({ datagrams }) => datagrams.forEach((datagram) => this.#carryOrdinary("ordinary", datagram)),
      ordinaryAsks: () => this.#carryOrdinary("ordinaryAsked"),
      noOrdinary: () => this.#tellFault(this.#text("no_ordinary")),
      loaded: () => this.#loaded(),
    };
    this.#worker.onmessage = ({ data }) => heard[data.is](data);
    this.#listen();
    this.#translate();
  }

  /** Hands the module and the canvases over to the worker. */
  async start(bytes) {
    const module = await WebAssembly.compile(bytes);
    const [own, ordinary] = ["own", "ordinary"].map((id) => byId(id).transferControlToOffscreen());
    const others = PARTY_PLACES.map((place) => ofParty("other", place).transferControlToOffscreen());
    this.#tell("start", { module, own, others, ordinary }, [own, ...others, ordinary]);
  }

  #text(name, ...words) {
    return text(this.#language, name, ...words);
  }

  #tell(is, words = {}, owned = []) {
    this.#worker.postMessage({ is, ...words }, owned);
  }

  #loaded() {
    for (const id of ["call_yourself", "invite", "invited", "accept"]) byId(id).disabled = false;
    this.#tellState("ready");
    const other = sessionStorage.getItem(KEPT_NAME);
    sessionStorage.removeItem(KEPT_NAME);
    if (other && !roomsPath()) this.#tellNews(this.#text("loaded_anew", other));
    this.#meeting.rings();
  }

  #listen() {
    const pressed = (id, act) => byId(id).addEventListener("click", act);
    pressed("call_yourself", () => this.#callYourself());
    pressed("hang_up", () => this.#hangUp());
    pressed("camera", () => this.#turnCamera());
    pressed("microphone", () => this.#turnMicrophone());
    pressed("hear", () => this.#turnHearing());
    pressed("full", () => (document.fullscreenElement ? document.exitFullscreen() : byId("main").requestFullscreen()));
    pressed("language", () => this.#speak(otherLanguage(this.#language)));
    byId("beside").addEventListener("change", () => this.#putBeside());
    byId("full").hidden = !document.fullscreenEnabled;
    for (const name of Object.keys(SLIDERS)) byId(name).addEventListener("input", () => this.#slide());
    byId("wait").addEventListener("change", () => this.#call && this.#tell("wait", { wait: this.#value("wait") }));
    byId("which_camera").addEventListener("change", () => this.#call && this.#startCamera());
    addEventListener("beforeunload", (event) => this.#isWithOther && !this.#meeting.comesBack && event.preventDefault());
  }

  get #isWithOther() {
    return this.#call instanceof OtherCall;
  }

  // ---- words ----------------------------------------------------------------------------------

  #speak(language) {
    this.#language = language;
    this.#translate();
  }

  #translate() {
    document.documentElement.lang = this.#language;
    document.title = this.#text("title");
    for (const it of document.querySelectorAll("[data-text]")) it.textContent = this.#text(it.dataset.text);
    for (const it of document.querySelectorAll("[data-label]")) it.ariaLabel = this.#text(it.dataset.label);
    byId("language").lang = otherLanguage(this.#language);
    if (this.#isWithOther) this.#tellParties();
    else this.#tellState(...this.#state);
    this.#meeting.translate();
    this.#slide();
    this.#listDevices();
    if (this.#call) this.#tick();
  }

  #tellState(...state) {
    this.#state = state;
    byId("state").textContent = this.#text(...state);
    if (!this.#isWithOther) byId("other_name").textContent = this.#text("what_comes");
  }

  /** With whom a call is. */
  #tellParties() {
    for (const [place, { name }] of this.#parties) ofParty("other_name", place).textContent = name;
    this.#tellState("with_other", this.#names);
    const digits = [...this.#parties.values()].map((it) => [it.name, it.digits]);
    byId("digits").textContent = digits.length > 1 ? this.#text("digits_of_many", digits) : this.#text("digits", digits[0][1]);
  }

  get #names() {
    return this.#text("names", [...this.#parties.values()].map(({ name }) => name));
  }

  #tellFault(words) {
    byId("fault").textContent = words;
    byId("fault").hidden = !words;
  }

  #tellNews(words) {
    byId("news").textContent = words;
    byId("news").hidden = !words;
  }

  /** What stands in the place of a party's picture. */
  #tellNone(place, words) {
    ofParty("other_none", place).textContent = words;
    ofParty("other_none", place).hidden = !words;
  }

  // ---- a call ---------------------------------------------------------------------------------

  async #callYourself() {
    if (this.#call) return;
    this.#meeting.cancel();
    this.#network.sent = this.#network.lost = 0;
    const listen = (stream) => { byId("sound").srcObject = stream; };
    const call = new SelfCall(this.#network, (datagram) => this.#hear(call, datagram, 0), listen);
    this.#begin(call, "connecting");
    const [isOpen] = await Promise.all([call.connect(), this.#startCamera()]);
    if (this.#call !== call) return;
    if (!isOpen) this.#tellFault(this.#text("no_connection"));
    this.#beginEnds();
    this.#tell("join", { place: 0 });
    this.#putBeside();
    this.#tellState("with_yourself");
  }

  #placeOf(id) {
    return [...this.#parties.keys()].find((place) => this.#parties.get(place).id === id);
  }

  /** One more party is in the call, or one that was loaded anew is back. With the only one the call begins. */
  #join({ id, side, name, digits, isCaller }) {
    const known = this.#placeOf(id);
    const place = known ?? PARTY_PLACES.find((it) => !this.#parties.has(it));
    if (place === undefined) {
      side.close();
      return;
    }
    if (!this.#isWithOther || (known !== undefined && this.#parties.size === 1)) this.#beginOther(isCaller);
    const call = this.#call;
    const party = { id, digits, name: name || this.#text("other_side"), isOff: false };
    this.#parties.set(place, party);
    sessionStorage.setItem(KEPT_NAME, this.#names);
    this.#told.join(place, party.name);
    this.#tellParties();
    this.#tellNone(place, this.#text("waiting_for", party.name));
    call.join(place, side);
    call.setWait(this.#value("wait"));
    this.#tell("join", { place });
    if (this.#parties.size > 1) this.#beMany();
    if (this.#keeps) call.say({ is: "keeps" }, place);
    call.say({ is: "hears_headers" }, place);
    this.#meeting.begun({ id, isCaller, say: (words) => call.say(words, place) });
    this.#tellCamera();
    this.#tellMicrophone();
  }

  #beginOther(isCaller) {
    this.#call?.close();
    const isOwn = (act) => (...words) => this.#call === call && act(...words);
    const call = new OtherCall({
      hear: (datagram, place) => this.#hear(call, datagram, place),
      heard: isOwn((words, place) => this.#heard(words, place)),
      lost: isOwn((place) => this.#lost(place)),
      flooded: isOwn((place) => this.#leave(place, "flooded")),
      listen: (stream, place) => {
        ofParty("sound", place).srcObject = stream;
        ofParty("sound", place).play().catch(() => {});
      },
    });
    this.#begin(call, "connecting");
    this.#beginEnds(isCaller ? { sent: 1, received: 2 } : { sent: 2, received: 1 });
  }

  /** A record is of two parties alone. */
  #beMany() {
    if (this.#keeps) this.#tellNews(this.#text("record_ends"));
    this.#keeps = false;
  }

  /** A connection is gone: its party may come back, but the others don't wait for it. */
  #lost(place) {
    if (!this.#meeting.comesBack) {
      this.#leave(place, "party_lost");
      return;
    }
    if (this.#parties.size > 1) this.#tell("leave", { place });
    this.#meeting.wait(this.#parties.get(place).id);
  }

  /** A party is no longer in the call, which is over with the last one; `why` is the name of a text. */
  #leave(place, why) {
    if (!this.#parties.has(place)) return;
    if (this.#parties.size === 1) {
      this.#end(why === "party_lost" ? "lost" : why);
      return;
    }
    const { id, name } = this.#parties.get(place);
    this.#parties.delete(place);
    this.#call.leave(place, why === "flooded" ? 0 : FAREWELL);
    this.#tell("leave", { place });
    ofParty("sound", place).srcObject = null;
    this.#told.leave(place);
    this.#meeting.left(id);
    this.#tellNews(this.#text(why, name));
    this.#tellParties();
  }

  #begin(call, ...state) {
    this.#call = call;
    this.#parties.clear();
    byId("saved").hidden = true;
    this.#tellFault("");
    this.#tellNews("");
    PARTY_PLACES.forEach((place) => this.#tellNone(place, ""));
    document.body.dataset.state = "call";
    document.body.classList.toggle("alone", !this.#isWithOther);
    this.#told.begin();
    if (!this.#isWithOther) this.#told.join(0, "");
    byId("size").disabled = true;
    this.#tellState(...state);
    this.#tick();
    byId("hang_up").focus();
  }

  /** `streams` are the numbers by which a record knows what is sent and what comes: with oneself they are the same. */
  #beginEnds(streams = { sent: 1, received: 1 }) {
    const isAlone = !this.#isWithOther;
    const { loss, delay, jitter } = this.#network;
    const party = isAlone ? { party: "alone", network: { loss, burst: 1, delay, jitter } } : { party: "both", network: null };
    const kept = byId("keep").checked ? { ...party, ...streams } : null;
    this.#keeps = Boolean(kept);
    this.#call.setWait(this.#value("wait"));
    this.#tell("begin", { format: byId("size").value, wait: this.#value("wait"), isAlone, kept });
  }

  /** In a call with oneself the browser's own coder goes beside ours, where that is wished for. */
  #putBeside() {
    const isOn = byId("beside").checked && Boolean(this.#call) && !this.#isWithOther;
    byId("ordinary_view").hidden = !isOn;
    this.#tell("beside", { isOn });
  }

  /** What the ordinary coder says goes over the same bad network. */
  #carryOrdinary(is, datagram) {
    if (this.#call && !this.#isWithOther) this.#network.pass(() => this.#tell(is, { datagram }));
  }

  #offerRecord({ name, file, isCut }) {
    URL.revokeObjectURL(byId("save").href);
    Object.assign(byId("save"), { href: URL.createObjectURL(file), download: `${name}.tar` });
    byId("save").textContent = this.#text(isCut ? "save_cut" : "save", (file.size / 1e6).toFixed(1));
    byId("saved").hidden = false;
  }

  #tellGone(place) {
    const party = this.#parties.get(place);
    party.isOff = true;
    this.#tellNone(place, this.#text("comes_back", party.name));
  }

  #hangUp() {
    this.#call?.say({ is: "bye" });
    this.#end("");
  }

  /** The call is over; `why` is the name of a text. */
  #end(why) {
    const { seconds, share } = this.#told;
    const call = this.#call;
    const names = this.#names;
    this.#call = null;
    this.#parties.clear();
    sessionStorage.removeItem(KEPT_NAME);
    // What was said last still goes out, again where it is lost.
    setTimeout(() => call?.close(), why ? 0 : FAREWELL);
    this.#tell("end");
    this.#tell("made", { isOn: false });
    this.#camera.stop();
    for (const place of PARTY_PLACES) ofParty("sound", place).srcObject = null;
    document.body.dataset.state = "ready";
    byId("size").disabled = false;
    byId("clock").textContent = "";
    this.#tellState("ready");
    this.#meeting.ended();
    const ended = this.#text("ended", Math.round(seconds), share);
    this.#tellNews(why ? `${this.#text(why, names)} ${ended}` : ended);
    byId("call_yourself").focus();
  }

  /** A datagram of a party came; one of a call that is over counts no more. */
  #hear(call, datagram, place) {
    if (this.#call === call) this.#tell("datagram", { datagram, place }, [datagram]);
  }

  /** Words of a party, which may say anything. */
  #heard(words, place) {
    const party = this.#parties.get(place);
    if (words?.is === "bye") this.#leave(place, "other_hung_up");
    if (words?.is === "secret") this.#meeting.heard(party.id, words);
    if (words?.is === "keeps") this.#tellNews(this.#text("other_keeps", party.name));
    if (words?.is === "hears_headers") this.#tell("carry", { place });
    if (words?.is !== "camera") return;
    party.isOff = !words.isOn;
    this.#tellNone(place, words.isOn ? "" : this.#text("other_camera_off", party.name));
  }

  #played(played) {
    if (!this.#call) return;
    this.#told.played(played);
    const { place } = played;
    if (!this.#parties.get(place)?.isOff && !ofParty("other_none", place).hidden) this.#tellNone(place, "");
  }

  async #tick() {
    clearTimeout(this.#ticking);
    const call = this.#call;
    if (!call) return;
    this.#ticking = setTimeout(() => this.#tick(), TOLD_AGAIN);
    const network = this.#isWithOther ? null : this.#network;
    this.#told.tell(network);
    if (byId("numbers").open) this.#told.tellFigures(network, await call.soundHeard());
  }

  // ---- camera, microphone, network -------------------------------------------------------------

  /** Before a link is made or answered: a browser tells its addresses once the camera is allowed. Answers the sound. */
  async #prepare() {
    if (!this.#isWithOther && !this.#camera.isOn) await this.#openCamera();
    return this.#camera.sound;
  }

  async #openCamera() {
    const camera = byId("which_camera").value;
    let fault = null;
    if (camera === MADE) this.#camera.stopPicture();
    else fault = await this.#camera.start({ camera, microphone: byId("which_microphone").value }).catch((why) => why);
    if (fault) this.#tellFault(this.#text(hasText(fault.name) ? fault.name : "camera_fault"));
    this.#listDevices();
  }

  async #startCamera() {
    await this.#openCamera();
    if (!this.#call) return this.#camera.stop();
    this.#tellCamera();
    this.#call.setSound(this.#camera.sound);
    this.#tellMicrophone();
  }

  /** With oneself a picture is made where there is no camera; with someone else only where that was chosen. */
  #tellCamera() {
    const { isOn } = this.#camera;
    const isMade = !isOn && (!this.#isWithOther || byId("which_camera").value === MADE);
    document.body.classList.toggle("mirrored", isOn);
    byId("camera").setAttribute("aria-pressed", isOn);
    this.#isBusy = false;
    this.#tell("made", { isOn: isMade });
    this.#call?.say({ is: "camera", isOn: isOn || isMade });
  }

  #turnCamera() {
    if (!this.#camera.isOn) return this.#startCamera();
    this.#camera.stopPicture();
    this.#tellCamera();
  }

  #lostCamera() {
    this.#camera.stopPicture();
    this.#tellCamera();
    this.#tellFault(this.#text("camera_lost"));
  }

  /** A frame goes to the worker, if it has done with the one before, and the line isn't full. */
  #give(frame) {
    if (this.#isBusy || !this.#call) {
      this.#told.left++;
      return frame.close();
    }
    this.#isBusy = true;
    this.#tell("frame", { frame, full: this.#call.full }, [frame]);
  }

  #turnMicrophone() {
    const { sound } = this.#camera;
    if (sound) sound.enabled = !sound.enabled;
    this.#tellMicrophone();
  }

  #tellMicrophone() {
    const { sound } = this.#camera;
    byId("microphone").disabled = !sound;
    byId("microphone").setAttribute("aria-pressed", Boolean(sound?.enabled));
  }

  /** Hearing oneself is off at first: from a loudspeaker it would come again. */
  #turnHearing() {
    const isOn = byId("hear").getAttribute("aria-pressed") !== "true";
    byId("hear").setAttribute("aria-pressed", isOn);
    if (isOn) byId("sound").play().catch(() => {});
    else byId("sound").pause();
  }

  #value(name) {
    return Number(byId(name).value) * SLIDERS[name][0];
  }

  #slide() {
    for (const [name, [, unit]] of Object.entries(SLIDERS)) {
      const words = this.#text(unit, byId(name).value);
      byId(`${name}_told`).textContent = words;
      byId(name).setAttribute("aria-valuetext", words);
    }
    for (const name of ["loss", "delay", "jitter"]) this.#network[name] = this.#value(name);
    this.#call?.setWait(this.#value("wait"));
  }

  async #listDevices() {
    const { cameras, microphones } = await devices();
    fillChoice(byId("which_camera"), [["", this.#text("first_one")], ...cameras, [MADE, this.#text("made")]]);
    fillChoice(byId("which_microphone"), [["", this.#text("first_one")], ...microphones]);
  }
}

/** Fills a choice with pairs of a value and a text, and keeps what was chosen where it is still there. */
function fillChoice(select, pairs) {
  const chosen = select.value;
  select.replaceChildren(...pairs.map(([value, label]) => new Option(label || value.slice(0, 8), value)));
  if (pairs.some(([value]) => value === chosen)) select.value = chosen;
}

/** A worker of what stands in this page. */
function workerOf(source) {
  return new Worker(URL.createObjectURL(new Blob([source], { type: "text/javascript" })));
}

/** The module of WebAssembly that stands in this page. */
function moduleBytes() {
  return Uint8Array.from(atob(byId("module").textContent), (letter) => letter.charCodeAt(0));
}

/** Says the one thing that there is to say, where there is no telephone. */
function sayOnly(name) {
  document.documentElement.lang = ownLanguage();
  byId("fault").textContent = text(ownLanguage(), name);
  byId("fault").hidden = false;
  byId("main").hidden = byId("language").hidden = true;
}

if (window.top !== window) sayOnly("framed");
else if (!hasLongMemory()) sayOnly("no_memory64");
else new Telephone().start(moduleBytes());
