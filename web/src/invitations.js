/**
 * How a call with someone else comes about: one side makes a link, the other one answers it with a code.
 * @module
 */

import { BadCode, codeOf, digitsOf, linkOf, ownCode, readCode } from "./codes.js";
import { Side } from "./connection.js";
import { Ring } from "./ring.js";
import { serversOf } from "./servers.js";

const part = (id) => document.getElementById(id);
/** What there is to see of an invitation, one at a time. */
const STEPS = ["someone_first", "someone_link", "someone_code", "someone_rings", "someone_answered"];

export class Invitations {
  #side = null;
  #offer = null;
  #caller = "";
  #ring = new Ring();

  /**
   * It says texts by `text(name, ..words)`. `prepare()` is awaited before a side is made, and answers its sound: a
   * browser tells its addresses once the camera is allowed. `begin({ id, side, name, digits, isCaller })` has the call; `leave()`
   * is told that none comes about.
   */
  constructor({ text, prepare, begin, leave }) {
    Object.assign(this, { text, prepare, begin, leave });
    const pressed = (id, act) => part(id).addEventListener("click", () => this.#try(act));
    pressed("invite", () => this.#invite());
    pressed("invited", () => this.#show("someone_code", "offer_code"));
    pressed("take_code", () => this.#take(part("offer_code").value));
    pressed("accept", () => this.#accept());
    pressed("decline", () => this.cancel("declined"));
    pressed("connect", () => this.#connect(part("answer_code").value));
    pressed("copy_link", () => this.#copy("copy_link", "link"));
    pressed("copy_answer", () => this.#copy("copy_answer", "answer"));
    for (const it of document.querySelectorAll("[data-cancel]")) it.addEventListener("click", () => this.cancel());
    // What is pasted stands in the field a moment later.
    part("answer_code").addEventListener("paste", () => setTimeout(() => part("connect").click()));
    addEventListener("hashchange", () => this.rings());
  }

  /** Rings, where this page's address has a call, and nothing else goes on. */
  rings() {
    const code = ownCode();
    if (code && !this.#side && document.body.dataset.state === "ready") this.#try(() => this.#take(code));
  }

  /** No call comes about; `why` is the name of a text. */
  cancel(why = "") {
    this.#side?.close();
    this.#side = this.#offer = null;
    this.reset(why);
    this.leave();
  }

  /** As at first. */
  reset(why = "") {
    if (ownCode()) history.replaceState(null, "", location.href.split("#")[0]);
    for (const id of ["offer_code", "answer_code", "link", "answer"]) part(id).value = "";
    this.#tell(why);
    this.#show("someone_first");
  }

  // A link is good once: no side comes back by it.
  comesBack = false;
  begun() {}
  left() {}
  ended() {}
  heard() {}
  translate() {}

  // ---- who calls --------------------------------------------------------------------------------

  async #invite() {
    const side = await this.#made();
    await side.offer();
    const code = await codeOf(await side.complete(), part("name").value);
    if (side !== this.#side) return;
    part("link").value = linkOf(code);
    this.#show("someone_link", "copy_link");
  }

  async #connect(text) {
    const side = this.#side;
    if (!text.trim() || side?.peer.signalingState !== "have-local-offer") return;
    const { description, name } = await readCode(text);
    if (description.type !== "answer") throw new BadCode("offer");
    const own = side.peer.localDescription;
    await side.accept(description);
    this.#tell("connecting");
    await this.#opened(side, name, own, description);
  }

  // ---- who is called ----------------------------------------------------------------------------

  async #take(text) {
    const { description, name } = await readCode(text);
    if (description.type !== "offer") throw new BadCode("answer");
    this.#offer = description;
    this.#caller = name;
    document.title = part("caller").textContent = this.text("calls", name || this.text("someone"));
    this.#show("someone_rings", "accept");
    this.#ring.start();
  }

  async #accept() {
    const offer = this.#offer;
    this.#ring.stop();
    const side = await this.#made();
    await side.answer(offer).catch((fault) => {
      this.cancel();
      throw fault;
    });
    const own = await side.complete();
    const code = await codeOf(own, part("name").value);
    if (side !== this.#side) return;
    part("answer").value = code;
    this.#show("someone_answered", "copy_answer");
    await this.#opened(side, this.#caller, own, offer);
  }

  // ---- both -------------------------------------------------------------------------------------

  async #made() {
    this.#side?.close();
    this.#tell("getting_ready");
    const sound = await this.prepare();
    const side = new Side(serversOf(part("servers").value));
    side.setSound(sound);
    side.onState = (state) => state === "failed" && side === this.#side && this.cancel("no_way");
    this.#side = side;
    this.#tell("");
    return side;
  }

  async #opened(side, name, ...descriptions) {
    await side.isOpen;
    if (side !== this.#side) return;
    this.#side = null;
    const digits = await digitsOf(...descriptions);
    this.reset();
    this.begin({ id: name, side, name, digits, isCaller: descriptions[0].type === "offer" });
  }

  async #copy(button, field) {
    part(field).select();
    await navigator.clipboard.writeText(part(field).value).catch(() => document.execCommand("copy"));
    part(button).textContent = this.text("copied");
    setTimeout(() => { part(button).textContent = this.text("copy"); }, 2000);
  }

  #show(step, focused) {
    this.#ring.stop();
    if (step !== "someone_rings") document.title = this.text("title");
    for (const id of STEPS) part(id).hidden = id !== step;
    if (focused) part(focused).focus();
  }

  #tell(name) {
    part("someone_told").textContent = name && this.text(name);
  }

  async #try(act) {
    this.#tell("");
    try {
      await act();
    } catch (fault) {
      const isOther = fault instanceof BadCode && ["offer", "answer"].includes(fault.message);
      this.#tell(`bad_code_${isOther ? fault.message : "other"}`);
    }
  }
}
