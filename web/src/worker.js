/**
 * The worker: the sending end and one receiving end for each other party, what they are given, and the canvases. The page
 * hands over frames of the camera and datagrams; the worker hands back datagrams, and tells what was played.
 * @module
 */

import { load } from "../../library/web/h263rps.js";
import { RATE, SHORTEST_PACKET, TARGETS, now } from "./call_settings.js";
import { Carried } from "./carried.js";
import { MadePicture } from "./made_picture.js";
import { SIZES, covering, fillColours } from "./planes.js";
import { Ordinary, hasOrdinary } from "./ordinary.js";
import { Receiving } from "./receiving.js";
import { Record } from "./record.js";
import { RecordedRuns } from "./recorded_runs.js";
import { isNack } from "./repair.js";
import { Sending } from "./sending.js";

/** How often the page is told the counts, in milliseconds. */
const TOLD_EACH = 250;

const tell = (is, words = {}, owned = []) => postMessage({ is, ...words }, owned);

/** Another party: its stream, and where that is shown. */
class Party {
  /** Whether it hears what stands in pictures' headers. */
  hearsHeaders = false;
  #pen;
  #image = null;

  constructor(pen, wait, told, record) {
    this.#pen = pen;
    this.receiving = new Receiving(wait, { ...told, paint: (picture, format) => this.#paint(picture, format) }, record);
  }

  #paint(picture, format) {
    const [width, height] = SIZES[format];
    if (this.#image?.width !== width) {
      Object.assign(this.#pen.canvas, { width, height });
      this.#image = this.#pen.createImageData(width, height);
    }
    fillColours(picture, width, height, this.#image.data);
    this.#pen.putImageData(this.#image, 0, 0);
  }
}

class Ends {
  #own;
  #others;
  #sending = null;
  #parties = new Map();
  #carried = null;
  #made = null;
  #timers = [];
  #isAlone = false;
  #wait = 0;
  #record = null;
  #recorded = null;
  #format = null;
  #ordinary = null;
  #ordinaryPen;

  constructor(own, others, ordinary) {
    const penOf = (canvas) => canvas.getContext("2d", { alpha: false });
    this.#own = penOf(own);
    this.#others = others.map(penOf);
    this.#ordinaryPen = penOf(ordinary);
  }

  /**
   * Begins a call: pictures of this format go out, and what comes waits so long. With oneself it is told how late.
   * `kept` is what a record says of it, where one is kept.
   */
  begin({ format, wait, isAlone, kept }) {
    this.end();
    this.#isAlone = isAlone;
    this.#format = format;
    this.#wait = wait;
    this.#record = kept ? new Record(now(), { format, wait, target: TARGETS[format], ...kept }) : null;
    this.#sending = new Sending(format, wait, this.#record);
    this.#timers.push(setInterval(() => this.#tellCounts(), TOLD_EACH));
  }

  /** A party comes, at a place of its own. What this side sends goes to it from the next picture on. */
  join({ place }) {
    this.leave({ place });
    const heard = {
      say: (message) => this.#say(place, message),
      ask: (nack) => this.#sendOut([nack], [place]),
      carried: (message) => this.#sending.feedback(place, message),
      tell: (turn) => this.#tellPlayed(place, turn),
    };
    if (this.#parties.size) this.#beMany();
    const runs = this.#record && new RecordedRuns(this.#record);
    this.#parties.set(place, new Party(this.#others[place], this.#wait, heard, runs));
    this.#sending.join(place);
  }

  leave({ place }) {
    this.#parties.get(place)?.receiving.close();
    if (!this.#parties.delete(place)) return;
    this.#sending.leave(place);
    if (!this.#parties.size) this.#stopCarrying();
    this.#carryOn();
  }

  /** From now on more than one party is sent the same: headers speak to nobody alone, and a record has no place for it. */
  #beMany() {
    this.#stopCarrying();
    this.#sending.forgetSent();
    this.#keepRecord();
  }

  /** A party hears what stands in pictures' headers. */
  carry({ place }) {
    const party = this.#parties.get(place);
    if (party) party.hearsHeaders = true;
    this.#carryOn();
  }

  /** Headers speak to one party alone. A log of captures has no messages, so a record has none there. */
  #carryOn() {
    const [[place, party] = []] = this.#parties;
    if (this.#record || this.#parties.size !== 1 || !party.hearsHeaders) return;
    this.#carried ??= new Carried((message) => this.#sendOut([message], [place]));
  }

  #stopCarrying() {
    this.#carried?.close();
    this.#carried = null;
  }

  end() {
    this.#timers.forEach(clearInterval);
    this.#timers = [];
    this.#sending?.close();
    for (const { receiving } of this.#parties.values()) receiving.close();
    this.#parties.clear();
    this.#stopCarrying();
    this.#sending = null;
    this.#leaveOrdinary();
    this.#keepRecord();
    if (this.#recorded) tell("recorded", this.#recorded);
    this.#recorded = null;
  }

  /** The record ends here; the page is given it at the end of the call. */
  #keepRecord() {
    const record = this.#record;
    if (!record) return;
    for (const { receiving } of this.#parties.values()) receiving.endRecord();
    this.#record = null;
    if (this.#sending) this.#sending.record = null;
    if (record.isEmpty) return;
    const name = `call-${new Date().toISOString().slice(0, 19).replace(/[:T]/g, "-")}`;
    const seconds = Math.round(1000 * (now() - record.began)) / 1000;
    this.#recorded = { name, file: record.file(name, seconds), isCut: record.isCut };
  }

  /** A picture of the camera, which is then let go; the lines of the places `full` take nothing at present. */
  frame({ frame, full }) {
    this.#send(frame, frame.displayWidth ?? frame.width, frame.displayHeight ?? frame.height, full);
    frame.close();
    tell("ready");
  }

  /** Pictures that are made here, or no longer. */
  made({ isOn }) {
    clearInterval(this.#made);
    this.#made = null;
    if (!isOn) return;
    const picture = new MadePicture();
    const next = () => {
      const canvas = picture.next();
      this.#send(canvas, canvas.width, canvas.height);
    };
    this.#made = setInterval(next, 1000 / RATE);
    next();
  }

  /** Only a call with oneself changes it. To a session that began anew the next picture says all. */
  wait({ wait }) {
    this.#wait = wait;
    this.#sending?.setWait(wait);
    const isAnew = [...this.#parties.values()].map(({ receiving }) => receiving.setWait(wait));
    if (isAnew.some(Boolean)) this.#sending.forget();
  }

  /** The browser's own coder goes beside ours, or no longer. */
  async beside({ isOn }) {
    this.#leaveOrdinary();
    if (!isOn || !this.#sending) return;
    if (!(await hasOrdinary(this.#format))) {
      tell("noOrdinary");
      return;
    }
    const [width, height] = SIZES[this.#format];
    const { canvas } = this.#ordinaryPen;
    if (canvas.width !== width) Object.assign(canvas, { width, height });
    this.#ordinary = new Ordinary(this.#format, {
      send: (datagrams) => tell("ordinary", { datagrams }, datagrams.map(({ buffer }) => buffer)),
      ask: () => tell("ordinaryAsks"),
      show: (frame) => {
        this.#ordinaryPen.drawImage(frame, 0, 0, width, height);
        frame.close();
      },
    });
  }

  ordinary({ datagram }) {
    this.#ordinary?.take(datagram);
  }

  ordinaryAsked() {
    this.#ordinary?.asked();
  }

  #leaveOrdinary() {
    this.#ordinary?.close();
    this.#ordinary = null;
  }

  /** A datagram of a party. */
  datagram({ datagram, place }) {
    const party = this.#parties.get(place);
    if (!party) return;
    const bytes = new Uint8Array(datagram);
    if (bytes.length < SHORTEST_PACKET) this.#sending.feedback(place, bytes);
    else if (isNack(new DataView(datagram))) this.#sendOut(this.#sending.repeats(place, new DataView(datagram)), [place]);
    else party.receiving.take(bytes);
  }

  /** What is sent out is handed over, and a record keeps the message itself. */
  #say(place, message) {
    if (this.#carried) this.#carried.say(message, this.#sending.untilNext);
    else this.#sendOut([message.slice()], [place]);
  }

  #sendOut(datagrams, to) {
    if (datagrams.length) tell("datagrams", { datagrams, to }, datagrams.map(({ buffer }) => buffer));
  }

  #send(source, width, height, full = []) {
    const { width: across, height: down } = this.#own.canvas;
    this.#own.drawImage(source, ...covering(width, height, across, down), 0, 0, across, down);
    if (!this.#sending) return;
    const { packets, to } = this.#sending.packets(source, width, height, { messages: () => this.#carried?.take() ?? [], full });
    if (packets.length) this.#ordinary?.code(source, width, height, this.#sending.last);
    this.#sendOut(packets, to);
  }

  #tellPlayed(place, { mark, number, reference }) {
    const captured = this.#isAlone ? this.#sending.captured(number) : undefined;
    if (captured !== undefined) this.#ordinary?.follow(captured);
    tell("played", { place, mark, number, reference, late: captured === undefined ? null : now() - captured });
  }

  #tellCounts() {
    const { took, statistics } = this.#sending;
    const played = [...this.#parties].map(([place, { receiving }]) => ({ place, ...receiving.played }));
    tell("counts", { took, sent: statistics, played, ordinary: this.#ordinary?.counts ?? null });
  }
}

let ends = null;

/** The first message has the module and the canvases. What came before the module was there waits for it. */
async function start({ module, own, others, ordinary }) {
  await load(module);
  ends = new Ends(own, others, ordinary);
  tell("loaded");
}

let last = Promise.resolve();
onmessage = ({ data }) => {
  const act = () => (data.is === "start" ? start(data) : ends[data.is](data));
  last = last.then(act).catch((fault) => tell("fault", { words: String(fault) }));
};
