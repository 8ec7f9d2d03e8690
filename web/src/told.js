/**
 * What a call tells of itself: the marks of its pictures, how many are exact, and numbers.
 * @module
 */

import { Strip } from "./strip.js";

/** Seconds between two summaries for who hears the page. */
const SUMMARY_EACH = 10;
/** Pictures of which the shown time from camera to screen is the middle. */
const LATE_OF = 60;
/** Milliseconds over which a rate is taken, at the least. */
const RATE_OVER = 900;

/** The element of this name, of the party at this place. */
const place = (id, at = 0) => document.getElementById(at ? `${id}_${at + 1}` : id);

/** What is told of one party's pictures. */
class Row {
  constructor(at, name) {
    Object.assign(this, { at, name, strip: new Strip(place("strip", at)) });
    this.tellMark("", "");
    place("line", at).hidden = place("other_view", at).hidden = false;
  }

  tellMark(mark, words) {
    place("other_frame", this.at).dataset.mark = place("mark", this.at).dataset.mark = mark;
    place("mark", this.at).textContent = words;
  }

  /** Names are told where there is more than one. */
  tell(text, isOne) {
    const { counts } = this.strip;
    const shown = counts.exact + counts.patched + counts.held;
    place("line_name", this.at).textContent = isOne ? "" : this.name;
    place("other_share", this.at).textContent = isOne || !shown ? "" : `${percent(counts.exact, shown)} %`;
    const who = isOne ? "" : `${this.name}. `;
    place("strip", this.at).ariaLabel = `${who}${text("line_of_time")}. ${text("summary", counts)}`;
  }

  close() {
    this.strip.close();
    // The first ones have a place also where nobody is.
    place("line", this.at).hidden = place("other_view", this.at).hidden = true;
  }
}

export class Told {
  #rows = new Map();
  #late = [];
  #bytes;
  #began = 0;
  /** What the worker has counted. */
  counts = null;
  /** Pictures of the camera that the worker had no time for. */
  left = 0;

  /** It says texts by `text(name, ..words)`. */
  constructor(text) {
    this.text = text;
    matchMedia("(prefers-color-scheme: dark)").addEventListener("change", () => this.#rows.forEach(({ strip }) => strip.draw()));
  }

  begin() {
    this.#began = performance.now();
    this.#bytes = { at: this.#began, count: 0, rate: 0 };
    this.#late = [];
    this.counts = null;
    this.left = 0;
    for (const at of [...this.#rows.keys()]) this.leave(at);
  }

  /** There are pictures of this party, at this place. */
  join(at, name) {
    this.leave(at);
    this.#rows.set(at, new Row(at, name));
    this.#tellOthers();
  }

  leave(at) {
    this.#rows.get(at)?.close();
    this.#rows.delete(at);
    this.#tellOthers();
  }

  #tellOthers() {
    document.body.dataset.others = this.#rows.size;
  }

  get seconds() {
    return (performance.now() - this.#began) / 1000;
  }

  played({ place: at, mark, late }) {
    const row = this.#rows.get(at);
    row?.strip.add(mark);
    row?.tellMark(mark, this.text(mark));
    if (late === null) return;
    this.#late.push(late);
    if (this.#late.length > LATE_OF) this.#late.shift();
  }

  /** Of the whole call, how many of a hundred pictures were exact. */
  get share() {
    const { exact, patched, held } = summed(this.counts?.played ?? []);
    return percent(exact, exact + patched + held);
  }

  /** The last pictures in words; `network` is the one that is made worse, where there is one. */
  tell(network) {
    const rows = [...this.#rows.values()];
    const counts = summed(rows.map(({ strip }) => strip.counts));
    const shown = counts.exact + counts.patched + counts.held;
    const share = percent(counts.exact, shown);
    place("clock").textContent = clockWords(this.seconds);
    this.#tellOrdinary();
    place("share").textContent = shown ? this.text("share", share) : this.text("waiting");
    place("sentence").textContent = shown ? this.#sentence(share, counts.exact === shown, network) : "";
    rows.forEach((row) => row.tell(this.text, rows.length === 1));
    const isTime = shown && Math.floor(this.seconds) % SUMMARY_EACH === 0;
    if (isTime) place("summary").textContent = this.text("summary", counts);
  }

  /** How often the ordinary coder's picture moves, since it is there. */
  #tellOrdinary() {
    const { shown = 0, held = 0 } = this.counts?.ordinary ?? {};
    place("ordinary_share").textContent = shown + held ? this.text("ordinary_share", percent(shown, shown + held)) : "";
  }

  #sentence(share, isAll, network) {
    const lost = network ? percent(network.lost, network.sent) : 0;
    if (isAll) return this.text("all_exact", lost);
    if (!network) return this.text("only_exact", share);
    return lost ? this.text("some_exact", share, lost) : this.text("late_ones", share);
  }

  /** Numbers for who wants them; of sound how many packets came, and how long it waited. */
  tellFigures(network, sound) {
    if (!this.counts) return;
    const { took, sent } = this.counts;
    const ms = (seconds) => (1000 * seconds).toFixed(1);
    place("figures").textContent = this.text("figures", {
      late: this.#late.length ? Math.round(1000 * middle(this.#late)) : "–",
      planes: ms(took.planes), code: ms(took.code), rate: Math.round(this.#rate(sent.bytes)),
      sound: sound.packets, soundWait: sound.wait,
      sent: Object.values(sent.coded).reduce((sum, count) => sum + count, 0), left: this.left,
      packets: sent.packets, again: sent.again, lost: network?.lost ?? "–",
    });
    if (this.#rows.size > 1) {
      const told = this.counts.played.filter((it) => this.#rows.has(it.place));
      const parties = told.map((it) => this.text("party_figures", { name: this.#rows.get(it.place).name, ...it }));
      place("figures").textContent += ` · ${parties.join(" · ")}`;
    }
    const { ordinary } = this.counts;
    if (!ordinary) return;
    const { keys, code, late } = ordinary;
    place("figures").textContent += ` · ${this.text("ordinary_figures", { keys, code: ms(code), late: Math.round(1000 * late) })}`;
  }

  /** Kilobits a second that go out. */
  #rate(count) {
    const now = performance.now();
    if (now - this.#bytes.at > RATE_OVER) {
      this.#bytes = { at: now, count, rate: (8 * (count - this.#bytes.count)) / (now - this.#bytes.at) };
    }
    return this.#bytes.rate;
  }
}

/** All the counts together. */
function summed(counts) {
  const sum = (mark) => counts.reduce((all, it) => all + it[mark], 0);
  return { exact: sum("exact"), patched: sum("patched"), held: sum("held") };
}

/** In whole percent; 100 only where it is all. */
function percent(part, whole) {
  return whole ? Math.floor((100 * part) / whole) : 0;
}

function middle(list) {
  return [...list].sort((a, b) => a - b)[list.length >> 1];
}

function clockWords(seconds) {
  const two = (number) => String(Math.floor(number)).padStart(2, "0");
  return `${two(seconds / 60)}:${two(seconds % 60)}`;
}
