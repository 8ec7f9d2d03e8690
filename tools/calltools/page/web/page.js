/* The page: its parts put together, keys and touch. */

const byId = (id) => document.getElementById(id);
/* A drag of this many CSS pixels across a picture is a step. */
const DRAG_STEP = 14;
/* One of this many is a tap that slipped. */
const SLIP = 4;

function element(name, words) {
  return Object.assign(document.createElement(name), { textContent: words });
}

class Page {
  constructor(ways) {
    this.ways = ways;
    const colours = () => (this.colours ||= coloursOf(document.documentElement));
    const figures = { captured: byId("captured_figure"), shown: byId("shown_figure") };
    this.overview = new Overview(byId("overview"), colours);
    this.timeline = new Timeline(byId("timeline"), colours);
    this.player = new Player(ways, figures, () => this.update());
    this.acts = this.actsOf(this.player);
    this.listen();
    this.choose(0);
    this.drawLegend(colours());
  }

  /* What buttons and keys do, by name. */
  actsOf(player) {
    return {
      first: () => player.step(-player.place),
      back: () => player.step(-1),
      far_back: () => player.step(-10),
      play: () => player.toggle(),
      forward: () => player.step(1),
      far_forward: () => player.step(10),
      last: () => player.step(player.count),
      next_fault: () => player.fault(1),
      fault_before: () => player.fault(-1),
      reference: () => this.toReference(),
      closer: () => this.zoom(1),
      farther: () => this.zoom(-1),
    };
  }

  act(name) {
    this.acts[name]();
    this.remember();
  }

  choose(number) {
    this.player.stop();
    this.player.choose(number);
    const { way, count } = this.player;
    byId("pictures").classList.toggle("is_single", !(way.captured_video && way.shown_video));
    byId("place").max = count - 1;
    byId("stored").textContent = storedWords(way);
    return this.player.go(0);
  }

  update() {
    const { way, place, number, isPlaying } = this.player;
    const sentence = sentenceOf(way, place);
    this.timeline.look(way, place);
    this.timeline.draw();
    this.overview.draw(way, place, this.timeline.places());
    byId("place").value = place;
    byId("place").setAttribute("aria-valuetext", sentence);
    byId("play").classList.toggle("is_on", isPlaying);
    byId("play").setAttribute("aria-label", isPlaying ? "Stop" : "Play");
    byId("status").textContent = isPlaying ? "Playing" : sentence;
    byId("captured_told").textContent = `picture ${number}`;
    this.tellMark(way.marks[place]);
    const row = ([name, words]) => [element("dt", name), element("dd", words)];
    byId("told").replaceChildren(...rowsOf(way, place).flatMap(row));
  }

  tellMark(mark) {
    byId("mark").className = `mark ${mark || ""}`;
    byId("mark").textContent = mark ? MARKS[mark].word : "not played";
  }

  /* Puts the number into the page's address, so that it can be passed on. */
  remember() {
    try {
      history.replaceState(null, "", `#${this.player.number}`);
    } catch (fault) {
      /* Some browsers refuse it for a file. */
    }
  }

  /* The picture that the address names. */
  recall() {
    const number = Number.parseInt(location.hash.slice(1), 10);
    if (Number.isFinite(number)) this.player.go(number - this.player.way.first);
  }

  listen() {
    const { player } = this;
    for (const button of document.querySelectorAll("button[data-act]")) {
      button.addEventListener("click", () => this.act(button.dataset.act));
    }
    byId("place").addEventListener("input", (event) => {
      player.stop();
      player.go(Number(event.target.value));
    });
    const chosen = (id, act) => {
      byId(id).addEventListener("change", (event) => act(Number(event.target.value)));
    };
    chosen("speed", (speed) => player.setSpeed(speed));
    chosen("way", (number) => this.choose(number));
    document.addEventListener("keydown", (event) => this.key(event));
    addEventListener("resize", () => this.update());
    addEventListener("hashchange", () => this.recall());
    matchMedia("(prefers-color-scheme: dark)").addEventListener("change", () => this.recolour());
    this.listenToTouch();
  }

  zoom(steps) {
    this.timeline.closer(steps);
    this.update();
  }

  recolour() {
    this.colours = null;
    this.update();
    this.drawLegend(coloursOf(document.documentElement));
  }

  key(event) {
    if (event.ctrlKey || event.altKey || event.metaKey) return;
    const tag = event.target.tagName;
    if (tag === "SELECT" || (event.key === " " && ["BUTTON", "SUMMARY"].includes(tag))) return;
    const keys = {
      " ": "play", ArrowLeft: "back", ArrowRight: "forward", Home: "first", End: "last",
      n: "next_fault", p: "fault_before", r: "reference",
      "+": "closer", "=": "closer", "-": "farther",
    };
    const far = { ArrowLeft: "far_back", ArrowRight: "far_forward" };
    const name = event.key.length === 1 ? event.key.toLowerCase() : event.key;
    const act = (event.shiftKey && far[name]) || keys[name];
    if (!act) return;
    event.preventDefault();
    this.act(act);
  }

  toReference() {
    const { way, place, number } = this.player;
    if (way.references[place] >= 0) this.player.step(way.references[place] - number);
  }

  /* Fingers and mice: across a picture to step, on the lines of time to go there. */
  listenToTouch() {
    const { player, overview, timeline } = this;
    const steps = (moved, size) => this.dragged + Math.round(moved / size);
    this.drag(byId("pictures"), (moved) => player.go(steps(moved, DRAG_STEP)), () => {});
    const there = (moved, x) => player.go(overview.placeAt(player.way, x));
    this.drag(byId("overview"), there, (x) => there(0, x));
    const tapped = (x) => player.go(timeline.placeAt(x));
    const along = (moved) => player.go(steps(moved, -ZOOMS[timeline.zoom]));
    this.drag(byId("timeline"), along, tapped);
  }

  /* Calls `dragged` with how far a pointer was moved and where it is; `tapped` where it wasn't. */
  drag(target, dragged, tapped) {
    const x = (event) => event.clientX - target.getBoundingClientRect().left;
    let start = null;
    let hasMoved = false;
    target.addEventListener("pointerdown", (event) => {
      if (event.button) return;
      start = event.clientX;
      hasMoved = false;
      this.dragged = this.player.place;
      this.player.stop();
      target.setPointerCapture(event.pointerId);
    });
    target.addEventListener("pointermove", (event) => {
      if (start === null) return;
      hasMoved ||= Math.abs(event.clientX - start) > SLIP;
      if (hasMoved) dragged(event.clientX - start, x(event));
    });
    const ended = (event) => {
      if (event.type === "pointerup" && start !== null && !hasMoved) tapped(x(event));
      start = null;
      this.update();
      this.remember();
    };
    target.addEventListener("pointerup", ended);
    target.addEventListener("pointercancel", ended);
  }

  drawLegend(colours) {
    byId("legend").replaceChildren();
    for (const [word, draw] of signsOf(this.ways, colours)) {
      const canvas = document.createElement("canvas");
      canvas.setAttribute("aria-hidden", "true");
      const item = document.createElement("li");
      item.append(canvas, word);
      byId("legend").append(item);
      draw(prepared(canvas, 20).pen);
    }
  }
}

/* Rows with names, and what the drawing needs. */
function wayOf(told) {
  const packet = ([picture, fate, sent, came, size, isAll, count]) => {
    return { picture, fate, sent, came, size, isAll };
  };
  const message = ([picture, isAck, fate, said, heard]) => ({ picture, isAck, fate, said, heard });
  const way = { ...told, packets: told.packets.map(packet), messages: told.messages.map(message) };
  prepare(way);
  return way;
}

function tellFault(words) {
  byId("fault").hidden = false;
  byId("fault").textContent = words;
}

function start() {
  if (typeof createImageBitmap === "undefined") {
    tellFault("This browser is too old: it has no createImageBitmap.");
    return;
  }
  if (!isReadBack()) tellFault("This browser alters the pictures that a page reads: they aren't exact here.");
  const ways = JSON.parse(byId("call").textContent).ways.map(wayOf);
  byId("choice").hidden = ways.length < 2;
  const option = (way, number) => new Option(way.name || `way ${number + 1}`, number);
  byId("way").append(...ways.map(option));
  window.page = new Page(ways);
  window.page.recall();
}

start();
