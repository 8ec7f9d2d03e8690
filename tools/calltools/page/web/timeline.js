/* The lines of time: the whole call as bars, and what is around one picture. */

const SQUARE = 20;
const ARCS = 88;
const LADDER = 116;
const NUMBERS = 22;
const TIMES = [0.1, 0.2, 0.5, 1, 2, 5, 10];
const ZOOMS = [6, 9, 14, 22, 34, 52, 80];
/* How long a packet or message is drawn to take, in pictures, where nothing tells. */
const USUAL_WAY = 0.5;

function median(values, otherwise) {
  const sorted = values.filter(Number.isFinite).sort((a, b) => a - b);
  return sorted.length ? sorted[sorted.length >> 1] : otherwise;
}

/* What the drawing needs of a way: its rows by their pictures, and how long they are under way. */
function prepare(way) {
  const byPlace = (rows) => {
    const places = way.marks.map(() => []);
    for (const row of rows) places[row.picture - way.first]?.push(row);
    return places;
  };
  const usual = USUAL_WAY * way.period;
  const took = (from, to) => (from === null || to === null ? NaN : to - from);
  way.packetsOf = byPlace(way.packets);
  way.messagesOf = byPlace(way.messages);
  way.usualForth = median(way.packets.map(({ sent, came }) => took(sent, came)), usual);
  way.usualBack = median(way.messages.map(({ said, heard }) => took(said, heard)), usual);
}

class Overview {
  constructor(canvas, colours) {
    this.canvas = canvas;
    this.colours = colours;
  }

  /* Bars of each picture: exact ones whole, patched half, held low. */
  draw(way, place, shownPlaces) {
    const { pen, width, height } = prepared(this.canvas, 48);
    const colours = this.colours();
    const count = way.marks.length;
    const step = width / count;
    const heights = { patched: 0.55, held: 0.25 };
    const gap = step > 4 ? 1 : 0;
    const bar = (number, tall, colour, least) => {
      pen.fillStyle = colour;
      pen.fillRect(number * step, height - 6 - tall, Math.max(step - gap, least), tall);
    };
    /* Where pictures are finer than points, those that aren't exact are seen all the same. */
    way.marks.forEach((mark, number) => bar(number, height - 12, colours.exact, 0.75));
    way.marks.forEach((mark, number) => {
      if (mark === "exact") return;
      bar(number, height - 12, colours.paper, 1.5);
      bar(number, (height - 12) * (heights[mark] || 0.7), colours[mark] || colours.none, 1.5);
    });
    pen.strokeStyle = colours.quiet;
    const [from, to] = shownPlaces;
    pen.strokeRect(from * step + 0.5, 1.5, (to - from) * step - 1, height - 3);
    pen.fillStyle = colours.ink;
    pen.fillRect((place + 0.5) * step - 1, 0, 2, height);
  }

  placeAt(way, x) {
    const count = way.marks.length;
    return Math.min(Math.max(Math.floor((x / this.canvas.clientWidth) * count), 0), count - 1);
  }
}

class Timeline {
  constructor(canvas, colours) {
    this.canvas = canvas;
    this.colours = colours;
    this.zoom = 4;
  }

  closer(steps) {
    this.zoom = Math.min(Math.max(this.zoom + steps, 0), ZOOMS.length - 1);
  }

  /* Sets what is drawn: a way, and which of its pictures is in the middle. */
  look(way, place) {
    this.way = way;
    this.place = place;
    this.step = ZOOMS[this.zoom];
    this.hasWays = way.packets.length > 0 || way.messages.length > 0;
    this.top = ARCS + SQUARE / 2;
    this.bottom = this.hasWays ? this.top + LADDER + SQUARE : this.top;
    const played = this.hasWays ? way.played[place] : null;
    const captured = this.capturedAt(place);
    this.middle = played === null || played === undefined ? captured : (captured + played) / 2;
  }

  capturedAt(place) {
    const { captured, played, period } = this.way;
    return captured[place] ?? played[place] ?? place * period;
  }

  x(time) {
    return this.width / 2 + ((time - this.middle) / this.way.period) * this.step;
  }

  /* The places, counted from the first picture, between which the drawing lies. */
  places() {
    const half = (this.canvas.clientWidth || 1) / 2 / ZOOMS[this.zoom];
    const count = this.way.marks.length;
    return [Math.max(this.place - half, 0), Math.min(this.place + half + 1, count)];
  }

  placeAt(x) {
    const place = Math.round(this.place + (x - this.canvas.clientWidth / 2) / ZOOMS[this.zoom]);
    return Math.min(Math.max(place, 0), this.way.marks.length - 1);
  }

  isSeen(...times) {
    const seen = times.map((time) => this.x(time));
    return Math.max(...seen) > -40 && Math.min(...seen) < this.width + 40;
  }

  draw() {
    const height = this.bottom + SQUARE / 2 + NUMBERS;
    const { pen, width } = prepared(this.canvas, height);
    this.pen = pen;
    this.width = width;
    this.ink = this.colours();
    const half = width / 2 / this.step + 40;
    const first = Math.max(Math.floor(this.place - half), 0);
    const last = Math.min(Math.ceil(this.place + half), this.way.marks.length - 1);
    const others = [];
    for (let place = first; place <= last; place++) {
      if (place !== this.place) others.push(place);
    }
    this.drawTimes();
    this.drawRails();
    pen.globalAlpha = 0.5;
    this.drawArcs(first, false);
    for (const place of others) this.drawWays(place);
    pen.globalAlpha = 1;
    this.drawArcs(first, true);
    this.drawWays(this.place);
    for (const place of others) this.drawSquares(place);
    this.drawSquares(this.place);
    this.drawFrames();
    this.drawNumbers(others);
    this.drawNames();
  }

  drawRails() {
    this.pen.strokeStyle = this.ink.rule;
    this.pen.lineWidth = 1;
    for (const y of new Set([this.top, this.bottom])) {
      this.pen.beginPath();
      this.pen.moveTo(0, y);
      this.pen.lineTo(this.width, y);
      this.pen.stroke();
    }
  }

  /* Upright lines at round times. */
  drawTimes() {
    const second = this.step / this.way.period;
    const every = TIMES.find((time) => time * second >= 90) || TIMES[TIMES.length - 1];
    const start = this.middle - this.width / 2 / second;
    this.pen.font = `400 11px ${FONT}`;
    this.pen.textAlign = "left";
    this.pen.textBaseline = "top";
    for (let count = Math.ceil(start / every); this.x(count * every) < this.width; count++) {
      if (count < 0) continue;
      const x = this.x(count * every);
      this.pen.strokeStyle = this.ink.rule;
      drawLine(this.pen, [x, 0], [x, this.bottom + SQUARE / 2], 1, []);
      this.pen.fillStyle = this.ink.quiet;
      this.pen.fillText(`${+(count * every).toFixed(1)} s`, x + 4, 3);
    }
  }

  /* An arc from each picture to its reference, also from pictures on the right of what is seen. */
  drawArcs(first, isHere) {
    const { references, marks } = this.way;
    const places = isHere ? [this.place] : marks.keys();
    for (const place of places) {
      if (place < first || references[place] < 0 || (place === this.place) !== isHere) continue;
      const to = references[place] - this.way.first;
      const start = this.x(this.capturedAt(place));
      const end = to >= 0 ? this.x(this.capturedAt(to)) : start - (place - to) * this.step;
      if (end > this.width + 40 || start < -40) continue;
      this.drawArc(start, end, isHere);
    }
  }

  drawArc(start, end, isHere) {
    const across = (start - end) / 2;
    const base = this.top - SQUARE / 2 - 2;
    this.pen.strokeStyle = isHere ? this.ink.ink : this.ink.quiet;
    this.pen.lineWidth = isHere ? 2.2 : 1.1;
    this.pen.beginPath();
    const tall = Math.min(across, ARCS - 28);
    this.pen.ellipse((start + end) / 2, base, across, tall, 0, 0, Math.PI, true);
    this.pen.stroke();
    if (!isHere) return;
    this.pen.fillStyle = this.ink.ink;
    drawArrow(this.pen, [end + 2, base - 12], [end, base + 1]);
  }

  drawWays(place) {
    for (const packet of this.way.packetsOf[place]) this.drawPacket(packet);
    for (const message of this.way.messagesOf[place]) this.drawMessage(message);
  }

  drawPacket({ fate, isAll, sent, came }) {
    const { usualForth } = this.way;
    const from = sent ?? came - usualForth;
    const to = came ?? from + usualForth;
    if (!this.isSeen(from, to)) return;
    const top = this.top + SQUARE / 2;
    const bottom = this.bottom - SQUARE / 2 - 3;
    drawPacket(this.pen, this.ink, fate, isAll, [this.x(from), top], [this.x(to), bottom]);
  }

  drawMessage({ isAck, fate, said, heard }) {
    if (said === null) return;
    const to = heard ?? said + this.way.usualBack;
    if (!this.isSeen(said, to)) return;
    const bottom = this.bottom - SQUARE / 2 - 1;
    const top = this.top + SQUARE / 2 + 1;
    drawMessage(this.pen, this.ink, isAck, fate, [this.x(said), bottom], [this.x(to), top]);
  }

  /* Where a picture's squares stand: at the sender, and at the receiver where it was played. */
  squaresAt(place) {
    const played = this.way.played[place] ?? null;
    const sender = this.x(this.capturedAt(place));
    return { sender, receiver: !this.hasWays ? sender : played === null ? null : this.x(played) };
  }

  get side() {
    return Math.min(SQUARE, this.step - 2);
  }

  drawSquares(place) {
    const { sender, receiver } = this.squaresAt(place);
    const mark = this.way.marks[place];
    const intra = this.way.references[place] === -1 ? "I" : "";
    const letter = mark ? MARKS[mark].letter : this.hasWays ? "" : intra;
    const [pen, ink, side] = [this.pen, this.ink, this.side];
    if (this.hasWays) drawMark(pen, ink, null, sender, this.top, side, intra);
    if (receiver !== null) drawMark(pen, ink, mark, receiver, this.bottom, side, letter);
  }

  /* Around the squares of the picture that is looked at. */
  drawFrames() {
    const { sender, receiver } = this.squaresAt(this.place);
    const wide = this.side + 5;
    this.pen.strokeStyle = this.ink.ink;
    this.pen.lineWidth = 2.5;
    const frame = (x, y) => this.pen.strokeRect(x - wide / 2, y - wide / 2, wide, wide);
    if (this.hasWays) frame(sender, this.top);
    if (receiver !== null) frame(receiver, this.bottom);
  }

  /* The numbers of this picture, and of every few that have room beside it and one another. */
  drawNumbers(others) {
    const every = this.step >= 28 ? 1 : this.step >= 12 ? 5 : 10;
    const taken = [];
    const draw = (place, weight, colour) => {
      const { receiver } = this.squaresAt(place);
      if (receiver === null || taken.some((x) => Math.abs(x - receiver) < 28)) return;
      taken.push(receiver);
      this.pen.font = `${weight} 11px ${FONT}`;
      this.pen.fillStyle = colour;
      this.pen.fillText(String(this.way.first + place), receiver, this.bottom + SQUARE / 2 + 6);
    };
    this.pen.textAlign = "center";
    this.pen.textBaseline = "top";
    draw(this.place, 700, this.ink.ink);
    for (const place of others) {
      if ((this.way.first + place) % every === 0) draw(place, 400, this.ink.quiet);
    }
  }

  drawNames() {
    if (!this.hasWays) return;
    this.pen.font = `600 11px ${FONT}`;
    this.pen.textAlign = "left";
    this.pen.textBaseline = "middle";
    for (const [word, y] of [["sender", this.top + SQUARE], ["receiver", this.bottom - SQUARE]]) {
      const wide = this.pen.measureText(word).width;
      this.pen.fillStyle = this.ink.panel;
      this.pen.fillRect(4, y - 8, wide + 8, 16);
      this.pen.fillStyle = this.ink.quiet;
      this.pen.fillText(word, 8, y);
    }
  }
}
