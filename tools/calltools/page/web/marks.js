/* How marks, packets and messages are drawn: by a colour, and by a form that reads without it. */

const MARKS = {
  exact: { letter: "E", word: "exact" },
  patched: { letter: "P", word: "patched" },
  held: { letter: "H", word: "held" },
};
const FATES = {
  taken: "came in time",
  lost: "lost",
  late: "too late",
  early: "too early",
  again: "came again",
  passed: "sent",
};
const PACKET_FORMS = {
  taken: { colour: "packet", dash: [] },
  lost: { colour: "held", dash: [] },
  late: { colour: "late", dash: [5, 3] },
  early: { colour: "late", dash: [5, 3] },
  again: { colour: "packet", dash: [1, 4] },
  passed: { colour: "packet", dash: [2, 3] },
};
const GROUNDS = ["paper", "panel", "ink", "quiet", "rule", "on"];
const SIGNS = ["exact", "patched", "held", "none", "packet", "late", "message"];
const FONT = 'system-ui, "DejaVu Sans", sans-serif';

/* The page's colours, which follow its scheme. */
function coloursOf(element) {
  const style = getComputedStyle(element);
  const colour = (name) => [name, style.getPropertyValue(`--${name}`).trim()];
  return Object.fromEntries([...GROUNDS, ...SIGNS].map(colour));
}

/* A canvas's pen in CSS pixels, sharp on any screen. */
function prepared(canvas, height) {
  const width = canvas.clientWidth || 1;
  const scale = window.devicePixelRatio || 1;
  canvas.style.height = `${height}px`;
  canvas.width = Math.round(width * scale);
  canvas.height = Math.round(height * scale);
  const pen = canvas.getContext("2d");
  pen.scale(scale, scale);
  pen.lineCap = "round";
  return { pen, width, height };
}

function drawHatching(pen, x, y, side, colour) {
  pen.save();
  pen.beginPath();
  pen.rect(x, y, side, side);
  pen.clip();
  pen.strokeStyle = colour;
  pen.globalAlpha *= 0.55;
  pen.lineWidth = 2;
  pen.beginPath();
  for (let step = -side; step < side; step += 5) {
    pen.moveTo(x + step, y + side);
    pen.lineTo(x + step + side, y);
  }
  pen.stroke();
  pen.restore();
}

/* A picture's square about (x, y): exact is full, patched hatched, held dashed and empty. */
function drawMark(pen, colours, mark, x, y, side, letter) {
  const colour = colours[mark] || colours.none;
  const left = x - side / 2;
  const top = y - side / 2;
  pen.fillStyle = mark === "exact" ? colour : colours.panel;
  pen.fillRect(left, top, side, side);
  if (mark === "patched") drawHatching(pen, left, top, side, colour);
  pen.strokeStyle = colour;
  pen.lineWidth = 1.5;
  pen.setLineDash(mark === "held" ? [3, 2.5] : []);
  pen.strokeRect(left + 0.75, top + 0.75, side - 1.5, side - 1.5);
  pen.setLineDash([]);
  if (letter && side >= 13) drawLetter(pen, colours, mark, letter, x, y, side);
}

function drawLetter(pen, colours, mark, letter, x, y, side) {
  pen.font = `650 ${Math.min(13, Math.round(side * 0.68))}px ${FONT}`;
  pen.textAlign = "center";
  pen.textBaseline = "middle";
  if (mark === "patched") {
    pen.strokeStyle = colours.panel;
    pen.lineWidth = 4;
    pen.strokeText(letter, x, y + 0.5);
  }
  pen.fillStyle = { exact: colours.on, held: colours.held }[mark] || colours.ink;
  pen.fillText(letter, x, y + 0.5);
}

function drawLine(pen, from, to, width, dash) {
  pen.lineWidth = width;
  pen.setLineDash(dash);
  pen.beginPath();
  pen.moveTo(...from);
  pen.lineTo(...to);
  pen.stroke();
  pen.setLineDash([]);
}

function drawCross(pen, [x, y]) {
  drawLine(pen, [x - 4, y - 4], [x + 4, y + 4], 2.2, []);
  drawLine(pen, [x + 4, y - 4], [x - 4, y + 4], 2.2, []);
}

function drawTriangle(pen, [x, y], tip) {
  pen.beginPath();
  pen.moveTo(x - tip, y - 4.5);
  pen.lineTo(x + tip, y);
  pen.lineTo(x - tip, y + 4.5);
  pen.closePath();
  pen.fill();
}

function drawDot(pen, [x, y], size) {
  pen.beginPath();
  pen.arc(x, y, size, 0, 2 * Math.PI);
  pen.fill();
}

function drawArrow(pen, [x, y], [toX, toY]) {
  const angle = Math.atan2(toY - y, toX - x);
  pen.beginPath();
  pen.moveTo(toX, toY);
  for (const turn of [-0.45, 0.45]) {
    pen.lineTo(toX - 8 * Math.cos(angle + turn), toY - 8 * Math.sin(angle + turn));
  }
  pen.closePath();
  pen.fill();
}

function halfWay([x, y], [toX, toY]) {
  return [(x + toX) / 2, (y + toY) / 2];
}

/* A packet on its way down: a dot where it came in time, a cross half way where it was lost, and
   triangles that point to the right for late and to the left for early. */
function drawPacket(pen, colours, fate, isAll, from, to) {
  const form = PACKET_FORMS[fate];
  const end = fate === "lost" ? halfWay(from, to) : to;
  pen.strokeStyle = pen.fillStyle = colours[form.colour];
  drawLine(pen, from, end, isAll ? 3 : 1.4, form.dash);
  if (fate === "lost") drawCross(pen, end);
  if (fate === "late" || fate === "early") drawTriangle(pen, end, fate === "late" ? 4.5 : -4.5);
  if (fate === "taken") drawDot(pen, end, isAll ? 3.2 : 2.4);
}

/* A message on its way up: an ACK's line is whole, a NACK's broken; a lost one ends in a cross. */
function drawMessage(pen, colours, isAck, fate, from, to) {
  const isLost = fate === "lost";
  const end = isLost ? halfWay(from, to) : to;
  pen.strokeStyle = pen.fillStyle = isLost ? colours.held : colours.message;
  drawLine(pen, from, end, 1.4, isAck ? [] : [4, 4]);
  if (isLost) drawCross(pen, end);
  else drawArrow(pen, from, end);
}

/* The signs that these ways have: pairs of a word and a drawing of 28 by 20. */
function signsOf(ways, colours) {
  const has = (list, test) => ways.some((way) => way[list].some(test));
  const signs = [];
  for (const [mark, { letter, word }] of Object.entries(MARKS)) {
    if (!has("marks", (one) => one === mark)) continue;
    signs.push([word, (pen) => drawMark(pen, colours, mark, 14, 10, 18, letter)]);
  }
  const hasSender = has("packets", () => true) || has("marks", (one) => one === null);
  if (hasSender && has("references", (one) => one === -1)) {
    signs.push(["intra", (pen) => drawMark(pen, colours, null, 14, 10, 18, "I")]);
  }
  for (const [fate, word] of Object.entries(FATES)) {
    if (!has("packets", (row) => row.fate === fate)) continue;
    const draw = (pen) => drawPacket(pen, colours, fate, false, [4, 3], [24, 16]);
    signs.push([`packet ${word}`, draw]);
  }
  const messages = [["ACK", true, false], ["NACK", false, false], ["message lost", true, true]];
  for (const [word, isAck, isLost] of messages) {
    const isOne = (row) => (row.fate === "lost") === isLost && (isLost || row.isAck === isAck);
    if (!has("messages", isOne)) continue;
    const fate = isLost ? "lost" : "taken";
    signs.push([word, (pen) => drawMessage(pen, colours, isAck, fate, [4, 17], [24, 4])]);
  }
  return signs;
}
