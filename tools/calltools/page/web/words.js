/* What the page says in words. */

const NO_TIME = [null, undefined];

function referenceWords(reference) {
  if (reference === -1) return "intra";
  return reference === -2 ? "" : `from ${reference}`;
}

function secondsWords(time) {
  return NO_TIME.includes(time) ? "" : `${time.toFixed(3)} s`;
}

/* How many packets had each fate; where all of a picture's are one row, no number is known. */
function packetWords(packets) {
  if (packets.some(({ isAll }) => isAll)) {
    return packets.map(({ isAll, fate }) => `${isAll ? "all" : "one"} ${FATES[fate]}`).join(", ");
  }
  const count = (fate) => packets.reduce((sum, row) => sum + (row.fate === fate ? row.count : 0), 0);
  const fates = Object.keys(FATES).filter(count);
  return fates.map((fate) => `${count(fate)} ${FATES[fate]}`).join(", ");
}

function bytesWords(packets) {
  const sent = packets.filter(({ fate, size }) => fate !== "again" && size);
  return sent.reduce((sum, { size }) => sum + size, 0).toLocaleString("en");
}

function messageWords({ isAck, fate, said, heard }) {
  const isTimed = ![said, heard].some((time) => NO_TIME.includes(time));
  const after = isTimed ? ` after ${Math.round(1000 * (heard - said))} ms` : "";
  const words = { lost: "lost", passed: "said", taken: `came back${after}` };
  return `${isAck ? "ACK" : "NACK"} ${words[fate]}`;
}

function qualityWords(psnr) {
  if (psnr === undefined) return "";
  return psnr >= 99 ? "as captured" : `${psnr.toFixed(1)} dB (PSNR of Y, shown against captured)`;
}

function rateWords(kbits) {
  return kbits === null ? "" : `${kbits} kbit/s followed`;
}

/* One sentence on a picture, which readers of the screen hear at each step. */
function sentenceOf(way, place) {
  const mark = way.marks[place];
  const [first, last] = [way.first, way.first + way.marks.length - 1];
  const words = [`Picture ${first + place} of ${first} to ${last}`, mark && MARKS[mark].word];
  return [...words, referenceWords(way.references[place])].filter(Boolean).join(", ");
}

/* What the line of time shows of a picture: pairs of a name and words, the same names for each. */
function rowsOf(way, place) {
  const packets = way.packetsOf[place];
  const messages = way.messagesOf[place].map(messageWords).join(", ");
  const rows = [["Reference", referenceWords(way.references[place]), true]];
  rows.push(["Packets", packetWords(packets), way.packets.length]);
  rows.push(["Bytes", bytesWords(packets), way.packets.some(({ size }) => size)]);
  rows.push(["Line", rateWords(way.kbits[place]), way.kbits.some(Boolean)]);
  rows.push(["Message", messages, way.messages.length]);
  rows.push(["Captured", secondsWords(way.captured[place]), true]);
  rows.push(["Played", secondsWords(way.played[place]), way.played.some(Boolean)]);
  rows.push(["Quality", qualityWords(way.psnr[place]), way.psnr.length]);
  return rows.filter(([, , isTold]) => isTold).map(([name, words]) => [name, words || "\u2013"]);
}

function storedWords(way) {
  const both = [["captured", way.captured_video], ["shown", way.shown_video]];
  const videos = both.filter(([, video]) => video);
  if (!videos.length) return "";
  if (videos[0][1].psnr === null) return "Stored exactly, sample by sample.";
  const psnr = videos.map(([name, video]) => `${name} ${video.psnr} dB`).join(", ");
  return `Stored at reduced precision (PSNR of Y: ${psnr}). Marks and quality are the real ones.`;
}
