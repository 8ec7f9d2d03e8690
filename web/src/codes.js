/**
 * A call's offer and its answer as a code that can be sent along: in a link's fragment, or pasted. A code comes from
 * strangers, so it is taken only where it is short, unpacks to little and says what a code says.
 * @module
 */

/** Letters of the longest code, bytes that it may unpack to, and letters of a name. */
const MOST_LETTERS = 8192;
const MOST_BYTES = 32768;
const MOST_NAME = 40;
/** In a link this stands before the code. */
const MARK = "#call=";

/** A code that isn't one. */
export class BadCode extends Error {}

/** The code of a session's description and of who makes it. */
export async function codeOf({ type, sdp }, name) {
  const text = JSON.stringify({ type, sdp, name: cut(name) });
  const packed = await through(new CompressionStream("deflate-raw"), text);
  return btoa(String.fromCharCode(...packed)).replaceAll("+", "-").replaceAll("/", "_").replaceAll("=", "");
}

/** What a code says, in whatever it is pasted: a link, or the code with spaces and line breaks. */
export async function readCode(text) {
  const code = text.split(MARK).at(-1).replace(/\s/g, "");
  if (!/^[\w-]+$/.test(code) || code.length > MOST_LETTERS) throw new BadCode("letters");
  let said;
  try {
    const letters = atob(code.replaceAll("-", "+").replaceAll("_", "/"));
    const packed = Uint8Array.from(letters, (letter) => letter.charCodeAt(0));
    const unpacked = await through(new DecompressionStream("deflate-raw"), packed, MOST_BYTES);
    said = JSON.parse(new TextDecoder().decode(unpacked));
  } catch (fault) {
    throw new BadCode("packing", { cause: fault });
  }
  const isKind = ["offer", "answer"].includes(said?.type);
  if (!isKind || typeof said.sdp !== "string" || typeof said.name !== "string") throw new BadCode("kind");
  return { description: { type: said.type, sdp: said.sdp }, name: cut(said.name) };
}

/** A link to this page with a code. */
export const linkOf = (code) => `${location.href.split("#")[0]}${MARK}${code}`;
/** The code in this page's address, or null. */
export const ownCode = () => (location.hash.startsWith(MARK) ? location.hash.slice(MARK.length) : null);

/**
 * Digits that both sides of a call have alike, if nobody is between them: to be compared by voice. There are so many of
 * them that nobody makes certificates until two calls have the same.
 */
export async function digitsOf(...descriptions) {
  const prints = descriptions.map(({ sdp }) => printsOf(sdp)).sort();
  const sum = new Uint8Array(await crypto.subtle.digest("SHA-256", new TextEncoder().encode(prints.join(" "))));
  const number = sum.reduce((all, byte) => 256n * all + BigInt(byte), 0n) % 10n ** 30n;
  return String(number).padStart(30, "0").replace(/\d{5}(?=\d)/g, "$& ");
}

/** The prints of a description's certificates, of which a call has one. */
export const printsOf = (sdp) => [...new Set([...sdp.matchAll(/^a=fingerprint:(.*)$/gm)].map(([, it]) => it.trim()))].sort().join(" ");

/** A name as it is shown: letters alone, and not too many. */
export const cut = (name) => name.replace(/[\p{C}\s]+/gu, " ").trim().slice(0, MOST_NAME);

/** What comes of data that goes through a packer or an unpacker, which may be so many bytes. */
async function through(packer, data, most = Infinity) {
  const parts = [];
  let size = 0;
  for (const reader = new Blob([data]).stream().pipeThrough(packer).getReader(); ;) {
    const { value, done } = await reader.read();
    if (done) break;
    size += value.length;
    if (size > most) throw new BadCode("size");
    parts.push(value);
  }
  const bytes = new Uint8Array(size);
  parts.reduce((at, part) => (bytes.set(part, at), at + part.length), 0);
  return bytes;
}
