/**
 * What both sides of a call share: with it a side that comes back shows that it is the one from before, also to a
 * server that would rather put someone else in its place.
 * @module
 */

import { printsOf } from "./codes.js";

const SECRET_BYTES = 32;
const hexOf = (bytes) => [...new Uint8Array(bytes)].map((byte) => byte.toString(16).padStart(2, "0")).join("");

/** A new secret, as a text. */
export const newSecret = () => hexOf(crypto.getRandomValues(new Uint8Array(SECRET_BYTES)));

/** Whether a word of the other side may be one. */
export const isSecret = (word) => typeof word === "string" && word.length === 2 * SECRET_BYTES && /^[0-9a-f]+$/.test(word);

/** What shows that who knows the secret has made this description: its kind and its certificate, by HMAC. */
export async function proofOf(secret, { type, sdp }) {
  const text = (words) => new TextEncoder().encode(words);
  const key = await crypto.subtle.importKey("raw", text(secret), { name: "HMAC", hash: "SHA-256" }, false, ["sign"]);
  return hexOf(await crypto.subtle.sign("HMAC", key, text(`${type} ${printsOf(sdp)}`)));
}
