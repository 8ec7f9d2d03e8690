/**
 * What the receiving side says, on its way back: in the header of the next picture that goes out, and where that isn't near
 * alone as well.
 * @module
 */

/** A picture is near that comes in so many seconds, or should have come no longer ago. */
const NEAR = 0.02;
/** The most messages of a picture's header. */
const MOST_CARRIED = 4;

export class Carried {
  #messages = [];
  /** Those of them that didn't go alone. */
  #kept = [];
  #timer = null;

  /** It calls `send(message)` with what goes alone: a copy, which may be handed over. */
  constructor(send) {
    this.send = (message) => send(message.slice());
  }

  /** A message is to go back; the next picture comes in so many seconds. */
  say(message, seconds) {
    this.#messages.push(message);
    if (Math.abs(seconds) > NEAR) this.send(message);
    else this.#keep(message);
    if (this.#messages.length > MOST_CARRIED) this.#release(this.#messages.shift());
  }

  /** The messages of the next picture's header. */
  take() {
    const messages = this.#messages;
    this.close();
    return messages;
  }

  close() {
    clearTimeout(this.#timer);
    this.#timer = null;
    this.#messages = [];
    this.#kept = [];
  }

  /** It goes alone after all, if no picture comes. */
  #keep(message) {
    this.#kept.push(message);
    this.#timer ??= setTimeout(() => {
      this.#timer = null;
      while (this.#kept.length) this.#release(this.#kept[0]);
    }, 2000 * NEAR);
  }

  #release(message) {
    const at = this.#kept.indexOf(message);
    if (at < 0) return;
    this.#kept.splice(at, 1);
    this.send(message);
  }
}
