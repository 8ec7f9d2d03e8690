/**
 * The line to the server of rooms that serves this page, where one does. It comes back by itself.
 * @module
 */

/** Milliseconds before it is tried again. */
const AGAIN = 2000;
/** Letters of the longest words. The server lets no longer ones through. */
const MOST_OF_WORDS = 16384;

/** The path of the rooms at this page's server; empty where there are none. */
export const roomsPath = () => document.querySelector("meta[name=rooms]").content;

export class RoomSocket {
  #socket = null;
  #timer = null;

  /** It calls `heard(words)`, `opened()`, and `lost()` when the line is gone and will be tried again. */
  constructor({ heard, opened, lost }) {
    Object.assign(this, { heard, opened, lost });
  }

  /** Is to be open from now on. */
  open() {
    this.close();
    const socket = new WebSocket(new URL(roomsPath(), location.href).href.replace(/^http/, "ws"));
    this.#socket = socket;
    const isOwn = () => this.#socket === socket;
    socket.onopen = () => isOwn() && this.opened();
    socket.onmessage = ({ data }) => isOwn() && this.#take(data);
    socket.onclose = () => {
      if (!isOwn()) return;
      this.lost();
      this.#timer = setTimeout(() => this.open(), AGAIN);
    };
  }

  close() {
    clearTimeout(this.#timer);
    const socket = this.#socket;
    this.#socket = null;
    socket?.close();
  }

  say(words) {
    if (this.#socket?.readyState === WebSocket.OPEN) this.#socket.send(JSON.stringify(words));
  }

  #take(data) {
    if (typeof data !== "string" || data.length > MOST_OF_WORDS) return;
    let words;
    try {
      words = JSON.parse(data);
    } catch {
      return;
    }
    if (words && Object.values(words).every((word) => typeof word === "string")) this.heard(words);
  }
}
