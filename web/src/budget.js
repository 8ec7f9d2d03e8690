/**
 * So many of something a second, and so many at once: what comes from another side costs no more than a call does.
 * @module
 */

export class Budget {
  #left;
  #last = 0;

  /** Of so many a second, and at once at the most. */
  constructor(rate, most = rate) {
    Object.assign(this, { rate, most });
    this.#left = most;
  }

  /** Whether so many more are within it. */
  take(count = 1) {
    const time = performance.now();
    this.#left = Math.min(this.most, this.#left + ((time - this.#last) * this.rate) / 1000);
    this.#last = time;
    if (this.#left < count) return false;
    this.#left -= count;
    return true;
  }
}
