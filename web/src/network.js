/**
 * A network that loses, delays and reorders datagrams, as its sliders say.
 * @module
 */

export class BadNetwork {
  /** The share that is lost, and seconds of delay, and of more delay at the most. */
  loss = 0;
  delay = 0;
  jitter = 0;
  sent = 0;
  lost = 0;

  /** Hands a datagram to `send`, later or never, and counts it. */
  carry(datagram, send) {
    this.sent++;
    if (!this.pass(() => send(datagram))) this.lost++;
  }

  /** Does what there is to do when a datagram comes, later or never; whether it comes. */
  pass(act) {
    if (Math.random() < this.loss) return false;
    const way = this.delay + this.jitter * Math.random();
    if (way) setTimeout(act, 1000 * way);
    else act();
    return true;
  }
}
