/**
 * A ringing tone, where the browser lets a page be heard before something was pressed on it.
 * @module
 */

/** Two tones, each for so many seconds, every so many milliseconds. */
const TONES = [587, 740];
const LONG = 0.35;
const EACH = 2000;

export class Ring {
  #context = null;
  #timer = null;

  start() {
    this.stop();
    this.#context = new AudioContext();
    this.#timer = setInterval(() => this.#sound(), EACH);
    this.#sound();
  }

  stop() {
    clearInterval(this.#timer);
    this.#context?.close();
    this.#context = null;
  }

  #sound() {
    const context = this.#context;
    if (context.state !== "running") return;
    TONES.forEach((tone, place) => {
      const begin = context.currentTime + place * LONG;
      const volume = new GainNode(context, { gain: 0 });
      volume.gain.setTargetAtTime(0.15, begin, 0.02);
      volume.gain.setTargetAtTime(0, begin + LONG - 0.08, 0.03);
      const source = new OscillatorNode(context, { frequency: tone });
      source.connect(volume).connect(context.destination);
      source.start(begin);
      source.stop(begin + LONG);
    });
  }
}
