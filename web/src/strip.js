/**
 * The line of time: a bar for each of the last pictures, whole where it is exact, lower where it is patched or held.
 * @module
 */

const PICTURES = 300;
const HEIGHT = 36;
const TALL = Object.freeze({ exact: 1, patched: 0.6, held: 0.3 });

export class Strip {
  #marks = [];
  #isDue = false;

  #watch = new ResizeObserver(() => this.draw());

  constructor(canvas) {
    this.canvas = canvas;
    this.#watch.observe(canvas);
    this.draw();
  }

  close() {
    this.#watch.disconnect();
  }

  add(mark) {
    this.#marks.push(mark);
    if (this.#marks.length > PICTURES) this.#marks.shift();
    if (this.#isDue) return;
    this.#isDue = true;
    requestAnimationFrame(() => this.draw());
  }

  /** How many of the last pictures have each mark. */
  get counts() {
    const counts = { exact: 0, patched: 0, held: 0 };
    for (const mark of this.#marks) counts[mark]++;
    return counts;
  }

  draw() {
    this.#isDue = false;
    const { pen, width } = this.#prepared();
    const style = getComputedStyle(this.canvas);
    const step = width / PICTURES;
    this.#marks.forEach((mark, at) => {
      const tall = (HEIGHT - 2) * TALL[mark];
      pen.fillStyle = style.getPropertyValue(`--${mark}`);
      pen.fillRect(width - (this.#marks.length - at) * step, HEIGHT - 1 - tall, Math.max(step - 0.4, 0.8), tall);
    });
    pen.fillStyle = style.getPropertyValue("--rule");
    pen.fillRect(0, HEIGHT - 1, width, 1);
  }

  /** The canvas's pen in CSS pixels, sharp on any screen. */
  #prepared() {
    const { canvas } = this;
    const width = canvas.clientWidth || 1;
    const scale = devicePixelRatio || 1;
    Object.assign(canvas, { width: Math.round(width * scale), height: Math.round(HEIGHT * scale) });
    const pen = canvas.getContext("2d");
    pen.scale(scale, scale);
    return { pen, width };
  }
}
