/**
 * A moving picture that needs no camera: a ball over turning colours, stripes, and the seconds.
 * @module
 */

import { RATE } from "./call_settings.js";

const [WIDTH, HEIGHT] = [704, 576];
/** It is drawn half as large: the largest format has no more. */
const SCALE = 0.5;

export class MadePicture {
  count = 0;

  constructor() {
    this.canvas = new OffscreenCanvas(SCALE * WIDTH, SCALE * HEIGHT);
    this.pen = this.canvas.getContext("2d", { alpha: false, willReadFrequently: true });
    this.pen.scale(SCALE, SCALE);
  }

  /** The next one, as a canvas that the one after it overwrites. */
  next() {
    this.#drawSky();
    this.#drawStripes();
    this.#drawBall();
    this.#drawTime();
    this.count++;
    return this.canvas;
  }

  #drawSky() {
    const sky = this.pen.createLinearGradient(0, 0, WIDTH, HEIGHT);
    for (let stop = 0; stop <= 4; stop++) {
      sky.addColorStop(stop / 4, `hsl(${(this.count * 0.7 + stop * 55) % 360} 55% ${38 + 6 * stop}%)`);
    }
    this.pen.fillStyle = sky;
    this.pen.fillRect(0, 0, WIDTH, HEIGHT);
  }

  #drawStripes() {
    this.pen.fillStyle = "#10141859";
    for (let x = -HEIGHT + ((this.count * 3) % 96); x < WIDTH; x += 96) {
      this.pen.beginPath();
      this.pen.moveTo(x, HEIGHT);
      this.pen.lineTo(x + 40, HEIGHT);
      this.pen.lineTo(x + 40 + HEIGHT / 2, HEIGHT / 2);
      this.pen.lineTo(x + HEIGHT / 2, HEIGHT / 2);
      this.pen.fill();
    }
  }

  #drawBall() {
    const side = (step, room) => Math.abs(((this.count * step) % (2 * room)) - room);
    this.pen.fillStyle = "#fff7d6";
    this.pen.beginPath();
    this.pen.arc(80 + side(6.1, WIDTH - 160), 80 + side(4.3, HEIGHT - 160), 64, 0, 2 * Math.PI);
    this.pen.fill();
  }

  #drawTime() {
    this.pen.fillStyle = "#12181c";
    this.pen.font = "700 64px system-ui, sans-serif";
    this.pen.fillText((this.count / RATE).toFixed(1), 40, HEIGHT - 44);
  }
}
