"use strict";
/* Samples to colours. */

const MIDDLE = 128;

/* Colours by ITU-R BT.601, Y from 16 to 235, as rows of red, green, blue and opaque. */
function paint(samples, width, height, colours) {
  const half = width / 2;
  const cb = width * height;
  const cr = cb + cb / 4;
  for (let y = 0, at = 0, to = 0; y < height; y++) {
    const row = (y >> 1) * half;
    for (let x = 0; x < width; x++, at++, to += 4) {
      const luma = 1.164 * (samples[at] - 16);
      const blue = samples[cb + row + (x >> 1)] - MIDDLE;
      const red = samples[cr + row + (x >> 1)] - MIDDLE;
      colours[to] = luma + 1.596 * red;
      colours[to + 1] = luma - 0.392 * blue - 0.813 * red;
      colours[to + 2] = luma + 2.017 * blue;
      colours[to + 3] = 255;
    }
  }
}
