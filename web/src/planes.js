/**
 * Pictures as rows of red, green, blue and opaque, and as planes Y, Cb, Cr in 4:2:0: by ITU-R BT.601, Y from 16 to 235.
 * @module
 */

/** Widths and heights of the formats. */
export const SIZES = Object.freeze({ "sub-qcif": [128, 96], qcif: [176, 144], cif: [352, 288] });

/** Fills planes from colours. Cb and Cr are of the mean of four. */
export function fillPlanes(colours, width, height, planes) {
  const pixels = width * height;
  for (let at = 0, from = 0; at < pixels; at++, from += 4) {
    const luma = 66 * colours[from] + 129 * colours[from + 1] + 25 * colours[from + 2];
    planes[at] = (luma + 4224) >> 8;
  }
  const row = 4 * width;
  let cb = pixels;
  let cr = pixels + pixels / 4;
  for (let y = 0; y < height; y += 2) {
    for (let x = 0, at = y * row; x < width; x += 2, at += 8) {
      const below = at + row;
      const red = colours[at] + colours[at + 4] + colours[below] + colours[below + 4];
      const green = colours[at + 1] + colours[at + 5] + colours[below + 1] + colours[below + 5];
      const blue = colours[at + 2] + colours[at + 6] + colours[below + 2] + colours[below + 6];
      planes[cb++] = (-38 * red - 74 * green + 112 * blue + 131584) >> 10;
      planes[cr++] = (112 * red - 94 * green - 18 * blue + 131584) >> 10;
    }
  }
}

/** Fills colours, which are clamped, from planes. */
export function fillColours(planes, width, height, colours) {
  const half = width / 2;
  const cb = width * height;
  const cr = cb + cb / 4;
  for (let y = 0, at = 0, to = 0; y < height; y++) {
    const row = (y >> 1) * half;
    for (let x = 0; x < width; x++, at++, to += 4) {
      const luma = 1.164 * (planes[at] - 16);
      const blue = planes[cb + row + (x >> 1)] - 128;
      const red = planes[cr + row + (x >> 1)] - 128;
      colours[to] = luma + 1.596 * red;
      colours[to + 1] = luma - 0.392 * blue - 0.813 * red;
      colours[to + 2] = luma + 2.017 * blue;
      colours[to + 3] = 255;
    }
  }
}

/** Which part of a source covers a target of this size: x, y, width, height. */
export function covering(sourceWidth, sourceHeight, width, height) {
  const scale = Math.min(sourceWidth / width, sourceHeight / height);
  const [across, down] = [width * scale, height * scale];
  return [(sourceWidth - across) / 2, (sourceHeight - down) / 2, across, down];
}
