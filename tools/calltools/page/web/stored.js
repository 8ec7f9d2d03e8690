/* The way back from what calltools/page/stored_pictures.py makes: images, which the browser decodes, to samples. */

function bytesOf(base64) {
  const text = atob(base64);
  const bytes = new Uint8Array(text.length);
  for (let at = 0; at < bytes.length; at++) bytes[at] = text.charCodeAt(at);
  return bytes;
}

function penOf(width, height) {
  const canvas = Object.assign(document.createElement("canvas"), { width, height });
  return canvas.getContext("2d", { willReadFrequently: true });
}

/* Whether what is drawn is read back as it is. Some browsers alter it, so that no page knows a reader again by it. */
function isReadBack() {
  const pen = penOf(16, 16);
  pen.fillStyle = "rgb(129, 129, 129)";
  pen.fillRect(0, 0, 16, 16);
  return pen.getImageData(0, 0, 16, 16).data.every((value, at) => value === (at % 4 === 3 ? 255 : 129));
}

class StoredVideo {
  constructor(told) {
    Object.assign(this, told);
  }

  /* Y, Cb and Cr of a picture, one plane after the other: a grey image has them in this order. */
  async samples(place) {
    const { width, height } = this;
    const image = new Blob([bytesOf(this.images[this.which[place]])], { type: "image/webp" });
    const bitmap = await createImageBitmap(image, { colorSpaceConversion: "none" });
    const pen = penOf(width, bitmap.height);
    pen.drawImage(bitmap, 0, 0);
    bitmap.close();
    const { data } = pen.getImageData(0, 0, width, (height * 3) / 2);
    const samples = new Uint8Array(data.length / 4);
    for (let at = 0; at < samples.length; at++) samples[at] = data[4 * at];
    return samples;
  }
}
