/**
 * The camera and the microphone: frames as they come, also while nobody looks at the page.
 * @module
 */

import { RATE } from "./call_settings.js";

/** The largest format's size, so that little is left to scale. */
const WISHES = Object.freeze({
  width: { ideal: 352 },
  height: { ideal: 288 },
  frameRate: { ideal: 30, max: 30 },
  resizeMode: "crop-and-scale",
  facingMode: "user",
});

export class Camera {
  #picture = null;
  #sound = null;
  #run = 0;

  /** It calls `give(frame)` for each frame, which the callee closes, and `lost()` when the camera is taken away. */
  constructor(give, lost) {
    Object.assign(this, { give, lost });
  }

  get isOn() {
    return Boolean(this.#picture);
  }

  /** The microphone's track, or null. */
  get sound() {
    return this.#sound;
  }

  /**
   * Asks for the camera, and for the microphone where there is none yet, by their names where they are given; throws
   * what the browser throws.
   */
  async start({ camera, microphone } = {}) {
    this.stopPicture();
    const run = this.#run;
    const video = { ...WISHES, ...(camera && { deviceId: { exact: camera } }) };
    const audio = microphone ? { deviceId: { exact: microphone } } : true;
    const stream = await asked(this.#sound ? { video } : { video, audio });
    if (run !== this.#run) return stream.getTracks().forEach((track) => track.stop());
    this.#sound ??= stream.getAudioTracks()[0] ?? null;
    this.#picture = stream.getVideoTracks()[0] ?? null;
    if (!this.#picture) return;
    const track = this.#picture;
    track.addEventListener("ended", () => track === this.#picture && this.lost());
    this.#read(track, run);
  }

  stopPicture() {
    this.#run++;
    this.#picture?.stop();
    this.#picture = null;
  }

  stop() {
    this.stopPicture();
    this.#sound?.stop();
    this.#sound = null;
  }

  #read(track, run) {
    if (typeof MediaStreamTrackProcessor === "function") return this.#readFrames(track, run);
    return this.#readDrawn(track, run);
  }

  async #readFrames(track, run) {
    const reader = new MediaStreamTrackProcessor({ track, maxBufferSize: 2 }).readable.getReader();
    while (run === this.#run) {
      const { value: frame, done } = await reader.read();
      if (done) return;
      if (run === this.#run) this.give(frame);
      else frame.close();
    }
    reader.cancel();
  }

  /** Where a browser gives no frames: those that a video element draws. */
  #readDrawn(track, run) {
    const video = Object.assign(document.createElement("video"), { muted: true, playsInline: true });
    video.srcObject = new MediaStream([track]);
    video.play();
    const again = (act) => {
      if (video.requestVideoFrameCallback) video.requestVideoFrameCallback(act);
      else setTimeout(act, 1000 / RATE);
    };
    const next = async () => {
      if (run !== this.#run) return;
      if (video.videoWidth) this.give(await createImageBitmap(video));
      again(next);
    };
    again(next);
  }
}

/** What is wished for; where one of two isn't there, the other one. */
async function asked(wishes) {
  const { mediaDevices } = navigator;
  if (!mediaDevices?.getUserMedia) throw new DOMException("", "NotSupportedError");
  try {
    return await mediaDevices.getUserMedia(wishes);
  } catch (fault) {
    if (fault.name !== "NotFoundError" || !wishes.audio) throw fault;
    const { video, audio } = wishes;
    return mediaDevices.getUserMedia({ video }).catch(() => mediaDevices.getUserMedia({ audio }));
  }
}

/** Which cameras and microphones there are: pairs of a name and a label. */
export async function devices() {
  const all = (await navigator.mediaDevices?.enumerateDevices?.()) ?? [];
  const known = all.filter(({ deviceId }) => deviceId);
  const of = (wanted) => known.filter(({ kind }) => kind === wanted).map(({ deviceId, label }) => [deviceId, label]);
  return { cameras: of("videoinput"), microphones: of("audioinput") };
}
