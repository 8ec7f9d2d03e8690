/* Which picture is looked at, and its drawing. */

class Player {
  /* `told` is a way of the call; `onChange` is called when the picture or the playing changes. */
  constructor(ways, figures, onChange) {
    this.ways = ways;
    this.figures = figures;
    this.onChange = onChange;
    this.speed = 1;
    this.isPlaying = false;
    this.drawn = null;
    this.choose(0);
  }

  choose(number) {
    this.way = this.ways[number];
    this.place = 0;
    this.videos = {};
    for (const name of ["captured", "shown"]) {
      const told = this.way[`${name}_video`];
      this.figures[name].hidden = !told;
      if (!told) continue;
      this.videos[name] = new StoredVideo(told);
      const { width, height } = told;
      Object.assign(this.figures[name].querySelector("canvas"), { width, height });
    }
  }

  get count() {
    return this.way.marks.length;
  }

  get number() {
    return this.way.first + this.place;
  }

  /* Goes to a place, counted from the first picture; it is drawn as soon as it is there. */
  go(place) {
    this.place = Math.min(Math.max(place, 0), this.count - 1);
    this.begin();
    this.onChange();
    return this.show();
  }

  async show() {
    const [way, place] = [this.way, this.place];
    const names = Object.keys(this.videos);
    const samples = await Promise.all(names.map((name) => this.videos[name].samples(place)));
    if (way !== this.way || place !== this.place) return;
    names.forEach((name, at) => this.paint(name, samples[at]));
    this.drawn = place;
  }

  paint(name, samples) {
    const { width, height } = this.videos[name];
    const pen = this.figures[name].querySelector("canvas").getContext("2d");
    const image = pen.createImageData(width, height);
    paint(samples, width, height, image.data);
    pen.putImageData(image, 0, 0);
  }

  step(count) {
    this.stop();
    return this.go(this.place + count);
  }

  /* The nearest picture on one side that isn't exact; this one where there is none. */
  fault(direction) {
    for (let place = this.place + direction; place >= 0 && place < this.count; place += direction) {
      const mark = this.way.marks[place];
      if (mark && mark !== "exact") return this.step(place - this.place);
    }
    return this.step(0);
  }

  begin() {
    this.began = performance.now();
    this.beganAt = this.place;
  }

  play() {
    if (this.place === this.count - 1) this.place = 0;
    this.isPlaying = true;
    this.begin();
    this.onChange();
    requestAnimationFrame(() => this.tick());
  }

  stop() {
    this.isPlaying = false;
  }

  toggle() {
    if (!this.isPlaying) return this.play();
    this.stop();
    this.onChange();
  }

  setSpeed(speed) {
    this.speed = speed;
    this.begin();
  }

  async tick() {
    if (!this.isPlaying) return;
    const seconds = (performance.now() - this.began) / 1000;
    const place = this.beganAt + Math.floor((seconds * this.speed) / this.way.period);
    if (place > this.place) {
      this.place = Math.min(place, this.count - 1);
      this.isPlaying = this.place < this.count - 1;
      this.onChange();
      await this.show();
    }
    requestAnimationFrame(() => this.tick());
  }
}
