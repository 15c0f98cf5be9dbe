// Plays the day: one slider of time for the timeline and the map.

const SPEEDS = [1, 2, 5, 10, 30, 60, 120, 300, 600];

class Player {
  constructor(view, clock, timeline) {
    Object.assign(this, { view, clock, timeline });
    this.slider = byId("slider");
    this.button = byId("play");
    this.speed = byId("speed");
    this.setUp();
    view.listen(["time"], () => this.showTime());
    view.listen(["playing"], () => this.showPlaying());
    view.listen(["first", "last"], () => this.showRange());
    this.showTime();
    this.showPlaying();
  }

  setUp() {
    const { view, slider, speed } = this;
    this.showRange();
    slider.addEventListener("input", () => {
      view.moveTo(Number(slider.value));
      this.timeline.scrollToTime();
    });
    this.button.addEventListener("click", () => this.toggle());
    speed.append(...SPEEDS.map((number) => element("option", { value: number }, `${number}×`)));
    const fit = SPEEDS.filter((number) => number <= 60 && (view.last - view.first) / number >= 60);
    speed.value = fit[fit.length - 1] || 1;
  }

  showRange() {
    Object.assign(this.slider, { min: this.view.first, max: this.view.last, step: 1 });
    this.slider.value = this.view.time;
  }

  toggle() {
    const { view } = this;
    if (!view.playing && view.time >= view.last) view.moveTo(view.first);
    view.set({ playing: !view.playing });
    if (view.playing) {
      this.before = null;
      requestAnimationFrame((now) => this.frame(now));
    }
  }

  frame(now) {
    const { view } = this;
    if (!view.playing) return;
    const passed = this.before === null ? 0 : Math.min(250, now - this.before);
    this.before = now;
    view.moveTo(view.time + (passed / 1000) * Number(this.speed.value));
    if (view.time >= view.last) view.set({ playing: false });
    else requestAnimationFrame((next) => this.frame(next));
  }

  showTime() {
    const { view, clock } = this;
    const text = clock.civil ? clock.text(view.time) : `${clock.text(view.time)} s`;
    this.slider.value = view.time;
    this.slider.setAttribute("aria-valuetext", text);
    byId("time").textContent = text;
  }

  showPlaying() {
    const { playing } = this.view;
    this.button.textContent = playing ? "❚❚" : "▶";
    this.button.setAttribute("aria-label", playing ? "Pause" : "Play");
  }
}
