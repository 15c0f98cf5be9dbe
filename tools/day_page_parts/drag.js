// Drags and pinches on a box, with a mouse or with fingers; a press that doesn't move is a click.

class Drag {
  constructor(box, { pan, zoom, click }) {
    Object.assign(this, { box, panned: pan, zoomed: zoom, clicked: click });
    this.pointers = new Map();
    this.moved = 0;
    box.addEventListener("pointerdown", (event) => this.down(event));
    box.addEventListener("pointermove", (event) => this.move(event));
    box.addEventListener("pointerup", (event) => this.up(event));
    box.addEventListener("pointercancel", (event) => this.pointers.delete(event.pointerId));
  }

  place(event) {
    const box = this.box.getBoundingClientRect();
    return [event.clientX - box.left, event.clientY - box.top];
  }

  down(event) {
    const [x, y] = this.place(event);
    if (event.button || x > this.box.clientWidth || y > this.box.clientHeight) return;
    if (!this.pointers.size) this.moved = 0;
    this.pointers.set(event.pointerId, [x, y]);
  }

  move(event) {
    const before = this.pointers.get(event.pointerId);
    if (!before) return;
    const now = this.place(event);
    if (this.pointers.size === 2) this.pinch(event.pointerId, before, now);
    else this.pull(event, before, now);
  }

  // A drag by a finger moves in time alone: the rows scroll by themselves.
  pull(event, before, now) {
    const [dx, dy] = [now[0] - before[0], now[1] - before[1]];
    this.moved += Math.abs(dx) + Math.abs(dy);
    if (this.moved < 5) return;
    if (!this.box.hasPointerCapture(event.pointerId)) this.box.setPointerCapture(event.pointerId);
    this.pointers.set(event.pointerId, now);
    this.panned(dx, event.pointerType === "touch" && this.box.id === "timeline" ? 0 : dy);
  }

  pinch(id, before, now) {
    const [other] = [...this.pointers].filter(([key]) => key !== id).map(([, place]) => place);
    const distance = (place) => Math.hypot(place[0] - other[0], place[1] - other[1]) || 1;
    this.moved = 100;
    this.zoomed(distance(now) / distance(before), (now[0] + other[0]) / 2, (now[1] + other[1]) / 2);
    this.pointers.set(id, now);
  }

  up(event) {
    if (!this.pointers.delete(event.pointerId)) return;
    if (this.moved < 5 && !this.pointers.size) this.clicked(...this.place(event));
  }
}
