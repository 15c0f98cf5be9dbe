// The map: the airport's segments, and who is on them at the present second.

// Draws the map with a pen. The frame says which metres are in the middle, how many pixels a metre has, and by how many
// quarters the map is turned to the right.
class MapDrawing {
  constructor(view, colours, pen, frame) {
    Object.assign(this, { view, colours, pen, frame });
    this.day = view.day;
  }

  place([east, north]) {
    const { frame } = this;
    const [x, y] = turned((east - frame.east) * frame.scale, (frame.north - north) * frame.scale, frame.turn);
    return [frame.width / 2 + x, frame.height / 2 + y];
  }

  line(segment) {
    return (this.day.map.lines.get(segment) || []).map((point) => this.place(point));
  }

  // The airport itself. Names are written where there is room for them.
  ground() {
    const { pen, colours, day, frame } = this;
    this.taken = [];
    for (const runway of day.map.runways) this.runway(runway);
    for (const segment of day.map.lines.keys()) pen.line(this.line(segment), { stroke: colours.line, width: frame.scale > 1 ? 4 : 2.5 });
    const pixels = frame.scale * day.map.typical;
    for (const runway of day.map.runways) this.nameRunway(runway);
    for (const kind of ["runway", "stand"]) {
      for (const [node, point] of day.map.points) if (day.nodes[node][1] === kind) this.node(node, kind, this.place(point), pixels);
    }
    this.nameTaxiways(pixels > 60 ? 0.2 : 0.5);
    if (pixels > 60) for (const segment of day.map.lines.keys()) this.nameSegment(segment);
    this.north();
  }

  // A runway, as wide as it is, but never too thin to be seen.
  runway({ width, line }) {
    const points = line.map((point) => this.place(point));
    this.pen.line(points, { stroke: this.colours.runway, width: Math.max(5, width * this.frame.scale), cap: "butt" });
    this.pen.line(points, { stroke: this.colours.paper, width: 1, dash: [10, 8] });
  }

  // The two halves of a runway's name stand beyond its two ends; a name that has none stands in the middle.
  nameRunway({ name, line }) {
    const [first, last] = [this.place(line[0]), this.place(line[line.length - 1])];
    const halves = name.split("/");
    const length = Math.hypot(last[0] - first[0], last[1] - first[1]) || 1;
    const [x, y] = [(last[0] - first[0]) / length, (last[1] - first[1]) / length];
    const how = { size: 12, bold: true };
    if (halves.length !== 2) return this.write((first[0] + last[0]) / 2, (first[1] + last[1]) / 2 - 12, name, this.colours.ink, 0, how);
    this.write(first[0] - 16 * x, first[1] - 12 * y, halves[0], this.colours.ink, 0, how);
    this.write(last[0] + 16 * x, last[1] + 12 * y, halves[1], this.colours.ink, 0, how);
  }

  // Each taxiway has its name once, on its longest segment, and again where there is much room. The share says where on a segment.
  nameTaxiways(share) {
    const named = new Set();
    for (const { segment, name } of this.day.map.taxiways) {
      const line = this.line(segment);
      if (!line.length) continue;
      const { point } = along(line, share);
      this.write(point[0], point[1], name, this.colours.ink, named.has(name) ? 50 : 4, { size: 11 });
      named.add(name);
    }
  }

  // A small map has small marks, and few names.
  node(node, kind, [x, y], pixels) {
    const { pen, colours } = this;
    const size = Math.max(1.5, Math.min(3.5, pixels / 8));
    if (kind === "runway") pen.rect(x - size, y - size, 2 * size, 2 * size, { fill: colours.ink });
    else pen.circle(x, y, 0.8 * size, { fill: colours.faint });
    if (pixels > 12 || kind === "runway") this.write(x, y - 10, this.day.nodeName(node), kind === "runway" ? colours.ink : colours.faint, pixels > 12 ? 0 : 14);
  }

  // Where north is.
  north() {
    const { pen, colours, frame } = this;
    const at = ([x, y]) => [frame.width - 24 + x, 24 + y];
    const arrow = [[0, -9], [5, 7], [0, 4], [-5, 7]].map(([x, y]) => at(turned(x, y, frame.turn)));
    const [x, y] = at(turned(0, -15, frame.turn));
    pen.line(arrow, { fill: colours.faint, closed: true });
    pen.text(x, y, "N", { fill: colours.faint, size: 10, align: "center" });
  }

  nameSegment(segment) {
    const line = this.line(segment);
    const { point } = along(line, 0.5);
    this.write(point[0], point[1] - 7, this.day.segments[segment][0], this.colours.faint);
  }

  // Writes a name unless another stands there, or near by.
  write(x, y, text, colour, room = 0, how = {}) {
    const width = this.pen.width(text, how.size || 10) / 2 + 3;
    if (x + width < 0 || x - width > this.frame.width || y < 0 || y > this.frame.height) return;
    if (this.taken.some((place) => Math.abs(place.x - x) < place.width + width + room && Math.abs(place.y - y) < 12 + room)) return;
    this.taken.push({ x, y, width });
    this.pen.text(x, y, text, { fill: colour, size: 10, align: "center", halo: this.colours.paper, ...how });
  }

  // All that holds something at the present second, and the way of the chosen flight.
  traffic() {
    const { view, day } = this;
    const holds = day.holdsAt(view.time, view.commandNow);
    const chosen = (hold) => Number(hold.stay.name === view.selected);
    holds.sort((a, b) => chosen(b) - chosen(a));
    this.taken = [];
    this.way();
    for (const hold of holds) this.hold(hold);
    for (const { stay, step, phase } of holds) if (phase === "moving" || phase === "waiting") this.aircraft(stay, step, phase);
  }

  hold({ stay, step, phase }) {
    const line = this.line(step.segment);
    if (!line.length) return;
    const colour = this.colours[stay.kind];
    if (phase === "work") {
      this.pen.line(line, { stroke: colour, width: 7, alpha: 0.45 });
      this.pen.line(line, { stroke: colour, width: 7, dash: [1, 9] });
      const { point } = along(line, 0.5);
      this.write(point[0], point[1] - 11, stay.name, colour, 0, { bold: true });
    } else if (phase === "clearance") this.pen.line(line, { stroke: colour, width: 2, dash: [3, 5] });
    else this.pen.line(line, { stroke: phase === "waiting" ? this.colours.wait : colour, width: 5, alpha: 0.55 });
  }

  // The way of the chosen flight: what is behind it, and what lies before it.
  way() {
    const { view, day } = this;
    const holder = view.selected && day.holders.get(view.selected);
    const stay = holder && (holder.stays.find((one) => one.inForceAfter(view.commandNow)) || holder.newest);
    if (!stay) return;
    for (const step of stay.steps) {
      const line = this.line(step.segment);
      if (line.length) this.pen.line(line, { stroke: this.colours.lit, width: step.leave <= view.time ? 3 : 9, alpha: step.leave <= view.time ? 0.7 : 0.4 });
    }
  }

  aircraft(stay, step, phase) {
    let line = this.line(step.segment);
    if (!line.length) return;
    if (step.arc & 1) line = line.slice().reverse();
    const share = phase === "waiting" ? 1 : (this.view.time - step.enter) / Math.max(1, step.still - step.enter);
    const { point, angle } = along(line, Math.min(1, share), 6);
    const chosen = stay.name === this.view.selected;
    const size = chosen ? 9 : 7;
    const corner = (turn, length) => [point[0] + length * Math.cos(angle + turn), point[1] + length * Math.sin(angle + turn)];
    const fill = phase === "waiting" ? this.colours.wait : this.colours[stay.kind];
    const points = [corner(0, size), corner(2.5, size), corner(Math.PI, size / 3), corner(-2.5, size)];
    this.pen.line(points, { fill, stroke: chosen ? this.colours.lit : this.colours.paper, width: chosen ? 2 : 1, closed: true });
    this.write(point[0], point[1] + 14, stay.name, this.colours.ink, 0, { size: chosen ? 12 : 10, bold: chosen });
  }
}

// The point at a share of a line's length, and the direction there; the line ends some pixels before its last point.
function along(line, share, short = 0) {
  const lengths = line.slice(1).map(([x, y], k) => Math.hypot(x - line[k][0], y - line[k][1]));
  const whole = lengths.reduce((sum, length) => sum + length, 0);
  let rest = Math.min(share * whole, Math.max(whole / 2, whole - short));
  let k = 0;
  while (k < lengths.length - 1 && rest > lengths[k]) {
    rest -= lengths[k];
    k += 1;
  }
  const part = lengths[k] ? Math.min(1, rest / lengths[k]) : 0;
  const [[x, y], [toX, toY]] = [line[k], line[k + 1]];
  return { point: [x + part * (toX - x), y + part * (toY - y)], angle: Math.atan2(toY - y, toX - x) };
}

// The map's lines and points by the numbers of segments and nodes. A segment that isn't drawn goes straight where both nodes are.
function readMap(day) {
  const { map } = day.data;
  if (!map) return null;
  const points = new Map(map.points.map(([node, east, north]) => [node, [east, north]]));
  const lines = new Map(map.lines.map(([segment, flat]) => [segment, pairs(flat)]));
  day.segments.forEach(([, tail, head], segment) => {
    if (!lines.has(segment) && points.has(tail) && points.has(head)) lines.set(segment, [points.get(tail), points.get(head)]);
  });
  const runways = map.runways.map((runway) => ({ ...runway, line: pairs(runway.line) }));
  const all = [...lines.values()].flat().concat([...points.values()], runways.flatMap(({ line }) => line));
  const [east, north] = [all.map(([x]) => x), all.map(([, y]) => y)];
  const lengths = [...lines.values()].map((line) => Math.hypot(line[0][0] - line[line.length - 1][0], line[0][1] - line[line.length - 1][1]));
  lengths.sort((a, b) => a - b);
  const extent = (numbers) => numbers.reduce(([low, high], number) => [Math.min(low, number), Math.max(high, number)], [Infinity, -Infinity]);
  const typical = lengths[lengths.length >> 1] || 1;
  return { lines, points, runways, taxiways: taxiwaysOf(map, lines), east: extent(east), north: extent(north), typical };
}

// The segments that have the name of a taxiway, the longest first.
function taxiwaysOf(map, lines) {
  const length = ([first, ...rest]) => rest.reduce(([sum, before], point) => [sum + Math.hypot(point[0] - before[0], point[1] - before[1]), point], [0, first])[0];
  const named = map.taxiways.map(([segment, name]) => ({ segment, name, length: length(lines.get(segment)) }));
  return named.sort((a, b) => b.length - a.length);
}

function pairs(flat) {
  const points = [];
  for (let k = 0; k < flat.length; k += 2) points.push([flat[k], flat[k + 1]]);
  return points;
}

// A vector on the screen, turned to the right by some quarters.
function turned(x, y, quarters) {
  return [[x, y], [-y, x], [-x, -y], [y, -x]][((quarters % 4) + 4) % 4];
}

// The frame in which the whole map is seen. Without a turn of its own the map is turned where that makes it much larger.
function wholeFrame(map, width, height, turn = null) {
  const [wide, high] = [map.east[1] - map.east[0], map.north[1] - map.north[0]];
  const scaleOf = (x, y) => Math.max(0.001, Math.min((width - 90) / Math.max(1, x), (height - 60) / Math.max(1, y)));
  const quarters = turn === null ? Number(scaleOf(high, wide) > 1.4 * scaleOf(wide, high)) : turn;
  const scale = quarters % 2 ? scaleOf(high, wide) : scaleOf(wide, high);
  return { width, height, scale, turn: quarters, east: (map.east[0] + map.east[1]) / 2, north: (map.north[0] + map.north[1]) / 2 };
}

class AirportMap {
  constructor(view, clock) {
    Object.assign(this, { view, clock });
    this.box = byId("map");
    this.base = new CanvasPen(byId("ground"));
    this.over = new CanvasPen(byId("traffic"));
    this.frame = null;
    this.turn = null;
    byId("turn").addEventListener("click", () => this.turnOn());
    this.box.addEventListener("pointermove", (event) => this.hover(event));
    this.box.addEventListener("pointerleave", () => tip(null));
    new Drag(this.box, {
      pan: (dx, dy) => this.pan(dx, dy),
      zoom: (factor, x, y) => this.zoom(factor, x, y),
      click: (x, y) => this.click(x, y),
    });
    this.box.addEventListener("wheel", (event) => this.wheel(event), { passive: false });
    new ResizeObserver(() => this.resize()).observe(this.box);
    view.listen(["colours", "day"], () => this.draw());
    view.listen(["time", "plan", "selected", "limit"], () => this.drawTraffic());
    this.resize();
  }

  resize() {
    const [width, height] = [this.box.clientWidth, this.box.clientHeight];
    if (!width || !height) return;
    if (!this.frame || this.whole) this.showAll();
    Object.assign(this.frame, { width, height });
    this.draw();
  }

  showAll() {
    this.frame = wholeFrame(this.view.day.map, this.box.clientWidth, this.box.clientHeight, this.turn);
    this.whole = true;
    this.draw();
  }

  // Turns the map by a quarter.
  turnOn() {
    this.turn = (this.frame.turn + 1) % 4;
    this.showAll();
  }

  draw() {
    if (!this.frame) return;
    this.base.begin(this.frame.width, this.frame.height);
    new MapDrawing(this.view, this.view.colours, this.base, this.frame).ground();
    this.drawTraffic();
  }

  drawTraffic() {
    if (!this.frame) return;
    this.over.begin(this.frame.width, this.frame.height);
    new MapDrawing(this.view, this.view.colours, this.over, this.frame).traffic();
  }

  pan(dx, dy) {
    this.whole = false;
    this.shift(dx / this.frame.scale, dy / this.frame.scale);
    this.draw();
  }

  // Moves the map on the screen by so many metres.
  shift(x, y) {
    const [east, south] = turned(x, y, -this.frame.turn);
    this.frame.east -= east;
    this.frame.north += south;
  }

  zoom(factor, x, y) {
    const { frame } = this;
    const least = wholeFrame(this.view.day.map, frame.width, frame.height, frame.turn).scale / 2;
    const scale = Math.max(least, Math.min(20, frame.scale * factor));
    const part = 1 / scale - 1 / frame.scale;
    this.shift((x - frame.width / 2) * part, (y - frame.height / 2) * part);
    frame.scale = scale;
    this.whole = false;
    this.draw();
  }

  wheel(event) {
    const box = this.box.getBoundingClientRect();
    event.preventDefault();
    this.zoom(Math.exp(-event.deltaY / 300), event.clientX - box.left, event.clientY - box.top);
  }

  // Who holds the segment that is nearest to a place, if it is near.
  at(x, y) {
    const { view } = this;
    const drawing = new MapDrawing(view, view.colours, this.over, this.frame);
    const near = view.day
      .holdsAt(view.time, view.commandNow)
      .filter(({ phase, step }) => phase !== "clearance" && drawing.line(step.segment).length)
      .map((hold) => ({ ...hold, far: distance(drawing.line(hold.step.segment), x, y) }))
      .sort((a, b) => a.far - b.far)[0];
    return near && near.far < 12 ? near : null;
  }

  click(x, y) {
    const near = this.at(x, y);
    this.view.select(near ? near.stay.name : null);
  }

  hover(event) {
    if (event.pointerType === "touch" || this.view.playing) return;
    const box = this.box.getBoundingClientRect();
    const near = this.at(event.clientX - box.left, event.clientY - box.top);
    tip(near ? stepText(this.view, this.clock, near.stay, near.step) : null, event);
  }
}

// How far a place is from a line.
function distance(line, x, y) {
  let least = Infinity;
  for (let k = 0; k + 1 < line.length; k += 1) {
    const [[ax, ay], [bx, by]] = [line[k], line[k + 1]];
    const length = (bx - ax) ** 2 + (by - ay) ** 2 || 1;
    const share = Math.max(0, Math.min(1, ((x - ax) * (bx - ax) + (y - ay) * (by - ay)) / length));
    least = Math.min(least, Math.hypot(ax + share * (bx - ax) - x, ay + share * (by - ay) - y));
  }
  return least;
}
