// The day on paper, and as a picture: the timeline of all rows, the map, and a table of the flights.

const ROWS_A_SHEET = 56;

class Paper {
  constructor(view, clock, flights, measure) {
    Object.assign(this, { view, clock, flights, measure });
    window.addEventListener("beforeprint", () => this.fill());
    window.addEventListener("afterprint", () => replaceChildren(byId("paper")));
  }

  // The colours of the light page, also where the page is dark.
  colours() {
    const root = document.documentElement;
    const before = root.getAttribute("data-theme");
    root.setAttribute("data-theme", "light");
    const colours = palette();
    if (before === null) root.removeAttribute("data-theme");
    else root.setAttribute("data-theme", before);
    return colours;
  }

  fill() {
    const rows = this.view.rows === "packed" ? flightRows(this.view) : timelineRows(this.view);
    const sheets = [];
    for (let at = 0; at < rows.length; at += ROWS_A_SHEET) sheets.push(this.sheet(rows.slice(at, at + ROWS_A_SHEET), sheets.length));
    const map = this.view.day.map ? [this.figure(this.mapPart(1000, 560), 1000, 560, "m")] : [];
    replaceChildren(byId("paper"), ...map, ...sheets, this.table());
  }

  // Some rows over the seconds in which they have something.
  sheet(rows, number) {
    const height = AXIS + LANE + 16 * rows.length + 8;
    const stays = rows.flatMap(staysOfRow);
    const [from, to] = this.view.around(stays.flatMap((stay) => [stay.begin, stay.last]));
    return this.figure((pen) => this.timelinePart(pen, rows, { left: 100, right: 990, from, to, row: 16 }, 0), 1000, height, `p${number}`);
  }

  // A picture as an element. What the pen writes is parsed as an image would be, apart from the page.
  figure(part, width, height, mark) {
    const svg = this.svg(part, width, height, mark);
    const parsed = new DOMParser().parseFromString(svg, "image/svg+xml");
    return element("figure", {}, document.importNode(parsed.documentElement, true));
  }

  svg(part, width, height, mark) {
    const colours = this.colours();
    SvgPen.mark = mark;
    const pen = new SvgPen(this.measure);
    part(pen, colours);
    return pen.finish(width, height, colours.paper);
  }

  timelinePart(pen, rows, place, top) {
    const colours = this.colours();
    const drawing = new TimelineDrawing(this.view, this.clock, colours, pen, place);
    const bottom = top + AXIS + LANE + place.row * rows.length;
    drawing.axis(top, bottom);
    rows.forEach((one, k) => drawing.label(one, top + AXIS + LANE + k * place.row));
    pen.clip(place.left, top + AXIS, place.right + 10 - place.left, bottom - top);
    drawing.lane(top + AXIS);
    rows.forEach((one, k) => drawing.row(one, top + AXIS + LANE + k * place.row));
    pen.unclip();
    this.cursor(pen, drawing, top, bottom);
  }

  // The time at which the picture is taken, with the map's traffic.
  cursor(pen, drawing, top, bottom) {
    const { place, colours } = drawing;
    const x = drawing.x(this.view.time);
    if (x < place.left || x > place.right) return;
    const text = this.clock.text(this.view.time);
    const half = pen.width(text) / 2;
    pen.line([[x, top + AXIS], [x, bottom]], { stroke: colours.cursor, width: 1.5 });
    pen.text(Math.min(x, place.right - half), top + FLAG / 2, text, { fill: colours.cursor, align: "center", bold: true });
  }

  mapPart(width, height) {
    return (pen, colours) => {
      const drawing = new MapDrawing(this.view, colours, pen, wholeFrame(this.view.day.map, width, height));
      drawing.ground();
      drawing.traffic();
    };
  }

  // Map and timeline as they stand, in one picture of so many pixels' width.
  picture(width = 1000, mapHeight = 420) {
    const room = { scale: (width - 110) / (this.view.to - this.view.from), width: (text) => this.measure.width(text, 10) };
    const rows = timelineRows(this.view, room).slice(0, 80);
    const top = 30 + (this.view.day.map ? mapHeight : 0);
    const height = top + AXIS + LANE + 20 * rows.length + 34;
    const part = (pen, colours) => {
      pen.text(12, 17, this.view.day.data.title, { fill: colours.ink, size: 13, bold: true });
      pen.text(width - 12, 17, this.clock.civil ? this.clock.text(this.view.time) : `at second ${this.clock.text(this.view.time)}`, { fill: colours.cursor, size: 13, bold: true, align: "right" });
      if (this.view.day.map) this.placed(pen, colours, width, mapHeight);
      this.timelinePart(pen, rows, { left: 100, right: width - 10, from: this.view.from, to: this.view.to, row: 20 }, top);
      this.legend(pen, colours, height - 15, width);
    };
    return this.svg(part, width, height, "d");
  }

  placed(pen, colours, width, height) {
    pen.parts.push('<g transform="translate(0 30)">');
    this.mapPart(width, height)(pen, colours);
    pen.parts.push("</g>");
  }

  legend(pen, colours, y, width) {
    let x = 12;
    for (const { paint, text } of legendOf(this.view)) {
      const wide = 36 + pen.width(text);
      if (x + wide > width) return;
      if (paint.sign) pen.line(noteShape(paint.sign, x + 7, y), { fill: colours[paint.sign], closed: true });
      else pen.rect(x, y - 5, 14, 10, { ...paint, fill: colours[paint.fill], stroke: colours[paint.stroke] });
      pen.text(x + 19, y, text, { fill: colours.ink });
      x += wide;
    }
  }

  table() {
    const { view, clock } = this;
    const head = ["flight", "kind", "class", "way", "begin", "end", "waits", "note"].map((text) => element("th", { scope: "col" }, text));
    const rows = this.flights.listed().map((holder) => {
      const stay = view.stayOf(holder);
      const way = stay ? `${view.day.nodeName(stay.from)} to ${view.day.nodeName(stay.to)}` : "";
      const times = stay ? [clock.text(stay.begin), clock.text(stay.finish), stay.waited ? span(stay.waited) : ""] : ["", "", ""];
      const notes = holder.notes.map((note) => `command ${note.command} ${view.day.commands[note.command - 1].said}`);
      const texts = [holder.name, holder.kind, view.day.className(holder.class), way, ...times, [holder.fate, ...notes].filter(Boolean).join("; ")];
      return element("tr", {}, ...texts.map((text) => element("td", {}, text)));
    });
    return element("table", {}, element("thead", {}, element("tr", {}, ...head)), element("tbody", {}, ...rows));
  }
}
