// The timeline on the screen: it scrolls over its rows, zooms and moves in time, and tells what is under the pointer.

const ROW = 21;

class Timeline {
  constructor(view, clock) {
    Object.assign(this, { view, clock });
    this.box = byId("timeline");
    this.base = new CanvasPen(byId("bars"));
    [this.cursor, this.cursorTime] = [byId("cursor"), byId("cursor-time")];
    this.spacer = byId("spacer");
    this.drag = new Drag(this.box, {
      pan: (dx, dy) => this.pan(dx, dy),
      zoom: (factor, x) => this.view.zoom(1 / factor, this.second(x)),
      click: (x, y) => this.click(x, y),
    });
    this.box.addEventListener("scroll", () => this.scrolled(), { passive: true });
    this.box.addEventListener("wheel", (event) => this.wheel(event), { passive: false });
    this.box.addEventListener("pointermove", (event) => this.hover(event));
    this.box.addEventListener("pointerleave", () => tip(null));
    new ResizeObserver(() => this.resize()).observe(this.box);
    view.listen(["day", "rows", "plan"], () => this.refill());
    view.listen(["filter"], () => this.showFiltered());
    view.listen(["from", "to"], () => this.moved());
    view.listen(["selected", "stand", "colours", "limit"], () => this.draw());
    view.listen(["selected"], () => this.showSelected());
    view.listen(["time"], () => this.follow());
    this.refill();
  }

  refill() {
    this.measure();
    this.rows = timelineRows(this.view, this.room);
    this.packedAt = this.room.scale;
    const all = this.top + this.rows.length * ROW + 8;
    this.spacer.style.height = `${Math.max(0, all - this.height)}px`;
    this.draw();
  }

  // What passes the filter is brought into sight, where it is all at other seconds.
  showFiltered() {
    this.refill();
    const { view } = this;
    const width = view.to - view.from;
    const isSeen = (row) => row.begin < view.to && row.end > view.from;
    if (view.rows === "flights" && this.rows.length && !this.rows.some(isSeen)) view.showFrom(this.rows[0].begin - width / 10, width);
  }

  measure() {
    [this.width, this.height] = [this.box.clientWidth, this.box.clientHeight];
    const labels = this.width < 500 ? 78 : 104;
    this.left = this.view.rows === "packed" ? 8 : labels;
  }

  // The pixels that a second has, and the width of a text.
  get room() {
    const { view } = this;
    return { scale: Math.max(1, this.width - 6 - this.left) / (view.to - view.from), width: (text) => this.base.width(text, 10) };
  }

  resize() {
    if (this.view.rows === "packed") return this.refill();
    this.measure();
    this.spacer.style.height = `${Math.max(0, this.top + this.rows.length * ROW + 8 - this.height)}px`;
    this.draw();
  }

  // Other seconds are shown. Where flights share rows, they have more or less room when the scale changes.
  moved() {
    if (this.view.rows === "packed" && Math.abs(this.room.scale / this.packedAt - 1) > 0.001) this.refill();
    else this.draw();
  }

  drawing(pen) {
    return new TimelineDrawing(this.view, this.clock, this.view.colours, pen, { left: this.left, right: this.width - 6, from: this.view.from, to: this.view.to, row: ROW });
  }

  // The second that is shown at a distance from the left edge, and the distance of a second.
  second(x) {
    const { view } = this;
    return view.from + ((x - this.left) * (view.to - view.from)) / (this.width - 6 - this.left);
  }

  get top() {
    return AXIS + LANE;
  }

  draw() {
    if (!this.width) return;
    const pen = this.base;
    pen.begin(this.width, this.height);
    const drawing = this.drawing(pen);
    drawing.axis(0, this.height);
    const first = Math.floor(this.box.scrollTop / ROW);
    const last = Math.min(this.rows.length, first + Math.ceil((this.height - this.top) / ROW) + 1);
    for (const clipped of [false, true]) {
      if (clipped) pen.clip(this.left, this.top, this.width, this.height);
      else pen.clip(0, this.top, this.width, this.height);
      for (let k = first; k < last; k += 1) this.drawRow(drawing, this.rows[k], this.top + k * ROW - this.box.scrollTop, clipped);
      pen.unclip();
    }
    if (!this.rows.length) pen.text((this.left + this.width) / 2, this.top + 40, this.emptyText(), { fill: this.view.colours.faint, size: 14, align: "center" });
    pen.clip(this.left, 0, this.width, this.height);
    drawing.lane(AXIS);
    pen.unclip();
    this.drawCursor();
  }

  // Why there are no rows.
  emptyText() {
    if (!this.view.day.holders.size) return "Nothing was asked for.";
    return this.view.plan === null ? "Nothing passes the filter." : "Nothing in force passes the filter.";
  }

  // First the ground and the label of a row, then what is cut at the left edge.
  drawRow(drawing, row, y, clipped) {
    const { colours } = this.view;
    if (clipped) {
      drawing.row(row, y);
      return;
    }
    if (this.isLit(row)) this.base.rect(0, y, this.width, ROW, { fill: colours.lit, alpha: 0.16 });
    this.base.line([[this.left, y + ROW - 0.5], [this.width, y + ROW - 0.5]], { stroke: colours.line, alpha: 0.5 });
    drawing.label(row, y);
  }

  // Whether a row is lit as a whole: that of what is chosen.
  isLit(row) {
    const { selected, stand } = this.view;
    if (row.kind === "stand" && row.stand === stand) return true;
    return (row.kind === "flight" || row.kind === "stand") && Boolean(partOfRow(row, selected));
  }

  // The cursor is moved as a whole, so that nothing is drawn anew while the day is played.
  drawCursor() {
    const { view, cursor, cursorTime } = this;
    const x = this.left + ((view.time - view.from) * (this.width - 6 - this.left)) / (view.to - view.from);
    cursor.hidden = cursorTime.hidden = x < this.left - 1 || x > this.width;
    if (cursor.hidden) return;
    const text = this.clock.text(view.time);
    if (cursorTime.textContent !== text) cursorTime.textContent = text;
    const half = 4 * text.length + 6;
    cursor.style.transform = `translateX(${x}px)`;
    cursorTime.style.transform = `translateX(${Math.max(half, Math.min(this.width - half, x))}px) translateX(-50%)`;
  }

  // Keeps the cursor in sight, and while the day is played the rows of those that move.
  follow() {
    const { view } = this;
    const width = view.to - view.from;
    if (view.time < view.from || view.time > view.to) view.showFrom(view.time - width / 10, width);
    if (view.playing) this.scrollToTime();
    this.drawCursor();
  }

  // Scrolls to the row that began last by the present time, unless it is well in sight.
  scrollToTime() {
    this.scrollTo((row) => row.begin <= this.view.time);
  }

  scrollTo(reached) {
    if (this.view.rows !== "flights") return;
    let k = this.rows.length - 1;
    while (k > 0 && !reached(this.rows[k])) k -= 1;
    const [place, room] = [k * ROW - this.box.scrollTop, this.height - this.top];
    if (place < room / 4 || place > (7 * room) / 8) this.box.scrollTop = Math.max(0, k * ROW - room / 2);
  }

  // The rows in sight that have something in the seconds in sight. Rows of other things than flights have no time of their own.
  get anythingSeen() {
    const { view } = this;
    const first = Math.floor(this.box.scrollTop / ROW);
    const rows = this.rows.slice(first, first + Math.ceil((this.height - this.top) / ROW));
    return view.rows !== "flights" || !rows.length || rows.some((row) => row.begin < view.to && row.end > view.from);
  }

  // Where scrolling leads to rows whose flights are at other times, those times are shown.
  scrolled() {
    const { view } = this;
    if (!this.anythingSeen) {
      const middle = this.rows[Math.min(this.rows.length - 1, Math.floor((this.box.scrollTop + (this.height - this.top) / 2) / ROW))];
      const width = view.to - view.from;
      view.showFrom(middle.begin - width / 2, width);
    }
    this.draw();
  }

  // The row of the chosen flight is brought into sight, and so is its time.
  showSelected() {
    const { view } = this;
    const k = this.rows.findIndex((row) => partOfRow(row, view.selected));
    if (k < 0) return;
    const [above, below] = [k * ROW, (k + 1) * ROW - (this.height - this.top)];
    if (this.box.scrollTop > above) this.box.scrollTop = above - 2 * ROW;
    else if (this.box.scrollTop < below) this.box.scrollTop = below + 2 * ROW;
    const { begin, end } = partOfRow(this.rows[k], view.selected);
    if (begin > view.to || end < view.from) view.reveal(begin, end);
  }

  pan(dx, dy) {
    const { view } = this;
    const width = view.to - view.from;
    view.showFrom(view.from - (dx * width) / (this.width - 6 - this.left), width);
    this.box.scrollTop -= dy;
    if (!dy && !this.anythingSeen) this.scrollTo((row) => row.begin <= (view.from + view.to) / 2);
  }

  wheel(event) {
    const x = event.clientX - this.box.getBoundingClientRect().left;
    if (event.ctrlKey || event.metaKey) this.view.zoom(Math.exp(event.deltaY / 200), this.second(x));
    else if (event.shiftKey || Math.abs(event.deltaX) > Math.abs(event.deltaY)) this.pan(-(event.deltaX || event.deltaY), 0);
    else return;
    event.preventDefault();
  }

  // What is at a place: a note, a step of a stay, or a row.
  at(x, y) {
    const second = this.second(x);
    if (y < this.top) return y < AXIS ? { second } : { second, note: this.noteAt(x) };
    const row = this.rows[Math.floor((y - this.top + this.box.scrollTop) / ROW)];
    if (!row) return { second };
    if (x < this.left) return { second, row };
    return { second, row, ...(row.kind === "stand" ? this.useAt(row, second) : this.stepAt(row, second)) };
  }

  useAt(row, second) {
    const use = row.uses.find((one) => one.from <= second && second < one.until);
    return use && { use, stay: use.stayAt(second) };
  }

  noteAt(x) {
    const near = (note) => Math.abs(this.drawing(this.base).x(note.second) - x);
    const { plan } = this.view;
    const notes = this.view.day.notes.filter((note) => near(note) < 8 && (plan === null || note.command <= plan));
    return notes.sort((a, b) => near(a) - near(b))[0];
  }

  stepAt(row, second) {
    const room = (3 * (this.view.to - this.view.from)) / this.width;
    const items = row.items || row.stays.flatMap((stay) => stay.steps.map((step) => ({ stay, step })));
    const found = items.filter(({ step }) => step.enter <= second && second < step.shut);
    return found[found.length - 1] || items.find(({ step }) => step.enter - room <= second && second < step.shut + room) || this.memberAt(row, second);
  }

  // The flight whose name stands at a place of a row that several flights share.
  memberAt(row, second) {
    const width = (member) => (this.base.width(member.label, 10) + 8) / this.room.scale;
    const member = row.members.find((one) => one.end <= second && second < one.end + width(one));
    return member && member.stays.length ? { stay: member.stays[member.stays.length - 1] } : undefined;
  }

  click(x, y) {
    const { second, note, row, stay } = this.at(x, y);
    this.box.focus({ preventScroll: true });
    if (note) this.view.chooseCommand(note.command);
    else if (stay) this.view.select(stay.name);
    else if (row && row.holder && x < this.left) this.view.select(row.holder.name);
    else if (row && row.kind === "stand" && x < this.left) this.view.chooseStand(row.stand);
    else if (x >= this.left) this.view.moveTo(second);
  }

  hover(event) {
    const box = this.box.getBoundingClientRect();
    const { note, use, stay, step } = this.at(event.clientX - box.left, event.clientY - box.top);
    if (note) tip(`${this.clock.text(note.second)}  ${note.name} ${this.view.day.commands[note.command - 1].said}`, event);
    else if (use) tip(useText(this.view.day, this.clock, use), event);
    else if (stay && step) tip(stepText(this.view, this.clock, stay, step), event);
    else tip(null);
  }
}

// A step in words.
function stepText(view, clock, stay, step) {
  const { day } = view;
  const times = `${clock.text(step.enter)} to ${clock.text(step.leave)}`;
  const mark = waitMark(view, step);
  const wait = step.wait ? `, waits ${span(step.wait)}${step.holder ? ` for ${step.holder}` : ""}${mark ? ` (${mark})` : ""}` : "";
  const shut = step.shut > step.leave ? `, shut until ${clock.text(step.shut)}` : "";
  return `${stay.name} on ${day.arcName(step.arc)}  ${times}${wait}${shut}`;
}

// Shows a short text beside the pointer, or takes it away.
function tip(text, event) {
  const box = byId("tip");
  box.hidden = text === null;
  if (text === null) return;
  box.textContent = text;
  box.style.left = `${Math.min(event.clientX + 12, window.innerWidth - box.offsetWidth - 8)}px`;
  box.style.top = `${event.clientY + 16 + box.offsetHeight > window.innerHeight ? event.clientY - box.offsetHeight - 8 : event.clientY + 16}px`;
}
