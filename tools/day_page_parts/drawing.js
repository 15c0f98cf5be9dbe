// Draws the timeline with a pen: on the screen, in print and for a picture.

const LETTERS = { reroute: "R", divert: "D", late: "L", batch: "B", "arrival-any": "C", "departure-any": "C" };
// From the top: the time of the cursor, the marks of the axis, and what was refused.
const FLAG = 16;
const AXIS = FLAG + 20;
const LANE = 18;

class TimelineDrawing {
  // The place is what of the picture the rows have: left and right edge, the seconds there, and the height of a row.
  constructor(view, clock, colours, pen, place) {
    Object.assign(this, { view, clock, colours, pen, place });
    this.day = view.day;
    this.scale = (place.right - place.left) / (place.to - place.from);
  }

  x(second) {
    return this.place.left + (second - this.place.from) * this.scale;
  }

  // The part of a span of time that can be seen, as a left edge and a width; null if there is none.
  part(begin, end) {
    const left = Math.max(this.x(begin), this.place.left - 2);
    const right = Math.min(this.x(end), this.place.right + 2);
    return right > left ? [left, right - left] : null;
  }

  // The marks of the axis and the lines below them.
  axis(top, bottom) {
    const { pen, colours, place, clock } = this;
    const apart = clock.apart(this.scale);
    pen.line([[place.left, top + AXIS], [place.right, top + AXIS]], { stroke: colours.line });
    for (let second = Math.ceil(place.from / apart) * apart; second <= place.to; second += apart) {
      const x = this.x(second);
      pen.line([[x, top + AXIS - 4], [x, bottom]], { stroke: colours.line });
      const text = clock.mark(second, apart);
      if (x + pen.width(text) / 2 < place.right + 6) pen.text(x, top + FLAG + 8, text, { fill: colours.faint, align: "center" });
    }
  }

  // What was refused and what found no route, at its time.
  lane(top) {
    for (const note of this.view.day.notes) {
      if (this.view.plan !== null && note.command > this.view.plan) continue;
      if (this.part(note.second, note.second + 1)) this.note(this.x(note.second), top + LANE / 2, note);
    }
  }

  note(x, y, note) {
    const colour = noteColour(this.colours, note.tone);
    this.pen.line(noteShape(note.tone, x, y), { fill: colour, stroke: this.colours.paper, closed: true });
  }

  // The label of a row, cut to the room that it has.
  label(row, y) {
    const { pen, place, colours } = this;
    const chosen = row.holder && row.holder.name === this.view.selected;
    const colour = this.labelColour(row);
    pen.text(place.left - 8, y + place.row / 2, this.shortened(row.label, place.left - 14), { fill: colour, align: "right", bold: chosen });
  }

  // A text cut to so many pixels in its middle, since names often differ at their ends.
  shortened(text, room) {
    const { pen } = this;
    if (pen.width(text) <= room) return text;
    const end = text.slice(-5);
    let begin = text.slice(0, -5);
    while (begin.length > 1 && pen.width(`${begin}…${end}`) > room) begin = begin.slice(0, -1);
    return `${begin}…${end}`;
  }

  // Who is out of force is pale, and a stand that two stand at is red.
  labelColour(row) {
    const { colours } = this;
    if (row.kind === "stand") return row.overlaps.length ? colours.refused : row.uses.length ? colours.ink : colours.faint;
    return row.kind === "flight" && !row.stays.some((stay) => stay.closed === Infinity) ? colours.faint : colours.ink;
  }

  row(row, y) {
    const draw = { flight: this.flightRow, packed: this.packedRow, stand: this.standRow, segment: this.segmentRow };
    draw[row.kind].call(this, row, y);
  }

  segmentRow(row, y) {
    for (const item of row.items) this.segmentItem(item, y);
  }

  // Several flights, each with its name behind it.
  packedRow(row, y) {
    for (const member of row.members) {
      if (!this.part(member.begin, member.end + (this.pen.width(member.label, 10) + 12) / this.scale)) continue;
      this.member(member, y);
    }
  }

  member(member, y) {
    const { pen, colours, view, place } = this;
    const chosen = member.holder.name === view.selected;
    const [left, right] = [this.x(member.begin), this.x(member.end)];
    const width = pen.width(member.label, 10);
    if (chosen) pen.rect(left - 2, y + 1, right - left + width + 10, place.row - 2, { fill: colours.lit, alpha: 0.3 });
    this.flightRow(member, y);
    pen.text(right + 4, y + place.row / 2, member.label, { fill: this.labelColour(member), size: 10, bold: chosen });
  }

  // Who stands at a stand, how each comes there and leaves, and where two are there at once.
  standRow(row, y) {
    for (const use of row.uses) this.standUse(use, y);
    for (const { from, until } of row.twice) {
      const seen = this.part(from, until);
      if (seen) this.pen.rect(seen[0], y + 1, Math.max(2, seen[1]), this.place.row - 3, { fill: this.colours.refused, hatched: true, alpha: 0.55 });
    }
    for (const use of row.uses) this.useName(use, y);
  }

  // The names of a use, or the first of them where there is no room for both.
  useName(use, y) {
    const seen = this.part(use.from, use.until);
    const fits = (text) => seen && this.pen.width(text, 10) <= seen[1] - 6;
    this.name(use.from, use.until, y, [use.label, use.names[0]].find(fits) || "", true);
  }

  standUse(use, y) {
    const { pen, colours, place, view } = this;
    for (const stay of [use.arrival, use.departure]) if (stay) this.taxi(stay, y);
    const seen = this.part(use.from, use.until);
    if (!seen) return;
    const known = use.arrival && use.departure;
    const fill = use.names.includes(view.selected) ? colours.lit : colours.stand;
    pen.rect(seen[0], y + 3, Math.max(2, seen[1]), place.row - 7, { fill, alpha: known ? 0.75 : 0.4 });
    if (!known) pen.rect(seen[0], y + 3, Math.max(2, seen[1]), place.row - 7, { stroke: fill, dash: [3, 3] });
  }

  // The taxi to a stand or from it, as a thin line.
  taxi(stay, y) {
    const seen = this.part(stay.begin, stay.finish);
    if (seen) this.pen.rect(seen[0], y + this.place.row / 2 - 2, Math.max(1.5, seen[1]), 3, { fill: this.colours[stay.kind] });
  }

  flightRow(row, y) {
    for (const stay of row.stays) this.asked(stay, y);
    for (const stay of row.stays) for (const step of stay.steps) this.ghost(stay, step, y);
    for (const stay of row.stays) {
      this.small(stay, y);
      for (const step of stay.steps) this.bar(stay, step, y, this.day.segments[step.segment][0]);
    }
    this.badged = -Infinity;
    for (const stay of row.stays) this.events(stay, y);
    for (const note of row.notes) this.rowNote(row, note, y);
  }

  // A note in the row of its flight, unless the cross at the end of a stay tells the same.
  rowNote(row, note, y) {
    const told = row.stays.some((stay) => stay.closed === note.command);
    if (told || (this.view.plan !== null && note.command > this.view.plan)) return;
    if (this.part(note.second, note.second + 1)) this.note(this.x(note.second), y + this.place.row / 2, note);
  }

  segmentItem({ stay, step }, y) {
    this.ghost(stay, step, y);
    this.bar(stay, step, y, stay.name);
  }

  // A stay whose steps are too short to be seen at this scale is seen all the same.
  small(stay, y) {
    const seen = this.part(stay.begin, Math.min(stay.finish, this.untilOf(stay)));
    if (!seen || seen[1] > 4 * stay.steps.length || stay.steps.some((step) => step.kept)) return;
    this.pen.rect(seen[0], y + 3, Math.max(3, seen[1]), this.place.row - 7, { fill: this.colours[stay.kind], hatched: stay.kind === "work" });
  }

  // The second up to which a stay is in force, in what is shown.
  untilOf(stay) {
    return this.view.plan === null ? stay.until : Infinity;
  }

  // From when an arrival would have come, or up to when a departure might have gone.
  asked(stay, y) {
    if (!stay.asked || !stay.held || this.untilOf(stay) <= stay.begin) return;
    const early = stay.kind === "departure";
    const seen = early ? this.part(stay.finish, stay.asked[0]) : this.part(stay.asked[0], stay.begin);
    if (!seen) return;
    const middle = y + this.place.row / 2;
    this.pen.line([[seen[0], middle], [seen[0] + seen[1], middle]], { stroke: this.colours.wait, width: 2, dash: [2, 4] });
  }

  // What was planned and came to nothing: it was cancelled, or another route took its place.
  ghost(stay, step, y) {
    const until = this.untilOf(stay);
    if (until >= step.leave || step.kept) return;
    const seen = this.part(Math.max(step.enter, until), step.leave);
    if (seen) this.pen.rect(seen[0], y + 4, seen[1], this.place.row - 9, { fill: this.colours[stay.kind], stroke: this.colours[stay.kind], alpha: 0.28, dash: [3, 2] });
  }

  // One step: what it needs, what it waits, and for how long the segment stays shut after it.
  bar(stay, step, y, label) {
    const until = this.untilOf(stay);
    const end = Math.min(step.leave, until);
    if (end <= step.enter || (step.kept && this.view.plan === null)) return;
    const height = this.place.row - 7;
    const lit = this.view.rows === "segments" && stay.name === this.view.selected;
    const colour = lit ? this.colours.lit : this.colours[stay.kind];
    this.fill(step.enter, Math.min(end, step.still), y + 3, height, { fill: colour, hatched: stay.kind === "work" });
    if (step.still < end) this.wait(step, end, y + 3, height);
    this.edges(stay, step, end, y, colour);
    if (this.view.rows !== "packed") this.name(step.enter, end, y, label, stay.kind === "work");
  }

  // A wait; one that is long, or on a runway, has a red frame.
  wait(step, end, y, height) {
    this.fill(step.still, end, y, height, { fill: this.colours.wait });
    const seen = waitMark(this.view, step) && this.part(step.still, end);
    if (seen) this.pen.rect(seen[0], y, Math.max(2, seen[1]), height, { stroke: this.colours.refused, width: 2 });
  }

  fill(begin, end, y, height, how) {
    const seen = this.part(begin, end);
    if (seen) this.pen.rect(seen[0], y, this.view.rows === "segments" ? Math.max(1.5, seen[1]) : seen[1], height, how);
  }

  // The edge between two steps, the outline of a work party and the clearance.
  edges(stay, step, end, y, colour) {
    const height = this.place.row - 7;
    const seen = this.part(step.enter, end);
    if (stay.kind === "work" && seen) this.pen.rect(seen[0], y + 3, seen[1], height, { stroke: colour });
    else if (seen && seen[1] > 5) this.pen.line([[seen[0], y + 3], [seen[0], y + 3 + height]], { stroke: this.colours.paper });
    const shut = step.shut > step.leave && end === step.leave ? this.part(step.leave, step.shut) : null;
    if (!shut) return;
    const across = this.view.rows === "segments";
    this.pen.rect(shut[0], across ? y + 3 : y + this.place.row - 4, shut[1], across ? height : 2, { stroke: colour, width: 1 });
  }

  name(begin, end, y, label, hatched) {
    const seen = this.part(begin, end);
    if (!seen || seen[1] < 24 || this.pen.width(label, 10) > seen[1] - 6) return;
    const how = hatched ? { fill: this.colours.ink, halo: this.colours.paper } : { fill: this.colours.paper };
    this.pen.text(seen[0] + 4, y + this.place.row / 2, label, { size: 10, ...how });
  }

  // Letters for what happened to a flight: rerouted, diverted, late, moved for another; a cross where it was called
  // off, which is pale where its seconds were over by then.
  events(stay, y) {
    const letter = stay.why.startsWith("moved") ? "M" : LETTERS[stay.why];
    const between = (second) => Math.max(stay.begin, Math.min(stay.finish, second));
    const changed = ["R", "D", "L", "M"].includes(letter);
    if (letter && (this.view.plan !== null || stay.until > stay.told)) this.badge(changed ? between(stay.told) : stay.begin, y, letter);
    if (stay.closed === Infinity || this.view.plan !== null || !["cancelled", "dropped", "no-route"].includes(stay.end)) return;
    this.badge(between(stay.until), y, "×", stay.over ? this.colours.faint : this.colours.refused);
  }

  badge(second, y, letter, colour = this.colours.ink) {
    const x = Math.max(this.x(second), this.badged + 12);
    if (x < this.place.left || x > this.place.right) return;
    this.badged = x;
    const middle = y + this.place.row / 2;
    this.pen.circle(x, middle, 6, { fill: this.colours.paper, stroke: colour });
    this.pen.text(x, middle, letter, { fill: colour, size: 9, align: "center", bold: true });
  }
}

// A triangle for what was refused, and a diamond for what found no route.
function noteShape(tone, x, y) {
  if (tone === "refused") return [[x - 5, y - 4], [x + 5, y - 4], [x, y + 5]];
  return [[x, y - 6], [x + 5, y], [x, y + 6], [x - 5, y]];
}
