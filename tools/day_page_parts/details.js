// What is told of the flight or the command that is chosen.

const WHY = {
  arrival: "routed as an arrival",
  departure: "routed as a departure",
  "arrival-any": "routed to the best of several stands",
  "departure-any": "routed to the best of several runway nodes",
  filed: "filed by hand",
  work: "a work party",
  reroute: "rerouted",
  divert: "led to another stand",
  batch: "routed in a batch",
  late: "late on its segment",
};
const ENDS = {
  reroute: "until it was rerouted",
  divert: "until it was diverted",
  late: "until a flight was late",
  cancelled: "until it was cancelled",
  done: "until it was done",
  dropped: "until it was dropped for a late flight",
  "no-route": "until a late flight left it no route",
};

const AS_ASKED =
  "A flight is as asked if its request got a route within its HOLD or QUEUE, or if it was filed as given. Its waits don't count against it, wherever it waits.";

// So many stands are named in the numbers of the day.
const STANDS_NAMED = 12;

class Details {
  constructor(view, clock) {
    Object.assign(this, { view, clock });
    this.box = byId("details");
    view.listen(["day", "selected", "command", "stand", "limit", "plan"], () => this.draw());
    view.listen(["time"], () => this.markStep());
    this.draw();
  }

  draw() {
    const { view } = this;
    this.rows = [];
    const holder = view.selected && view.day.holders.get(view.selected);
    if (holder) replaceChildren(this.box, ...this.ofHolder(holder));
    else if (view.command) replaceChildren(this.box, ...this.ofCommand(view.command));
    else if (view.stand !== null) replaceChildren(this.box, ...this.ofStand(view.stand));
    else replaceChildren(this.box, ...this.ofNothing());
    this.box.classList.toggle("filled", Boolean(holder || view.command || view.stand !== null));
    this.box.scrollTop = 0;
    this.markStep();
  }

  // The day in numbers. Each that marks flights shows them in the list.
  ofNothing() {
    const { view } = this;
    const { day } = view;
    const counts = countMarks(view);
    const inForce = day.inForceAfter(view.plan === null ? day.commands.length : view.plan);
    const waits = inForce.reduce((sum, stay) => sum + stay.waited, 0);
    const uses = standUses(view);
    const twice = day.stands.filter((stand) => overlapsOf(uses.get(stand) || []).length);
    return [
      element("h2", {}, "The day"),
      this.facts([
        ["commands", String(day.commands.length)],
        ["flights and parties", String(day.holders.size)],
        [view.plan === null ? "in force at the end" : "in force in this plan", String(inForce.length)],
        ["segments", String(day.segments.length)],
        ["waiting in all", waits ? span(waits) : "none"],
      ]),
      element("h3", {}, "To look at"),
      this.facts([
        ["as asked", `${counts.asked} of ${counts.flights}`],
        ...Object.entries(MARKS).map(([mark, text]) => [this.markTerm(mark, text), counts[mark] ? this.markLink(mark, counts[mark]) : "none"]),
        ["stands with two at once", twice.length ? this.standsLink(twice.length) : "none"],
      ]),
      twice.length ? element("p", { class: "hint" }, ...twice.slice(0, STANDS_NAMED).flatMap((stand, k) => [k ? ", " : "", this.standLink(stand)]), twice.length > STANDS_NAMED ? " .." : "") : null,
      element("p", { class: "hint" }, AS_ASKED),
      element("p", { class: "hint" }, "Choose a flight in the list, on the timeline or on the map."),
    ];
  }

  markTerm(mark, text) {
    const bounded = { long: `from ${span(this.view.limit)}`, far: `by ${span(this.view.limit)}` }[mark];
    return bounded ? `${text}, ${bounded}` : text;
  }

  markLink(mark, count) {
    const show = () => {
      this.view.setFilter({ mark });
      this.view.showWhole();
    };
    return element("button", { type: "button", class: "link", onclick: show, title: "Show them in the list" }, `${count} flight${count > 1 ? "s" : ""}`);
  }

  standsLink(count) {
    return element("button", { type: "button", class: "link", onclick: () => this.view.set({ rows: "stands" }), title: "Show the rows by stand" }, String(count));
  }

  standLink(stand) {
    return element("button", { type: "button", class: "link", onclick: () => this.view.chooseStand(stand) }, this.view.day.nodeName(stand));
  }

  // Who stands at a stand, in words, and when two are there at once.
  ofStand(stand) {
    const { view, clock } = this;
    const uses = standUses(view).get(stand) || [];
    const close = element("button", { type: "button", class: "close", "aria-label": "Close", onclick: () => view.letGo() }, "×");
    const overlaps = overlapsOf(uses).map(({ from, until, uses: both }) =>
      element("li", { class: "trouble" }, `${both.map((use) => use.label).join(" and ")} at once, ${clock.text(from)} to ${clock.text(until)}`),
    );
    const items = uses.map((use) => {
      const names = [...new Set(use.names)].flatMap((name, k) => [k ? " / " : "", this.link(name)]);
      return element("li", {}, ...names, `: ${useTimes(clock, use)}`);
    });
    return [
      close,
      element("h2", {}, `Stand ${view.day.nodeName(stand)}`),
      items.length ? element("ul", { class: "history" }, ...items) : element("p", {}, "Nobody stands here."),
      overlaps.length ? element("h3", {}, "Two at once") : null,
      overlaps.length ? element("ul", { class: "history" }, ...overlaps) : null,
      view.rows === "stands" ? null : element("button", { type: "button", onclick: () => view.set({ rows: "stands" }) }, "Show the rows by stand"),
    ];
  }

  facts(rows) {
    return element("dl", {}, ...rows.flatMap(([term, text]) => [element("dt", {}, term), element("dd", {}, text)]));
  }

  ofHolder(holder) {
    const { view } = this;
    const stay = holder.newest;
    const kind = { filed: "filed by hand", work: "work party" }[holder.kind] || holder.kind;
    const heading = element("h2", {}, element("span", { class: `dot ${holder.kind}` }), ` ${holder.name}`);
    const close = element("button", { type: "button", class: "close", "aria-label": "Close", onclick: () => view.letGo() }, "×");
    const line = element("p", {}, [kind, view.day.className(holder.class), holder.fate].filter(Boolean).join(", "));
    const show = stay && element("button", { type: "button", onclick: () => this.goTo(stay) }, "Show it on its way");
    const versions = holder.stays.map((one, k) => this.version(one, k + 1, holder.stays.length)).reverse();
    return [close, heading, line, show, ...versions, element("h3", {}, "Commands"), this.commands(holder.commands, holder.notes)];
  }

  goTo(stay) {
    const { view } = this;
    view.reveal(stay.begin, stay.finish);
    const room = 40 * Math.max(1, stay.finish - stay.begin);
    if (view.to - view.from > room) view.zoom(room / (view.to - view.from), (stay.begin + stay.finish) / 2);
    view.moveTo(stay.begin);
  }

  // One version of a flight: what was asked, how long it takes, and each step.
  version(stay, number, count) {
    const title = `${count > 1 ? `Version ${number} of ${count}: ` : ""}${WHY[stay.why] || stay.why}, command ${stay.opened}`;
    const ended = stay.closed === Infinity ? "" : `, ${ENDS[stay.end] || stay.end}, command ${stay.closed}`;
    return element("details", { open: number === count }, element("summary", {}, title + ended), this.facts(this.versionFacts(stay)), this.steps(stay));
  }

  versionFacts(stay) {
    const { clock, view } = this;
    if (stay.kind === "work") return [["from", clock.text(stay.begin)], ["until", clock.text(stay.finish)]];
    const facts = [["way", element("span", {}, this.nodeText(stay.from), " to ", this.nodeText(stay.to))]];
    if (stay.asked) facts.push(["asked", this.askedText(stay)]);
    facts.push(["taxi time", span(stay.finish - stay.begin)]);
    if (stay.waited) facts.push(["waits", span(stay.waited)]);
    if (stay.held) facts.push([awayText(stay), `${span(stay.held[0])}${stay.held[1] ? ` for ${stay.held[1]}` : ""}`]);
    return facts;
  }

  // A node's name; that of a stand leads to the stand.
  nodeText(node) {
    const { day } = this.view;
    return day.nodes[node][1] === "stand" ? this.standLink(node) : day.nodeName(node);
  }

  askedText(stay) {
    const [time, limit] = stay.asked;
    const text = this.clock.text(time);
    if (stay.kind === "departure") return `at the runway at ${text}${limit ? `, or up to ${span(limit)} sooner` : ""}`;
    return limit ? `from ${text}, or up to ${span(limit)} later` : `at ${text}`;
  }

  // The steps as a table. What a step waits stands in a line of its own below it, so that names and times have room.
  steps(stay) {
    const head = ["segment", "to", "enter", "leave"].map((text) => element("th", { scope: "col" }, text));
    const rows = stay.steps.flatMap((step) => this.step(stay, step));
    const table = element("table", { class: "steps" }, element("thead", {}, element("tr", {}, ...head)), element("tbody", {}, ...rows));
    return element("div", { class: "wide" }, table);
  }

  step(stay, step) {
    const { clock, view } = this;
    const row = element(
      "tr",
      {},
      element("td", {}, view.day.arcName(step.arc)),
      element("td", {}, view.day.nodeName(view.day.head(step.arc))),
      element("td", { class: "time" }, clock.text(step.enter)),
      element("td", { class: "time" }, clock.text(step.leave)),
    );
    this.rows.push({ row, stay, step });
    return step.wait ? [row, this.wait(step)] : [row];
  }

  wait(step) {
    const mark = waitMark(this.view, step);
    const cell = element("td", { colspan: 4, class: mark ? "wait marked" : "wait" }, `waits ${span(step.wait)}`);
    if (step.holder) cell.append(" for ", this.link(step.holder));
    if (mark) cell.append(`: ${mark}`);
    return element("tr", { class: "wait" }, cell);
  }

  link(name) {
    return element("button", { type: "button", class: "link", onclick: () => this.view.select(name) }, name);
  }

  commands(numbers, notes) {
    const { day } = this.view;
    const troubled = new Set(notes.map((note) => note.command));
    const items = numbers.map((k) => {
      const command = day.commands[k - 1];
      const open = element("button", { type: "button", class: "link", onclick: () => this.view.chooseCommand(k) }, String(k));
      return element("li", { class: troubled.has(k) ? "trouble" : null }, open, " ", element("code", {}, command.text), element("br"), command.said);
    });
    return element("ul", { class: "history" }, ...items);
  }

  ofCommand(k) {
    const { view, clock } = this;
    const command = view.day.commands[k - 1];
    const close = element("button", { type: "button", class: "close", "aria-label": "Close", onclick: () => view.letGo() }, "×");
    const names = [...new Set(view.day.stays.filter((stay) => stay.opened === k || stay.closed === k).map((stay) => stay.name))];
    for (const name of command.names) if (view.day.holders.has(name) && !names.includes(name)) names.push(name);
    const facts = [["line of the file", String(command.line)], ["counts as told at", clock.text(command.told)]];
    if (command.at !== undefined) facts.splice(1, 0, ["its own time", clock.text(command.at)]);
    return [
      close,
      element("h2", {}, `Command ${k}`),
      element("p", {}, element("code", {}, command.text)),
      element("p", { class: `said ${command.reply}` }, command.said),
      this.facts(facts),
      names.length ? element("p", {}, "Speaks of ", ...names.flatMap((name, at) => [at ? ", " : "", this.link(name)])) : null,
      element("button", { type: "button", onclick: () => view.set({ plan: k }) }, "Show the plan after this command"),
    ];
  }

  // The step under way is marked.
  markStep() {
    const { view } = this;
    const command = view.commandNow;
    for (const { row, stay, step } of this.rows) {
      row.classList.toggle("now", stay.inForceAfter(command) && step.enter <= view.time && view.time < step.leave);
    }
  }
}
