// The list of flights and work parties, with its filter and its order.

const KINDS = [["arrival", "arrivals"], ["departure", "departures"], ["filed", "filed by hand"], ["work", "work parties"]];

// The orders of the list: a text for the reader, and what decides between two. Equal ones follow each other by their begin.
const ORDERS = {
  begin: { text: "begin", compare: () => 0 },
  name: { text: "name", compare: (view, a, b) => NAMES_IN_ORDER.compare(a.name, b.name) },
  stand: { text: "stand", compare: (view, a, b) => byName(a.end(view.day, "stand"), b.end(view.day, "stand")) },
  runway: { text: "runway", compare: (view, a, b) => byName(a.end(view.day, "runway"), b.end(view.day, "runway")) },
  waiting: { text: "waiting, most first", compare: (view, a, b) => waitOf(view, b) - waitOf(view, a) },
};

// Those without such a name come last.
function byName(one, other) {
  if (one === null || other === null) return (one === null) - (other === null);
  return NAMES_IN_ORDER.compare(one, other);
}

function waitOf(view, holder) {
  const stay = view.stayOf(holder);
  return stay && stay.kind !== "work" ? stay.waited : 0;
}

class FlightList {
  constructor(view, clock) {
    Object.assign(this, { view, clock, items: new Map() });
    this.box = byId("flights");
    this.text = byId("filter-text");
    this.text.addEventListener("input", () => view.setFilter({ text: this.text.value.trim() }));
    this.classes = byId("filter-class");
    this.classes.addEventListener("change", () => view.setFilter({ class: this.classes.value }));
    this.marks = byId("filter-mark");
    this.marks.addEventListener("change", () => view.setFilter({ mark: this.marks.value }));
    this.order = byId("sort");
    this.order.append(...Object.entries(ORDERS).map(([value, { text }]) => element("option", { value }, text)));
    this.order.addEventListener("change", () => view.set({ sort: this.order.value }));
    view.listen(["day", "limit", "plan"], () => this.fill());
    view.listen(["filter", "sort"], () => this.show());
    view.listen(["selected"], () => this.mark());
    this.fill();
  }

  fill() {
    this.fillFilter();
    const holders = [...this.view.day.holders.values()];
    this.items = new Map(holders.map((holder) => [holder.name, this.item(holder)]));
    this.show();
  }

  fillFilter() {
    const { day } = this.view;
    const classes = day.data.classes.map((name, number) => element("option", { value: number }, name));
    replaceChildren(this.classes, element("option", { value: "" }, "all classes"), ...classes);
    replaceChildren(byId("filter-kinds"), ...KINDS.map(([kind, label]) => this.kindBox(kind, label)));
    const counts = countMarks(this.view);
    const marks = Object.entries(MARKS).map(([mark, text]) => element("option", { value: mark }, `${text} (${counts[mark]})`));
    replaceChildren(this.marks, element("option", { value: "all" }, "all flights"), ...marks);
  }

  kindBox(kind, label) {
    const { view } = this;
    const count = [...view.day.holders.values()].filter((holder) => holder.kind === kind).length;
    if (!count) return null;
    const box = element("input", { type: "checkbox", checked: view.filter.kinds.has(kind), onchange: () => this.filterKind(kind, box.checked) });
    return element("label", {}, box, element("span", { class: `dot ${kind}` }), ` ${label} ${count}`);
  }

  filterKind(kind, wanted) {
    const kinds = new Set(this.view.filter.kinds);
    if (wanted) kinds.add(kind);
    else kinds.delete(kind);
    this.view.setFilter({ kinds });
  }

  item(holder) {
    const { view } = this;
    const stay = view.stayOf(holder);
    const button = element(
      "button",
      { type: "button", class: holder.fate ? "gone" : null, onclick: () => view.select(view.selected === holder.name ? null : holder.name) },
      element("span", { class: `dot ${holder.kind}`, role: "img", "aria-label": holder.kind }),
      element("span", { class: "name" }, holder.name),
      element("span", { class: "class" }, view.day.className(holder.class)),
      element("span", { class: "times" }, stay ? `${this.clock.text(stay.begin)} – ${this.clock.text(stay.finish)}` : ""),
      holder.fate ? element("span", { class: stay && stay.over ? "fate over" : "fate" }, holder.fate) : null,
      element("span", { class: "way" }, this.wayText(holder, stay)),
      stay ? this.waits(stay) : null,
    );
    return element("li", {}, button);
  }

  wayText(holder, stay) {
    if (holder.kind === "work") return stay ? this.view.day.segments[stay.steps[0].segment][0] : "";
    const [from, to] = holder.ends(this.view.day, stay || undefined);
    if (from === null) return "";
    return `${from} to ${to === null ? "one of several" : to}`;
  }

  // How long it waits in all, and what of it is to be looked at.
  waits(stay) {
    const { view } = this;
    if (stay.kind === "work") return null;
    const reasons = [];
    const longest = Math.max(...stay.steps.map((step) => step.wait));
    if (longest > 0 && longest >= view.limit) reasons.push(longest === stay.waited ? "at one place" : `longest ${span(longest)}`);
    if (stay.steps.some((step) => step.wait && view.day.onRunway(step.segment))) reasons.push("on a runway");
    if (secondsAway(stay) >= Math.max(1, view.limit)) reasons.push(`${span(secondsAway(stay))} ${awayText(stay)}`);
    const text = [stay.waited ? `waits ${span(stay.waited)}` : "", ...reasons].filter(Boolean).join(", ");
    return text ? element("span", { class: reasons.length ? "waits marked" : "waits" }, text) : null;
  }

  // Those that pass the filter, in the order that the reader chose.
  listed() {
    const { view } = this;
    const { compare } = ORDERS[view.sort];
    return view.shownHolders().sort((a, b) => compare(view, a, b));
  }

  show() {
    const { view } = this;
    const listed = this.listed();
    replaceChildren(this.box, ...listed.map((holder) => this.items.get(holder.name)));
    this.order.value = view.sort;
    this.marks.value = view.filter.mark;
    this.classes.value = view.filter.class;
    this.tellCount(listed.length);
    this.mark();
  }

  tellCount(count) {
    const all = this.view.day.holders.size;
    byId("flight-count").textContent = count === all ? `${all}` : `${count} of ${all}`;
    byId("no-flights").hidden = count > 0;
    byId("no-flights").textContent = all ? "No flight passes the filter." : "No flight and no work party was asked for.";
  }

  mark() {
    const { selected } = this.view;
    if (this.marked) this.marked.removeAttribute("aria-current");
    this.marked = selected && this.items.has(selected) ? this.items.get(selected).firstChild : null;
    if (!this.marked) return;
    this.marked.setAttribute("aria-current", "true");
    if (this.marked.isConnected) keepInSight(this.box, this.marked);
  }

  // Chooses the next flight of the list, or the one before.
  step(by) {
    const listed = this.listed();
    if (!listed.length) return;
    const at = listed.findIndex((holder) => holder.name === this.view.selected);
    const next = at < 0 ? (by > 0 ? 0 : listed.length - 1) : Math.max(0, Math.min(listed.length - 1, at + by));
    this.view.select(listed[next].name);
  }
}

// What the seconds between its time and the time asked for are.
function awayText(stay) {
  return stay.kind === "departure" ? "early at the runway" : "after the time asked for";
}
