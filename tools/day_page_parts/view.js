// What is shown just now. Whoever draws something says what it hangs on, and is called when that changes.

// A day of more flights than this is shown in part at first, so that the bars can be seen.
const ROWS_AT_FIRST = 40;
// From how many seconds a wait counts as long, unless the reader says otherwise.
const LONG_FROM = 120;

class View {
  constructor(day) {
    this.listeners = [];
    this.rows = "flights";
    this.sort = "begin";
    this.limit = LONG_FROM;
    this.plan = null;
    this.selected = null;
    this.command = null;
    this.stand = null;
    this.playing = false;
    this.colours = null;
    this.filter = { text: "", class: "", kinds: new Set(["arrival", "departure", "filed", "work"]), mark: "all" };
    Object.assign(this, this.frameOf(day));
    this.time = this.from;
    this.to = this.from + (this.to - this.from) * Math.min(1, ROWS_AT_FIRST / Math.max(1, day.holders.size));
  }

  // The day with its first and last second, and the seconds that are shown of it.
  frameOf(day) {
    this.day = day;
    const [first, last] = this.wholeDay();
    const [from, to] = this.around(this.busySeconds());
    return { day, first, last, from, to };
  }

  // Another state of the day takes the place of the one that is shown. What is chosen and the seconds in sight stay.
  replaceDay(day) {
    const { from, to } = this;
    const { first, last } = this.frameOf(day);
    this.day = null;
    const width = Math.min(to - from, last - first);
    const begin = Math.max(first, Math.min(last - width, from));
    this.set({ day, first, last, from: begin, to: begin + width });
  }

  // When something moves or is asked to.
  busySeconds() {
    return this.day.stays.flatMap((stay) => (stay.asked ? [Math.min(stay.asked[0], stay.begin), stay.last] : [stay.begin, stay.last]));
  }

  // From the first thing that happens to the last, what was refused included.
  wholeDay() {
    const noted = this.day.notes.map((note) => note.second).filter((second) => second <= this.day.horizon);
    return this.around([...this.busySeconds(), ...noted]);
  }

  // A span of the day with some seconds in it, and a little room before and after them.
  around(seconds) {
    if (!seconds.length) return [0, this.day.horizon];
    const [first, last] = seconds.reduce(([low, high], second) => [Math.min(low, second), Math.max(high, second)], [Infinity, -Infinity]);
    const room = Math.max(5, Math.round((last - first) / 50));
    return [Math.max(0, first - room), Math.min(this.day.horizon, last + room)];
  }

  // How many commands are told in what is shown at the present time.
  get commandNow() {
    return this.plan === null ? this.day.toldBy(this.time) : this.plan;
  }

  listen(keys, draw) {
    this.listeners.push({ keys, draw });
  }

  set(changes) {
    const changed = Object.keys(changes).filter((key) => this[key] !== changes[key]);
    if (!changed.length) return;
    Object.assign(this, changes);
    for (const { keys, draw } of this.listeners) if (changed.some((key) => keys.includes(key))) draw(changed);
  }

  // Moves the time within the day.
  moveTo(time) {
    this.set({ time: Math.max(this.first, Math.min(this.last, time)) });
  }

  // Shows so many seconds around a second, which stays where it is.
  zoom(factor, around) {
    const least = Math.min(20, this.last - this.first);
    const width = Math.max(least, Math.min(this.last - this.first, (this.to - this.from) * factor));
    const share = (around - this.from) / (this.to - this.from);
    this.showFrom(around - share * width, width);
  }

  // Shows a number of seconds from a second on, within the day.
  showFrom(from, width) {
    const begin = Math.max(this.first, Math.min(this.last - width, from));
    this.set({ from: begin, to: begin + width });
  }

  // Shows the whole day. Many flights share rows then: with a row for each, few of them would be in sight.
  showWhole() {
    const { rows } = this;
    const many = rows === "flights" && this.shownHolders().length > ROWS_AT_FIRST;
    this.set({ from: this.first, to: this.last, rows: many ? "packed" : rows });
  }

  // Makes sure that a span of time is to be seen.
  reveal(begin, end) {
    const width = this.to - this.from;
    if (begin >= this.from && end <= this.to) return;
    this.showFrom(end - begin > width ? begin : (begin + end - width) / 2, width);
  }

  select(name) {
    this.set({ selected: name, command: null, stand: null });
  }

  chooseCommand(number) {
    this.set({ selected: null, command: number, stand: null });
  }

  chooseStand(node) {
    this.set({ selected: null, command: null, stand: node });
  }

  letGo() {
    this.set({ selected: null, command: null, stand: null });
  }

  setFilter(changes) {
    this.set({ filter: { ...this.filter, ...changes } });
  }

  // The version of a holder that counts: the newest one, or the one in force in the plan that is shown; null if there is none.
  stayOf(holder) {
    if (this.plan === null) return holder.newest;
    return holder.stays.find((stay) => stay.inForceAfter(this.plan)) || null;
  }

  // Whether a holder passes the filter.
  passes(holder) {
    const { text, class: classNumber, kinds, mark } = this.filter;
    if (text && !holder.name.toLowerCase().includes(text.toLowerCase())) return false;
    if (classNumber !== "" && holder.class !== Number(classNumber)) return false;
    return kinds.has(holder.kind) && hasMark(this, holder, mark);
  }

  // Those that pass the filter, by their begin.
  shownHolders() {
    const holders = [...this.day.holders.values()].filter((holder) => this.passes(holder));
    return holders.sort(byBegin);
  }
}

function byBegin(one, other) {
  return one.begin - other.begin || (one.name < other.name ? -1 : 1);
}
