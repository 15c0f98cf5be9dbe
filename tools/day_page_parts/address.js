// What stands after the # of the address: where the page opens, and what is chosen. It follows the reader's choices, so that
// the address can be copied and sent: t=SECOND, flight=NAME, command=K, stand=NAME, plan=K, rows=KIND, sort=ORDER, show=MARK, limit=SECONDS,
// theme=dark.

// The address changes this many milliseconds after the last change, since browsers bound how often it may.
const ADDRESS_LATER = 300;

class Address {
  constructor(view) {
    Object.assign(this, { view, later: null });
    this.opened = { time: view.time, rows: view.rows, sort: view.sort, limit: view.limit };
    this.take(location.hash);
    view.listen(["time", "selected", "command", "stand", "plan", "rows", "sort", "limit", "filter", "playing", "colours"], () => this.follow());
    window.addEventListener("hashchange", () => this.take(location.hash));
  }

  // Shows what an address asks for. What it doesn't name, or names wrongly, stays as it is.
  take(hash) {
    const { view } = this;
    const asked = new URLSearchParams(hash.slice(1));
    const number = (key) => (asked.has(key) && asked.get(key).trim() && Number.isFinite(Number(asked.get(key))) ? Number(asked.get(key)) : null);
    const last = view.day.commands.length;
    if (["light", "dark"].includes(asked.get("theme"))) setTheme(view, asked.get("theme"));
    if (ROW_KINDS.includes(asked.get("rows"))) view.set({ rows: asked.get("rows") });
    if (Object.hasOwn(ORDERS, asked.get("sort"))) view.set({ sort: asked.get("sort") });
    if (Object.hasOwn(MARKS, asked.get("show"))) view.setFilter({ mark: asked.get("show") });
    if (number("limit") !== null) view.set({ limit: wholeBetween(number("limit"), 0, MOST_LIMIT) });
    if (number("plan") !== null) view.set({ plan: wholeBetween(number("plan"), 0, last) });
    if (number("t") !== null) view.moveTo(number("t"));
    if (view.day.holders.has(asked.get("flight"))) view.select(asked.get("flight"));
    else if (number("command") >= 1 && number("command") <= last) view.chooseCommand(Math.floor(number("command")));
    else if (view.day.standNumber.has(asked.get("stand"))) view.chooseStand(view.day.standNumber.get(asked.get("stand")));
  }

  // Changes the address when nothing has changed for a while, and not while the day is played.
  follow() {
    clearTimeout(this.later);
    if (!this.view.playing) this.later = setTimeout(() => this.write(), ADDRESS_LATER);
  }

  // What is as it was when the page was made isn't said.
  text() {
    const { view, opened } = this;
    const said = {
      t: view.time === opened.time ? null : Math.floor(view.time),
      flight: view.selected,
      command: view.command,
      stand: view.stand === null ? null : view.day.nodeName(view.stand),
      plan: view.plan,
      rows: view.rows === opened.rows ? null : view.rows,
      sort: view.sort === opened.sort ? null : view.sort,
      show: view.filter.mark === "all" ? null : view.filter.mark,
      limit: view.limit === opened.limit ? null : view.limit,
      theme: document.documentElement.getAttribute("data-theme"),
    };
    return new URLSearchParams(Object.entries(said).filter(([, value]) => value !== null)).toString();
  }

  write() {
    const text = this.text();
    if (text !== location.hash.slice(1)) history.replaceState(null, "", text ? `#${text}` : location.pathname + location.search);
  }
}

function wholeBetween(number, least, most) {
  return Math.max(least, Math.min(most, Math.floor(number)));
}
