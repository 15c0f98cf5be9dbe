// The tools above the timeline, and the tabs of the lists.

// The most seconds that the limit of a long wait may have: those of a week.
const MOST_LIMIT = 604800;

class Tools {
  constructor(view, parts) {
    Object.assign(this, { view, parts });
    this.setUpRows();
    this.setUpLimit();
    this.setUpPlan();
    this.setUpTabs();
    byId("closer").addEventListener("click", () => view.zoom(1 / 1.5, view.time));
    byId("wider").addEventListener("click", () => view.zoom(1.5, view.time));
    byId("whole").addEventListener("click", () => this.showWhole());
    byId("save").addEventListener("click", () => save(parts.paper.picture()));
    byId("help-button").addEventListener("click", () => byId("help").showModal());
  }

  showWhole() {
    this.view.showWhole();
    if (this.parts.map) this.parts.map.showAll();
  }

  setUpRows() {
    const rows = byId("rows");
    rows.addEventListener("change", () => this.view.set({ rows: rows.value }));
    this.keep(["rows"], () => (rows.value = this.view.rows));
  }

  // From how many seconds a wait counts as long.
  setUpLimit() {
    const limit = byId("limit");
    limit.max = MOST_LIMIT;
    limit.addEventListener("change", () => {
      if (limit.value !== "") this.view.set({ limit: wholeBetween(Number(limit.value), 0, MOST_LIMIT) });
      limit.value = this.view.limit;
    });
    this.keep(["limit"], () => (limit.value = this.view.limit));
  }

  // The plan after a command, in place of the day as it was told.
  setUpPlan() {
    const { view } = this;
    const [which, number] = [byId("plan"), byId("plan-number")];
    const last = () => view.day.commands.length;
    which.addEventListener("change", () => view.set({ plan: which.value === "day" ? null : last() }));
    number.addEventListener("change", () => view.set({ plan: wholeBetween(Number(number.value) || 0, 0, last()) }));
    this.keep(["plan", "day"], () => {
      which.value = view.plan === null ? "day" : "plan";
      number.hidden = view.plan === null;
      number.max = last();
      if (view.plan !== null) number.value = view.plan;
    });
  }

  setUpTabs() {
    const tabs = ["flights", "commands"].map((name) => ({ name, tab: byId(`${name}-tab`), panel: byId(`${name}-panel`) }));
    for (const { name, tab } of tabs) {
      tab.addEventListener("click", () => {
        for (const one of tabs) {
          one.tab.setAttribute("aria-selected", String(one.tab === tab));
          one.panel.hidden = one.tab !== tab;
        }
        if (name === "commands") this.parts.commands.open();
      });
    }
  }

  // Shows something now, and again when what it hangs on changes.
  keep(keys, show) {
    this.view.listen(keys, show);
    show();
  }
}

// Hands a picture to the reader as a file.
function save(svg) {
  const link = element("a", { href: URL.createObjectURL(new Blob([svg], { type: "image/svg+xml" })), download: "day.svg" });
  link.click();
  setTimeout(() => URL.revokeObjectURL(link.href), 1000);
}
