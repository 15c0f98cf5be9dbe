// The keys of the page. While a dialog is open they are its own: none acts behind it, and Escape closes it.

const TEXT_FIELDS = "input[type=text], input[type=number], input[type=search], select, textarea";

class Keys {
  constructor(view, parts) {
    Object.assign(this, { view, parts });
    document.addEventListener("keydown", (event) => this.press(event));
  }

  press(event) {
    if (event.ctrlKey || event.metaKey || event.altKey || document.querySelector("dialog[open]")) return;
    const { target } = event;
    if (target.matches(TEXT_FIELDS)) {
      if (event.key === "Escape") target.blur();
      return;
    }
    const action = this.action(event.key, event.shiftKey ? 60 : 10);
    if (!action || (event.key === " " && target.matches("button, input, summary"))) return;
    if (target === this.parts.player.slider && event.key.startsWith("Arrow")) return;
    event.preventDefault();
    action();
  }

  action(key, seconds) {
    const { view, parts } = this;
    const actions = {
      " ": () => parts.player.toggle(),
      k: () => parts.player.toggle(),
      ArrowLeft: () => view.moveTo(Math.floor(view.time) - seconds),
      ArrowRight: () => view.moveTo(Math.floor(view.time) + seconds),
      ArrowUp: () => parts.flights.step(-1),
      ArrowDown: () => parts.flights.step(1),
      Home: () => view.moveTo(view.first),
      End: () => view.moveTo(view.last),
      "+": () => view.zoom(1 / 1.5, view.time),
      "=": () => view.zoom(1 / 1.5, view.time),
      "-": () => view.zoom(1.5, view.time),
      0: () => view.showWhole(),
      s: () => view.set({ rows: ROW_KINDS[(ROW_KINDS.indexOf(view.rows) + 1) % ROW_KINDS.length] }),
      "/": () => byId("filter-text").focus(),
      "?": () => byId("help").showModal(),
      Escape: () => view.letGo(),
    };
    return actions[key];
  }
}
