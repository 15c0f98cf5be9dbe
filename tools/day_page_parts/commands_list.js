// The list of commands, with what was answered to each.

const CHANGES = ["filed", "route", "cancelled", "batch", "late"];

class CommandList {
  constructor(view, clock) {
    Object.assign(this, { view, clock, items: [] });
    this.box = byId("commands");
    this.which = byId("filter-commands");
    this.which.addEventListener("change", () => this.show());
    view.listen(["day"], () => this.refill());
    view.listen(["command"], () => this.mark());
    view.listen(["time", "plan"], () => this.markTold());
  }

  // Makes the list of another state of the day, if the one before was looked at.
  refill() {
    if (!this.items.length) return;
    Object.assign(this, { items: [], told: null, marked: null });
    this.open();
  }

  // The list is made when it is first looked at: there may be thousands.
  open() {
    if (this.items.length) return;
    this.items = this.view.day.commands.map((command, k) => this.item(command, k + 1));
    replaceChildren(this.box, ...this.items);
    this.show();
    this.markTold();
    this.mark();
  }

  item(command, k) {
    const button = element(
      "button",
      { type: "button", onclick: () => this.view.chooseCommand(this.view.command === k ? null : k) },
      element("span", { class: "number" }, String(k)),
      element("code", {}, command.text),
      element("span", { class: `said ${command.reply}` }, command.said),
    );
    return element("li", {}, button);
  }

  show() {
    const wanted = this.which.value;
    let count = 0;
    this.view.day.commands.forEach((command, k) => {
      const passes = wanted === "all" || (wanted === "changes" ? CHANGES.includes(command.reply) : this.troubled(command, k + 1));
      this.items[k].hidden = !passes;
      count += passes;
    });
    byId("no-commands").hidden = count > 0;
  }

  troubled(command, k) {
    return command.reply === "refused" || this.view.day.notes.some((note) => note.command === k);
  }

  mark() {
    if (this.marked) this.marked.removeAttribute("aria-current");
    this.marked = this.view.command && this.items.length ? this.items[this.view.command - 1].firstChild : null;
    if (!this.marked) return;
    this.marked.setAttribute("aria-current", "true");
    keepInSight(this.box, this.marked);
  }

  // Those that are not told yet at the present time are paler.
  markTold() {
    if (!this.items.length || this.told === this.view.commandNow) return;
    this.told = this.view.commandNow;
    this.items.forEach((item, k) => item.classList.toggle("untold", k >= this.told));
  }
}
