// The head of the page: what day it is, what the checker said of it, and the theme.

class Head {
  constructor(view, clock) {
    Object.assign(this, { view, clock });
    view.listen(["day"], () => this.show());
    this.show();
    this.setUpTheme();
  }

  show() {
    const { day } = this.view;
    const { check, unanswered } = day.data;
    const words = { accepted: "checked: accepted", wrong: `the checker refuses it: ${check.text}`, none: "not checked" };
    const badge = byId("check");
    badge.textContent = words[check.state];
    badge.className = check.state === "accepted" && unanswered ? "none" : check.state;
    byId("when").textContent = this.dayText();
    this.warn([check.state === "wrong" ? `taxi check says of this transcript: ${check.text}. What is shown from there on may be wrong.` : "", unanswered]);
    this.tellMap(day);
  }

  dayText() {
    const { civil, date, offset } = this.clock;
    return civil ? `${date}, UTC${offset === "Z" ? "" : offset}` : "times in seconds, as in the files";
  }

  // What a reader must know before anything else, in red.
  warn(texts) {
    const told = texts.filter(Boolean);
    byId("warning").hidden = !told.length;
    byId("warning").textContent = told.join(" ");
  }

  // Words about the map that its reader should know.
  tellMap(day) {
    document.body.classList.toggle("with-map", Boolean(day.map));
    byId("map").hidden = !day.map;
    const missing = day.map ? day.data.map.missing : 0;
    byId("map-note").hidden = !missing;
    byId("map-note").textContent = `The map lacks ${missing} of ${day.segments.length} segments.`;
  }

  // Light, dark, or as the reader's machine has it.
  setUpTheme() {
    const dark = matchMedia("(prefers-color-scheme: dark)");
    const isDark = () => (document.documentElement.getAttribute("data-theme") || (dark.matches ? "dark" : "light")) === "dark";
    byId("theme").addEventListener("click", () => setTheme(this.view, isDark() ? "light" : "dark"));
    dark.addEventListener("change", () => this.view.set({ colours: palette() }));
    this.view.set({ colours: palette() });
  }
}

function setTheme(view, theme) {
  document.documentElement.setAttribute("data-theme", theme);
  view.set({ colours: palette() });
}
