// What the colours and signs mean: those that the day has, in the rows that are shown.

// Each with the look of its sign, what paints it in a picture, a text, and when it is told.
const LEGEND = [
  { look: "dot arrival", paint: { fill: "arrival" }, text: "arrival", when: (view) => hasKind(view, "arrival") },
  { look: "dot departure", paint: { fill: "departure" }, text: "departure", when: (view) => hasKind(view, "departure") },
  { look: "dot filed", paint: { fill: "filed" }, text: "filed by hand", when: (view) => hasKind(view, "filed") },
  { look: "dot work", paint: { fill: "work", hatched: true }, text: "work party", when: (view) => hasKind(view, "work") },
  { look: "dot wait", paint: { fill: "wait" }, text: "waits", when: (view) => view.rows !== "stands" },
  { look: "dot wait marked", paint: { fill: "wait", stroke: "refused", width: 2 }, text: "long, or on a runway", when: (view) => view.rows !== "stands" && hasMarked(view) },
  { look: "dot stand", paint: { fill: "stand" }, text: "at a stand", when: (view) => view.rows === "stands" },
  { look: "dot stand open", paint: { stroke: "stand", dash: [3, 2] }, text: "since or until when isn't known", when: (view) => view.rows === "stands" },
  { look: "dot twice", paint: { fill: "refused", hatched: true }, text: "two at once", when: (view) => view.rows === "stands" },
  { look: "dot clear", paint: { stroke: "ink" }, text: "clearance", when: (view) => view.rows !== "stands" && view.day.data.clearance.some(Boolean) },
  { look: "dot ghost", paint: { stroke: "faint", dash: [3, 2] }, text: "came to nothing", when: (view) => view.rows !== "stands" && view.day.stays.some((stay) => stay.closed !== Infinity) },
  { look: "mark refused", sign: "▼", paint: { sign: "refused" }, text: "refused", when: (view) => hasTone(view, "refused") },
  { look: "mark no-route", sign: "◆", paint: { sign: "no-route" }, text: "no route", when: (view) => view.day.notes.some((note) => note.tone !== "refused") },
];

function hasMarked(view) {
  return view.day.stays.some((stay) => stay.kind !== "work" && stay.steps.some((step) => waitMark(view, step)));
}

// What is told of a day in the rows that are shown.
function legendOf(view) {
  return LEGEND.filter(({ when }) => when(view));
}

function hasKind(view, kind) {
  return [...view.day.holders.values()].some((holder) => holder.kind === kind || holder.stays.some((stay) => stay.kind === kind));
}

function hasTone(view, tone) {
  return view.day.notes.some((note) => note.tone === tone);
}

class Legend {
  constructor(view) {
    this.view = view;
    view.listen(["day", "rows", "limit"], () => this.show());
    this.show();
  }

  show() {
    replaceChildren(byId("legend"), ...legendOf(this.view).map(({ look, sign, text }) => element("li", {}, element("span", { class: look, "aria-hidden": "true" }, sign || ""), text)));
  }
}
