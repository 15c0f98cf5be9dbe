// What a reader should look at although it is as asked: long waits, waits on pieces of runways, and flights far from their time.

// The words for what a flight may have, in the order in which they are told. `all` marks nobody.
const MARKS = {
  "not-as-asked": "not as asked",
  long: "long waits",
  runway: "waits on a runway",
  far: "far from its time",
};

// Why a wait is marked: it is long, it is on a runway, or both; "" if it isn't.
function waitMark(view, step) {
  if (!step.wait) return "";
  const words = [];
  if (step.wait >= view.limit) words.push("long");
  if (view.day.onRunway(step.segment)) words.push("on a runway");
  return words.join(", ");
}

// The seconds by which a version begins later, or ends sooner, than it asked for.
function secondsAway(stay) {
  return stay.held ? stay.held[0] : 0;
}

// Whether a holder has a mark.
function hasMark(view, holder, mark) {
  if (mark === "all") return true;
  if (mark === "not-as-asked") return holder.notes.length > 0;
  const stay = view.stayOf(holder);
  if (!stay || stay.kind === "work") return false;
  if (mark === "far") return secondsAway(stay) >= Math.max(1, view.limit);
  const counts = { long: (step) => step.wait > 0 && step.wait >= view.limit, runway: (step) => step.wait > 0 && view.day.onRunway(step.segment) };
  return stay.steps.some(counts[mark]);
}

// How many holders have each mark, and how many flights got what they asked for.
function countMarks(view) {
  const holders = [...view.day.holders.values()];
  const counts = Object.fromEntries(Object.keys(MARKS).map((mark) => [mark, holders.filter((holder) => hasMark(view, holder, mark)).length]));
  const flights = holders.filter((holder) => holder.kind !== "work");
  return { ...counts, flights: flights.length, asked: flights.filter((holder) => !holder.notes.length).length };
}
