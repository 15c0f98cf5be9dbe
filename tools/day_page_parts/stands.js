// Who stands where from when to when, as far as the arrivals and departures tell.

// An aircraft at a stand: brought by an arrival, taken away by a departure. One of the two may be missing: then it isn't known
// since when it is there, or until when. `stuck` is the name of a departure that it asked for and didn't get.
class StandUse {
  constructor(stand, arrival, departure, from, until) {
    Object.assign(this, { stand, arrival, departure, from, until, stuck: null, lane: 0 });
  }

  get names() {
    const names = [this.arrival, this.departure].filter(Boolean).map((stay) => stay.name);
    return this.stuck ? [...names, this.stuck] : names;
  }

  get label() {
    return [...new Set(this.names)].join(" / ");
  }

  // The version that brought it, or that takes it away, by what is nearer to a second.
  stayAt(second) {
    if (!this.arrival || !this.departure) return this.arrival || this.departure;
    return second < (this.from + this.until) / 2 ? this.arrival : this.departure;
  }
}

// All uses of stands in what is shown: a list for each stand, by the stand's node.
function standUses(view) {
  const moves = standMoves(view);
  const uses = new Map();
  for (const [stand, list] of moves) uses.set(stand, pairMoves(stand, list, view.day.horizon));
  for (const list of uses.values()) giveLanes(list);
  return uses;
}

// The comings and goings at each stand. Of several versions of a flight the last one counts, as far as it was in force then.
function standMoves(view) {
  const { day, plan } = view;
  const moves = new Map();
  const add = (stay, node, second, comes) => {
    if (day.nodes[node][1] !== "stand") return;
    if (!moves.has(node)) moves.set(node, []);
    moves.get(node).push({ stay, second, comes });
  };
  for (const stay of day.stays) {
    if (stay.kind === "work" || (plan === null ? stay.replaced : !stay.inForceAfter(plan))) continue;
    const until = plan === null ? stay.until : Infinity;
    if (until > stay.begin) add(stay, stay.from, stay.begin, false);
    if (until >= stay.finish) add(stay, stay.to, stay.finish, true);
  }
  addStuck(view, moves);
  for (const list of moves.values()) list.sort((a, b) => a.second - b.second || a.comes - b.comes);
  return moves;
}

// Departures that asked and never got a route: who stays for them is not there for the next departure.
function addStuck(view, moves) {
  const { day, plan } = view;
  for (const holder of day.holders.values()) {
    const note = holder.notes.find(({ ends, command }) => ends && (plan === null || command <= plan));
    if (holder.stays.length || holder.kind !== "departure" || !note) continue;
    const list = moves.get(day.standNumber.get(note.ends[0]));
    if (list) list.push({ stuck: holder.name, second: note.second, comes: false });
  }
}

// A departure takes the arrival of its own name where there is one, otherwise the one that came first of those that are there.
function pairMoves(stand, moves, end) {
  const uses = [];
  let here = [];
  let empty = 0;
  for (const { stay, stuck, second, comes } of moves) {
    if (comes) {
      here.push(new StandUse(stand, stay, null, second, end));
      continue;
    }
    const first = here.find((one) => one.arrival.name === (stuck || stay.name)) || here[0];
    if (stuck && !first) continue;
    const use = first || new StandUse(stand, null, stay, empty, second);
    Object.assign(use, stuck ? { stuck } : { departure: stay, until: second });
    uses.push(use);
    here = here.filter((one) => one !== use);
    if (!stuck) empty = second;
  }
  return [...uses, ...here].sort((a, b) => a.from - b.from);
}

// Those that stand there at the same time lie in lanes, one below the other.
function giveLanes(uses) {
  const free = [];
  for (const use of uses) {
    let lane = free.findIndex((second) => second <= use.from);
    if (lane < 0) lane = free.length;
    free[lane] = use.until;
    use.lane = lane;
  }
}

// The times in which more than one stands there, each as [from, until], and by whom.
function overlapsOf(uses) {
  const overlaps = [];
  for (const [k, use] of uses.entries()) {
    for (const other of uses.slice(k + 1)) {
      const [from, until] = [Math.max(use.from, other.from), Math.min(use.until, other.until)];
      if (from < until) overlaps.push({ from, until, uses: [use, other] });
    }
  }
  return overlaps;
}

// Times that touch or lie over each other as one.
function joined(times) {
  const whole = [];
  for (const { from, until } of [...times].sort((a, b) => a.from - b.from)) {
    const last = whole[whole.length - 1];
    if (last && from <= last.until) last.until = Math.max(last.until, until);
    else whole.push({ from, until });
  }
  return whole;
}

// A use in words.
function useText(day, clock, use) {
  return `${day.nodeName(use.stand)}: ${use.label}, ${useTimes(clock, use)}`;
}

function useTimes(clock, use) {
  const came = use.arrival ? `from ${clock.text(use.from)}` : "since when isn't known";
  if (use.stuck) return `${came}, and stays, since ${use.stuck} got no route`;
  const left = use.departure ? `${use.arrival ? "to" : "until"} ${clock.text(use.until)}` : "until when isn't known";
  if (use.arrival && use.departure) return `${came} ${left}`;
  return `${came}, ${left}`;
}
