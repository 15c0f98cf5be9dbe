// The day as it was replayed: who is in force after each command, and who is where at each second.

// Compares names as people do: G2 comes before G10.
const NAMES_IN_ORDER = new Intl.Collator("en", { numeric: true });

// One step of a stay: an arc, and the seconds at which it is entered and left. `wait` of its seconds are more than it needs.
class Step {
  constructor(arc, enter, leave) {
    this.arc = arc;
    this.segment = arc >> 1;
    this.enter = enter;
    this.leave = leave;
    this.shut = leave;
    this.wait = 0;
    this.holder = null;
    this.kept = false;
  }

  // The second at which the aircraft stands still at the end of the segment.
  get still() {
    return this.leave - this.wait;
  }
}

// One version of a flight or a work party, in force from one command to another one, or to the end.
class Stay {
  constructor(data, day) {
    Object.assign(this, { name: data.name, kind: data.kind, class: data.class, why: data.why, end: data.end });
    this.opened = data.opened;
    this.closed = data.closed || Infinity;
    this.asked = data.asked || null;
    this.held = data.held || null;
    this.steps = this.stepsOf(data, day);
    this.begin = this.steps[0].enter;
    this.finish = this.steps[this.steps.length - 1].leave;
    this.replaced = false;
    this.last = this.steps[this.steps.length - 1].shut;
    this.from = day.tail(this.steps[0].arc);
    this.to = day.head(this.steps[this.steps.length - 1].arc);
    this.told = day.commands[this.opened - 1].told;
    this.until = this.closed === Infinity ? Infinity : day.commands[this.closed - 1].told;
  }

  stepsOf(data, day) {
    const clearance = this.kind === "work" ? 0 : day.data.clearance[this.class];
    const steps = [];
    for (let k = 0; k < data.steps.length; k += 3) {
      const step = new Step(data.steps[k], data.steps[k + 1], data.steps[k + 2]);
      step.shut = Math.min(day.horizon, step.leave + clearance);
      steps.push(step);
    }
    for (const [at, seconds, holder] of data.waits) {
      steps[at].wait = seconds;
      steps[at].holder = holder;
    }
    return steps;
  }

  get waited() {
    return this.steps.reduce((sum, step) => sum + step.wait, 0);
  }

  // Whether it was closed only when all its seconds were over, as far as the page knows.
  get over() {
    return this.closed !== Infinity && this.until >= this.finish;
  }

  inForceAfter(command) {
    return this.opened <= command && command < this.closed;
  }

  // The step under way at a second, or null.
  stepAt(second) {
    return this.steps.find((step) => step.enter <= second && second < step.leave) || null;
  }
}

// All that has one name: a flight, or a work party, with every version of it and every command that speaks of it.
class Holder {
  constructor(name) {
    this.name = name;
    this.stays = [];
    this.notes = [];
    this.commands = [];
    this.kind = "";
    this.class = -1;
  }

  get newest() {
    return this.stays[this.stays.length - 1] || null;
  }

  get begin() {
    if (this.newest) return this.newest.begin;
    return this.notes.length ? this.notes[0].second : Infinity;
  }

  // The names of the nodes from and to which it goes, or asked to go; null where that isn't known.
  ends(day, stay = this.newest) {
    if (stay && this.kind !== "work") return [day.nodeName(stay.from), day.nodeName(stay.to)];
    const asked = this.notes.find((note) => note.ends);
    return asked ? asked.ends : [null, null];
  }

  // The name of its runway node or of its stand; null if it has none.
  end(day, kind, stay = this.newest) {
    return this.ends(day, stay).find((name) => name !== null && day.kindOf(name) === kind) || null;
  }

  // How it ended: in force, or the word for why it is not.
  get fate() {
    const stay = this.newest;
    if (!stay) return this.notes.some((note) => note.tone === "no-route") ? "no route" : "refused";
    if (stay.closed === Infinity) return "";
    return { done: "done", cancelled: "cancelled", dropped: "dropped", "no-route": "no route" }[stay.end] || stay.end;
  }
}

class Day {
  constructor(data) {
    this.data = data;
    this.horizon = data.horizon;
    this.runwayPieces = new Set(data.runwayPieces);
    this.commands = data.commands;
    this.segments = data.segments;
    this.nodes = data.nodes;
    this.kinds = new Map(data.nodes);
    this.stands = this.namedInOrder("stand");
    this.standNumber = new Map(this.stands.map((stand) => [this.nodeName(stand), stand]));
    this.stays = data.stays.map((stay) => new Stay(stay, this));
    this.markReplaced();
    this.notes = data.notes.map((note) => ({ ...note, second: note.at === null ? this.commands[note.command - 1].told : note.at }));
    this.holders = new Map();
    this.gatherHolders();
    this.bySegment = this.stepsBySegment();
  }

  tail(arc) {
    return this.segments[arc >> 1][arc & 1 ? 2 : 1];
  }

  head(arc) {
    return this.tail(arc ^ 1);
  }

  arcName(arc) {
    return this.segments[arc >> 1][0] + (arc & 1 ? "-" : "+");
  }

  nodeName(node) {
    return this.nodes[node][0];
  }

  // What kind of node a name is of.
  kindOf(name) {
    return this.kinds.get(name);
  }

  // Whether a segment is a piece of a runway, as far as the files tell.
  onRunway(segment) {
    return this.runwayPieces.has(segment);
  }

  // The nodes of a kind, by their names.
  namedInOrder(kind) {
    const nodes = this.nodes.map((_, node) => node).filter((node) => this.nodes[node][1] === kind);
    return nodes.sort((a, b) => NAMES_IN_ORDER.compare(this.nodeName(a), this.nodeName(b)));
  }

  className(number) {
    return number < 0 ? "" : this.data.classes[number];
  }

  // The steps of a version that the next version of the same flight has as well are not drawn twice.
  markReplaced() {
    const opened = new Map(this.stays.map((stay) => [`${stay.opened} ${stay.name}`, stay]));
    for (const stay of this.stays) {
      const next = opened.get(`${stay.closed} ${stay.name}`);
      if (!next) continue;
      stay.replaced = true;
      const kept = new Set(next.steps.map((step) => `${step.arc} ${step.enter} ${step.leave}`));
      for (const step of stay.steps) step.kept = kept.has(`${step.arc} ${step.enter} ${step.leave}`);
    }
  }

  holder(name) {
    if (!this.holders.has(name)) this.holders.set(name, new Holder(name));
    return this.holders.get(name);
  }

  gatherHolders() {
    for (const stay of this.stays) {
      const holder = this.holder(stay.name);
      holder.stays.push(stay);
      holder.kind = stay.kind;
      holder.class = stay.class;
    }
    for (const note of this.notes) this.gatherNote(note);
    this.commands.forEach((command, k) => {
      for (const name of new Set(command.names)) if (this.holders.has(name)) this.holders.get(name).commands.push(k + 1);
    });
    for (const stay of this.stays) {
      const { commands } = this.holders.get(stay.name);
      for (const k of [stay.opened, stay.closed]) if (k !== Infinity && !commands.includes(k)) commands.push(k);
    }
    for (const holder of this.holders.values()) holder.commands.sort((a, b) => a - b);
  }

  // A note belongs to whom it names, where that was asked for: a command on a name that isn't there makes no flight.
  gatherNote(note) {
    const command = this.commands[note.command - 1];
    if (!command.names.includes(note.name) && note.tone === "refused") return;
    const words = command.text.split(" ");
    const asked = { file: "filed", work: "work" }[words[0]] || (/^(arrival|departure)/.exec(words[0]) || [""])[0];
    if (!asked && !this.holders.has(note.name) && words[0] !== "batch") return;
    const holder = this.holder(note.name);
    holder.notes.push(note);
    if (!holder.kind) holder.kind = asked || "arrival";
    if (!holder.stays.length && asked && asked !== "work") holder.class = this.data.classes.indexOf(words[2]);
  }

  stepsBySegment() {
    const rows = this.segments.map(() => []);
    for (const stay of this.stays) for (const step of stay.steps) rows[step.segment].push({ stay, step });
    return rows;
  }

  // How many commands count as told by a second.
  toldBy(second) {
    let low = 0;
    let high = this.commands.length;
    while (low < high) {
      const middle = (low + high) >> 1;
      if (this.commands[middle].told <= second) low = middle + 1;
      else high = middle;
    }
    return low;
  }

  inForceAfter(command) {
    return this.stays.filter((stay) => stay.inForceAfter(command));
  }

  // Who holds which segment at a second, in the state after a command: moving, waiting, at work, or only keeping it shut.
  holdsAt(second, command) {
    const whole = Math.floor(second);
    const holds = [];
    for (const stay of this.stays) {
      if (whole < stay.begin || whole >= stay.last || !stay.inForceAfter(command)) continue;
      for (const step of stay.steps) {
        if (whole < step.enter) break;
        if (whole < step.shut) holds.push({ stay, step, phase: phaseOf(stay, step, whole) });
      }
    }
    return holds;
  }

  // The same as plain values, by which the page can be compared with another replay.
  tell(second, plan = null) {
    const command = plan === null ? this.toldBy(second) : plan;
    const holds = this.holdsAt(second, command).map(({ stay, step, phase }) => [stay.name, this.arcName(step.arc), step.enter, step.leave, phase]);
    const inForce = this.inForceAfter(command).map((stay) => [stay.name, stay.kind, stay.begin, stay.finish, stay.steps.length]);
    return { second, command, inForce: inForce.sort(byText), holds: holds.sort(byText) };
  }
}

function phaseOf(stay, step, second) {
  if (stay.kind === "work") return "work";
  if (second >= step.leave) return "clearance";
  return second >= step.still ? "waiting" : "moving";
}

function byText(one, other) {
  const [a, b] = [JSON.stringify(one), JSON.stringify(other)];
  return a < b ? -1 : a > b ? 1 : 0;
}
