"""Replays a transcript a second time, with nothing in common with tools/: what the page's model is compared with.

The state is a dictionary from names to (kind, class, steps), and is made anew for each second that is asked for.
"""
import json
import re
from pathlib import Path


def read_airport(path):
    """What the second replay needs of an airport: horizon, classes' clearances and the seconds of segments."""
    horizon, clearance, seconds = 0, {}, {}
    for line in Path(path).read_text(encoding="utf-8-sig").split("\n"):
        row = line.split(",")
        if row[0] == "horizon":
            horizon = int(row[1])
        elif row[0] == "clearance":
            clearance[row[1]] = int(row[2])
        elif row[0] == "seconds":
            seconds[row[1], row[2]] = int(row[3])
    return horizon, clearance, seconds


def read_lines(path):
    """The words of the lines that get an answer."""
    text = Path(path).read_bytes().decode("utf-8", "replace")
    lines = [line.removesuffix("\r") for line in text.split("\n")]
    return [line.split(" ") for line in lines if line.strip(" \t") and not line.startswith("#")]


def blocks(transcript):
    """The lines of each block, labels left out. A block begins at a line of a reply, and one that others follow counts them."""
    lines = [line for line in transcript.split("\n") if not line.startswith("label ")]
    found, entries = [], 0
    for line in lines[:-2]:
        begins = re.match(r"(route|no-route|windows|occupancy|timetable|filed|cancelled|refused|batch|late) ", line)
        if begins and not entries:
            found.append([line])
            counted = re.match(r"batch (\d+) |late \S+ (\d+)", line)
            entries = int(counted.group(1) or counted.group(2)) if counted else 0
            continue
        found[-1].append(line)
        if begins or line.startswith("dropped "):
            entries -= 1
    return found


def steps_in(lines):
    """The steps among the lines of a block."""
    return [(words[1], int(words[2]), int(words[3])) for words in (line.split(" ") for line in lines) if words[0] == "step"]


def entries_in(block):
    """The name and the lines of each entry of a batch or a late flight's block."""
    entries = []
    for line in block[1:]:
        words = line.split(" ")
        if words[0] in ("next", "dropped"):
            entries.append((words[1], [] if words[0] == "next" else [line]))
        else:
            entries[-1][1].append(line)
    return entries


def after(state, words, block, airport):
    """The state after a command, and the second by which it has been told, or None."""
    state, first = dict(state), block[0].split(" ")
    kind = first[0]
    if kind == "filed" and words[0] == "work":
        state[words[1]] = ("work", None, [(words[2] + "+", int(words[3]), int(words[4]))])
        return state, int(words[3])
    if kind == "filed":
        times = [int(words[3])] + [int(word) for word in words[5::2]]
        state[words[1]] = ("filed", words[2], list(zip(words[4::2], times, times[1:])))
        return state, times[0]
    if kind == "cancelled":
        del state[words[1]]
        return state, None
    if kind == "route" and words[0] in ("reroute", "divert"):
        state[words[1]] = state[words[1]][:2] + (steps_in(block),)
        return state, int(words[2])
    if kind == "route":
        state[words[1]] = (words[0].removesuffix("-any"), words[2], steps_in(block))
        return state, begin_of(words, steps_in(block))
    if kind == "batch":
        return after_batch(state, words, block)
    if kind == "late":
        return after_late(state, words, block, airport), int(words[2])
    return state, None


def begin_of(words, steps):
    """When a flight that got a route is first spoken of: the time that an arrival names, or a departure's pushback."""
    if words[0].startswith("departure"):
        return steps[0][1]
    return int(words[4 if words[0] == "arrival-any" else 5])


def after_batch(state, words, block):
    """The state after a batch."""
    asked = {words[at + 1]: words[at:at + 7] for at in range(1, len(words), 7)}
    told = []
    for name, lines in entries_in(block):
        if lines[0].startswith("route "):
            state[name] = (asked[name][0], asked[name][2], steps_in(lines))
            told.append(begin_of(asked[name], steps_in(lines)))
    return state, min(told, default=None)


def after_late(state, words, block, airport):
    """The state after a late flight: each entry has a new route, or what it had entered, or is out."""
    time, until = int(words[2]), int(words[3])
    for name, lines in entries_in(block):
        kind, class_name, steps = state.pop(name)
        entered = [] if kind == "work" else [step for step in steps if step[1] <= time]
        if lines[0].startswith("route "):
            state[name] = ("filed" if entered and kind == "departure" else kind, class_name, steps_in(lines))
        elif entered:
            arc, enter, _ = entered.pop()
            leave = until if name == words[1] else max(time, enter + airport[2].get((arc[:-1], class_name), 0))
            state[name] = ("filed", class_name, entered + [(arc, enter, leave)])
    return state


class SecondReplay:
    """All states of a day, and when each command counts as told."""

    def __init__(self, airport, commands, transcript):
        self.horizon, self.clearance, self.seconds = self.airport = read_airport(airport)
        self.states, bounds, ends = [{}], [], [0]
        for words, block in zip(read_lines(commands), blocks(transcript), strict=True):
            state, bound = after(self.states[-1], words, block, self.airport)
            self.states.append(state)
            bounds.append(bound)
            ends += [self.end(class_name, steps[-1][2]) for _, class_name, steps in state.values()]
        self.last = max(ends)
        self.told = [min([bound for bound in bounds[k:] if bound is not None] + [self.last]) for k in range(len(bounds))]

    def end(self, class_name, leave):
        """The end of what a step reserves."""
        return min(self.horizon, leave + self.clearance.get(class_name, 0))

    def tell(self, second):
        """What the page's model should tell of a second."""
        command = sum(told <= second for told in self.told)
        state = self.states[command]
        in_force = [[name, kind, steps[0][1], steps[-1][2], len(steps)] for name, (kind, _, steps) in state.items()]
        holds = [hold for name, holder in state.items() for hold in self.holds(name, holder, second)]
        return {"second": second, "command": command, "inForce": sorted(in_force, key=text), "holds": sorted(holds, key=text)}

    def holds(self, name, holder, second):
        """What a holder holds at a second, and how."""
        kind, class_name, steps = holder
        for arc, enter, leave in steps:
            if enter <= second < self.end(class_name, leave):
                still = enter + self.seconds.get((arc[:-1], class_name), 0)
                phase = "clearance" if second >= leave else "waiting" if second >= still else "moving"
                yield [name, arc, enter, leave, "work" if kind == "work" else phase]


def text(value):
    """A value as JSON, by which lists are put in order."""
    return json.dumps(value, separators=(",", ":"))
