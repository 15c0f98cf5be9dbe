"""Replays commands and their replies: which flight or work party is in force with which steps, from which command to which.

A `Stay` is one version of a holder: it is opened by a command, and closed by a later one or never. The state after command K
is the stays opened by K or before and not closed by then.
"""
from dataclasses import dataclass, field
from typing import Optional

from day_replay.airport import BadFile
from day_replay.commands import ASKS_ROUTE, Request, ends_of, own_time, request_of, requests_of_batch

# An arrival is routed from its first step on, and waits for what is ahead; a departure from its last step back.
AHEAD, BEHIND = "ahead", "behind"
SIDE = {"arrival": AHEAD, "departure": BEHIND}


@dataclass
class Stay:
    """A flight or a work party in force with one list of steps, each (arc, enter, leave)."""

    name: str
    kind: str  # arrival, departure, filed or work
    class_number: Optional[int]
    steps: list
    opened: int
    why: str
    request: Optional[Request] = None
    closed: Optional[int] = None
    end: str = ""
    waits: list = field(default_factory=list)  # (step, seconds, holder in the way or None)
    held: Optional[tuple] = None  # (seconds, holder): held before the first step, or early after the last

    @property
    def begin(self):
        """The first second of the first step."""
        return self.steps[0][1]

    @property
    def finish(self):
        """The second at which the last step is left."""
        return self.steps[-1][2]


@dataclass
class Note:
    """Something that a command did not get: a refusal, no route, a holder that was dropped."""

    command: int
    flight: str
    tone: str  # refused, no-route or dropped
    at: Optional[int]
    ends: Optional[tuple] = None  # the names of the nodes from and to which a request was, where there was one


class Reservations:
    """What is reserved of each segment, and by whom."""

    def __init__(self, airport):
        self.airport = airport
        self.shut = airport.in_conflict()
        self.by_segment = [[] for _ in airport.segments]
        self.by_name = {}

    def end_of(self, leave, class_number):
        """The end of a reservation: the leave, and the clearance of the class up to the horizon."""
        return min(self.airport.horizon, leave + self.airport.clearance_of(class_number))

    def put(self, name, steps, class_number):
        """Reserves the steps of a holder."""
        rows = []
        for arc, enter, leave in steps:
            row = (enter, self.end_of(leave, class_number), name)
            self.by_segment[arc // 2].append(row)
            rows.append((arc // 2, row))
        self.by_name[name] = rows

    def drop(self, name):
        """Takes back what a holder has reserved."""
        for segment, row in self.by_name.pop(name, ()):
            self.by_segment[segment].remove(row)

    def in_the_way(self, segment, second):
        """The least name of those that shut a segment at a second, or None."""
        names = [
            name
            for other in self.shut[segment]
            for enter, until, name in self.by_segment[other]
            if enter <= second < until
        ]
        return min(names, default=None)


class Replay:
    """The run of a command file, told by its replies."""

    def __init__(self, airport):
        self.airport = airport
        self.reservations = Reservations(airport)
        self.open = {}
        self.stays = []
        self.notes = []
        self.bounds = []  # for each command the second by which it has been told, or None
        self.command = 0

    def take(self, words, reply):
        """Takes the next command and its reply."""
        self.command += 1
        self.bounds.append(None)
        kind = reply["reply"]
        if kind == "filed":
            self.take_filed(words, reply)
        elif kind == "cancelled":
            self.close(reply["flight"], "done" if words[0] == "workdone" else "cancelled")
        elif kind == "route":
            self.take_route(words, reply)
        elif kind == "batch":
            self.take_batch(words, reply)
        elif kind == "late":
            self.take_late(words, reply)
        elif kind in ("refused", "no-route"):
            asks = words[0] in ASKS_ROUTE and reply.get("why") != "bad-line"
            self.note(words[1] if len(words) > 1 else "", kind, own_time(words), ends_of(words) if asks else None)

    def note(self, flight, tone, at, ends=None):
        """Keeps what the present command didn't get."""
        self.notes.append(Note(self.command, flight, tone, at, ends))

    def close(self, name, end):
        """The stay of a holder ends with the present command."""
        stay = self.open.pop(name, None)
        if stay is None:
            raise BadFile(f"transcript: reply {self.command} speaks of {name}, which is not in force")
        stay.closed, stay.end = self.command, end
        self.reservations.drop(name)
        return stay

    def start(self, stay, side=None):
        """A stay begins with the present command.

        SIDE says where to look for those in the way of a step that waits: AHEAD or BEHIND; steps that no search chose have none.
        """
        self.reservations.drop(stay.name)
        self.find_waits(stay, side)
        self.open[stay.name] = stay
        self.stays.append(stay)
        self.reservations.put(stay.name, stay.steps, stay.class_number)

    def bound(self, second):
        """The present command has been told by a second."""
        before = self.bounds[-1]
        self.bounds[-1] = second if before is None else min(before, second)

    def take_filed(self, words, reply):
        """A route given by hand, or a work party."""
        if words[0] == "work":
            arc = 2 * self.airport.segment_number[words[2]]
            stay = Stay(reply["flight"], "work", None, [(arc, reply["start"], reply["end"])], self.command, "work")
        else:
            outs = [int(out) for out in words[5::2]]
            enters = [int(words[3])] + outs[:-1]
            steps = list(zip(map(self.airport.arc, words[4::2]), enters, outs))
            stay = Stay(words[1], "filed", self.airport.class_number[words[2]], steps, self.command, "filed")
        self.bound(stay.begin)
        self.start(stay)

    def steps_of(self, reply):
        """The steps that a route tells, by the numbers of their arcs."""
        return [(self.airport.arc(step["arc"]), step["enter"], step["leave"]) for step in reply["steps"]]

    def take_route(self, words, reply):
        """A route for a new flight, or another one for a flight in force."""
        if words[0] in ("reroute", "divert"):
            old = self.close(words[1], words[0])
            stay = Stay(old.name, old.kind, old.class_number, self.steps_of(reply), self.command, words[0], old.request)
            self.bound(int(words[2]))
            self.start(stay, SIDE[stay.kind])
        else:
            self.serve(request_of(words), reply, words[0])

    def serve(self, request, reply, why):
        """A flight that asked for a route gets one."""
        class_number = self.airport.class_number[request.class_name]
        stay = Stay(request.flight, request.kind, class_number, self.steps_of(reply), self.command, why, request)
        self.bound(request.time if request.kind == "arrival" else stay.begin)
        self.start(stay, SIDE[request.kind])

    def take_batch(self, words, reply):
        """Several requests at once, in the order in which they were served."""
        requests = requests_of_batch(words)
        for entry in reply["entries"]:
            request = requests[entry["flight"]]
            if entry["reply"] == "route":
                self.serve(request, entry, "batch")
            else:
                self.note(request.flight, "no-route", request.time)

    def take_late(self, words, reply):
        """A moving flight stays where it is until later, and those in its way are moved, cut or dropped."""
        time, until = int(words[2]), int(words[3])
        self.bound(time)
        before = {}
        for entry in reply["entries"]:
            before[entry["flight"]] = self.close(entry["flight"], "late")
        kept = {name: self.kept_steps(stay, time, until if name == words[1] else None) for name, stay in before.items()}
        for name, steps in kept.items():
            if steps:
                self.reservations.put(name, steps, before[name].class_number)
        for entry in reply["entries"]:
            self.take_turn(before[entry["flight"]], kept[entry["flight"]], entry, words[1])

    def kept_steps(self, stay, time, until):
        """What a stay keeps at a late flight's time: the steps that it has entered. Those of the late flight last until UNTIL."""
        if stay.kind == "work" or stay.begin > time:
            return []
        steps = [step for step in stay.steps if step[1] <= time]
        arc, enter, _ = steps[-1]
        leave = max(time, enter + self.airport.least(arc // 2, stay.class_number)) if until is None else until
        return steps[:-1] + [(arc, enter, leave)]

    def take_turn(self, old, kept, entry, late):
        """One entry of a late flight's reply: a new route, or what the holder had entered, or nothing."""
        why = "late" if old.name == late else f"moved for {late}"
        if entry["reply"] == "route":
            begun = bool(kept) and old.kind == "departure"
            kind, request = ("filed", None) if begun else (old.kind, old.request)
            stay = Stay(old.name, kind, old.class_number, self.steps_of(entry), self.command, why, request)
            self.start(stay, AHEAD if begun else SIDE[kind])
            return
        self.note(old.name, entry["reply"], old.begin)
        if kept:
            self.start(Stay(old.name, "filed", old.class_number, kept, self.command, why))
        else:
            old.end = entry["reply"]

    def find_waits(self, stay, side):
        """Where a stay takes longer than it must, and who was in the way when it waited."""
        if stay.kind == "work":
            return
        for at, (arc, enter, leave) in enumerate(stay.steps):
            wait = leave - enter - self.airport.least(arc // 2, stay.class_number)
            if wait > 0:
                stay.waits.append((at, wait, self.holder_at(stay, at, side)))
        if stay.request is not None:
            self.find_held(stay)

    def holder_at(self, stay, at, side):
        """Who was in the way of a step that waits, or None."""
        steps = stay.steps
        if side == AHEAD and at + 1 < len(steps):
            return self.reservations.in_the_way(steps[at + 1][0] // 2, steps[at][2] - 1)
        if side == BEHIND and at > 0:
            arc, _, leave = steps[at - 1]
            return self.reservations.in_the_way(arc // 2, self.reservations.end_of(leave, stay.class_number))
        return None

    def find_held(self, stay):
        """For how long an arrival waits before its first segment, or a departure is early at its runway node, and for whom."""
        if stay.request.kind == "arrival" and stay.begin > stay.request.time:
            holder = self.reservations.in_the_way(stay.steps[0][0] // 2, stay.begin - 1)
            stay.held = (stay.begin - stay.request.time, holder)
        elif stay.request.kind == "departure" and stay.finish < stay.request.time:
            end = self.reservations.end_of(stay.finish, stay.class_number)
            holder = self.reservations.in_the_way(stay.steps[-1][0] // 2, end)
            stay.held = (stay.request.time - stay.finish, holder)


def replay(airport, commands, replies):
    """The replay of all commands. Replies that don't belong to the commands are a `BadFile`."""
    if len(commands) != len(replies):
        raise BadFile(f"transcript: {len(replies)} replies to {len(commands)} commands")
    run = Replay(airport)
    for command, reply in zip(commands, replies):
        try:
            run.take(command.words, reply)
        except (KeyError, IndexError, ValueError) as fault:
            raise BadFile(f"transcript: reply {run.command} does not belong to line {command.line}") from fault
    return run


def end_of_day(run):
    """The second at which nothing is held any more, by any version of any holder."""
    return max((run.reservations.end_of(stay.finish, stay.class_number) for stay in run.stays), default=0)


def told_times(run):
    """The second at which each command counts as told: as late as it can have been.

    A command is told before what it asks for begins, and before the commands after it. One that nothing bounds is told at
    the end of the day.
    """
    second, told = end_of_day(run), []
    for bound in reversed(run.bounds):
        second = second if bound is None else min(second, bound)
        told.append(second)
    return told[::-1]
