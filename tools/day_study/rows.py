"""The rows of one day: one for each flight, one for each segment that flights passed, and one for the day."""
from collections import defaultdict
from dataclasses import dataclass
from typing import Optional

from day_replay.airport import BadFile
from day_replay.commands import ASKS_ROUTE, read_commands
from day_replay.replay import Replay
from day_replay.transcript import read_replies

FLIGHT = "day,flight,kind,class,from,to,time,offset,answer,begin,end,taxi,wait,held,delay,shift,knock_on"
SEGMENT = "day,segment,passes,seconds,wait,waited_for,waiting"
DAY = "day,outcome,flights,served,no_route,refused,other,taxi,wait,held,delay,longest_delay,kept,steady,closed"


class Steps(Replay):
    """A replay that keeps the steps of each version of a flight, and not who was in its way."""

    def start(self, stay, side=None):
        """A stay begins with the present command."""
        self.open[stay.name] = stay
        self.stays.append(stay)


@dataclass
class Flight:
    """What became of one request on a day. The stand's second is its end for an arrival, its begin for a departure."""

    ask: object
    time: int
    answer: str
    steps: list
    class_number: Optional[int] = None
    alone: Optional[int] = None
    planned: Optional[int] = None

    @property
    def is_arrival(self):
        """Whether it arrives."""
        return self.ask.request.kind == "arrival"

    @property
    def begin(self):
        """The first second of its first step."""
        return self.steps[0][1]

    @property
    def end(self):
        """When it leaves its last step."""
        return self.steps[-1][2]

    @property
    def stand_second(self):
        """When it is at its stand, or leaves it."""
        return self.end if self.is_arrival else self.begin

    @property
    def offset(self):
        """By how much its TIME was moved."""
        return self.time - self.ask.request.time

    @property
    def held(self):
        """How long an arrival waits before its first segment, or how early a departure is at its runway node."""
        return self.begin - self.time if self.is_arrival else self.time - self.end

    @property
    def cost(self):
        """The seconds from the TIME of an arrival to its stand, or from a departure's stand to its TIME."""
        return self.end - self.time if self.is_arrival else self.time - self.begin

    @property
    def delay(self):
        """How much more it costs than alone."""
        return self.cost - self.alone

    @property
    def shift(self):
        """By how much its stand's second is later than in the plan."""
        return None if self.planned is None else self.stand_second - self.planned

    @property
    def knock_on(self):
        """The part of the shift that its own offset doesn't make."""
        return None if self.planned is None else self.shift - self.offset


def is_as_asked(airport, ask, time, stay):
    """Whether a route that was given by hand is one that the request permits."""
    request, (first, begin, _), (last, _, end) = ask.request, stay.steps[0], stay.steps[-1]
    if airport.nodes[airport.tail(first)][0] not in ask.sources or airport.head_name(last) not in ask.targets:
        return False
    if airport.classes[stay.class_number] != request.class_name:
        return False
    if request.kind == "arrival":
        return time <= begin <= time + request.limit
    return time - request.limit <= end <= time


class Outcomes:
    """What became of each request, found from the commands and the replies."""

    def __init__(self, airport, asks, by_hand):
        self.airport = airport
        self.asking = (*ASKS_ROUTE, "file") if by_hand else ASKS_ROUTE
        self.by_name = defaultdict(list)
        for ask in asks:
            self.by_name[ask.request.flight].append(ask.number)
        self.answers = {}  # number of the request -> answer
        self.stays = {}  # number of the request -> its last stay
        self.present = {}  # flight -> number of its request

    def next_of(self, name):
        """The number of the next request of a flight, or None."""
        left = self.by_name.get(name)
        if not left:
            return None
        self.present[name] = left.pop(0)
        return self.present[name]

    def take(self, run, command, reply):
        """Takes the next command with its reply, and the stays that it opened."""
        before = len(run.stays)
        run.take(command.words, reply)
        word = command.words[0]
        if word in self.asking:
            self.answer(command.words[1], reply["reply"])
        elif word == "batch" and reply["reply"] == "batch":
            for entry in reply["entries"]:
                self.answer(entry["flight"], entry["reply"])
        elif word == "batch":
            for name in command.words[2::7]:
                self.answer(name, reply["reply"])
        elif word == "late" and reply["reply"] == "late":
            self.dropped(reply["entries"])
        for stay in run.stays[before:]:
            if stay.name in self.present:
                self.stays[self.present[stay.name]] = stay

    def answer(self, name, answer):
        """The answer to a flight's next request."""
        number = self.next_of(name)
        if number is not None:
            self.answers[number] = answer

    def dropped(self, entries):
        """Some of those in a late flight's way get no other route."""
        for entry in entries:
            number = self.present.get(entry["flight"])
            if number is not None and entry["reply"] != "route":
                self.answers[number] = entry["reply"]

    def flight(self, ask, time, alone, planned):
        """What became of a request."""
        stay, answer = self.stays.get(ask.number), self.answers.get(ask.number, "missing")
        if stay is None or answer not in ("route", "filed"):
            return Flight(ask, time, answer, [])
        if alone is None or answer == "filed" and not is_as_asked(self.airport, ask, time, stay):
            return Flight(ask, time, "not-as-asked", [])
        return Flight(ask, time, answer, stay.steps, stay.class_number, alone, planned)


def outcomes(airport, asks, routed, by_hand):
    """What became of each request of a day, by the lines that were routed and the transcript. BY_HAND says that `file` lines answer."""
    lines, transcript = routed
    commands, replies = read_commands(lines), read_replies(transcript)
    if len(commands) != len(replies):
        raise BadFile(f"transcript: {len(replies)} replies to {len(commands)} commands")
    found, run = Outcomes(airport, asks, by_hand), Steps(airport)
    for command, reply in zip(commands, replies):
        try:
            found.take(run, command, reply)
        except (KeyError, IndexError, ValueError) as fault:
            raise BadFile(f"transcript: reply {run.command} does not belong to line {command.line}") from fault
    return found


class Passes:
    """What flights did on each segment: how many passed, for how long, how long they waited there, and for it."""

    def __init__(self, airport):
        self.airport = airport
        self.rows = defaultdict(lambda: [0, 0, 0, 0, 0])

    def take(self, flight):
        """Adds the steps of a flight, and gives its least seconds. A wait is for the next step's segment; that of a departure, which
        is routed from its end, for the segment of the step before."""
        steps, ahead, total = flight.steps, 1 if flight.is_arrival else -1, 0
        for at, (arc, enter, leave) in enumerate(steps):
            least = self.airport.least(arc // 2, flight.class_number)
            total += least
            row = self.rows[arc // 2]
            row[0] += 1
            row[1] += leave - enter
            wait = leave - enter - least
            if wait > 0:
                row[2] += wait
                if 0 <= at + ahead < len(steps):
                    self.wait_for(steps[at + ahead][0] // 2, wait)
        if flight.held > 0:
            self.wait_for(steps[0 if flight.is_arrival else -1][0] // 2, flight.held)
        return total

    def wait_for(self, segment, seconds):
        """A flight waits for a segment."""
        row = self.rows[segment]
        row[3] += seconds
        row[4] += 1

    def text(self, day):
        """The rows, in the order of the airport file."""
        lines = [(day, self.airport.segments[number].name, *row) for number, row in sorted(self.rows.items())]
        return "".join(",".join(map(str, line)) + "\n" for line in lines)


def flight_row(day, flight, least, airport):
    """The row of a flight; what it has not is empty."""
    ask, request = flight.ask, flight.ask.request
    sources, targets = "+".join(ask.sources), "+".join(ask.targets)
    row = [day, request.flight, request.kind, request.class_name]
    if not flight.steps:
        return row + [sources, targets, flight.time, flight.offset, flight.answer] + [""] * 8
    taxi = flight.end - flight.begin
    row += [sources, airport.head_name(flight.steps[-1][0]), flight.time, flight.offset, flight.answer]
    row += [flight.begin, flight.end, taxi, taxi - least, flight.held, flight.delay]
    return row + ["" if flight.planned is None else value for value in (flight.shift, flight.knock_on)]


@dataclass
class Totals:
    """The sums of a day. KEPT counts the flights whose stand's second is within the limit of the plan's; STEADY those of which it is
    so once their own offset is taken off."""

    limit: int
    counts: dict
    taxi: int = 0
    wait: int = 0
    held: int = 0
    delay: int = 0
    longest: int = 0
    kept: int = 0
    steady: int = 0

    def take(self, flight, row):
        """Adds a flight with its row."""
        kind = {"route": "served", "filed": "served", "no-route": "no_route", "refused": "refused"}.get(flight.answer, "other")
        self.counts[kind] += 1
        if not flight.steps:
            return
        taxi, wait, held, delay = row[11:15]
        self.taxi, self.wait, self.held, self.delay = self.taxi + taxi, self.wait + wait, self.held + held, self.delay + delay
        self.longest = max(self.longest, delay)
        if flight.planned is not None:
            self.kept += abs(flight.shift) <= self.limit
            self.steady += abs(flight.knock_on) <= self.limit

    def row(self, day, flights):
        """The row of the day."""
        counts = [self.counts[kind] for kind in ("served", "no_route", "refused", "other")]
        sums = [self.taxi, self.wait, self.held, self.delay, self.longest, self.kept, self.steady]
        return [day.number, "done", flights, *counts, *sums, day.closed]


def text_of(row):
    """A row as a line of a CSV file. No field needs a quote."""
    return ",".join(map(str, row)) + "\n"
