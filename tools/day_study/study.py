"""A study: what is drawn and routed, the plan's own stand times, and the run of one of its days."""
import hashlib
import json
import os
from collections import Counter
from dataclasses import dataclass, field
from functools import cached_property

from day_replay.airport import BadFile, read_airport
from day_replay.transcript import read_replies
from day_study.drawing import day_of
from day_study.plan import read_plan
from day_study.problem import DayFailed, Refused
from day_study.rows import Passes, Totals, flight_row, outcomes, text_of
from day_study.routing import Desk, Router


@dataclass(frozen=True)
class Study:
    """All that decides the bytes of a study."""

    airport_data: bytes
    plan_data: bytes
    days: int
    seed: int
    limit: int
    order: str
    router: Router
    delays: tuple = ()
    closures: tuple = ()
    title: str = ""

    @cached_property
    def airport(self):
        """The airport."""
        return read_airport(self.airport_data)

    @cached_property
    def plan(self):
        """The plan."""
        return read_plan(self.plan_data)

    def day(self, number):
        """A day of the study; day 0 is the plan."""
        return day_of(self.plan, self, number, self.airport.horizon)

    def settings(self):
        """What decides the bytes, as one JSON value; files by their digests."""
        return {
            "airport": hashlib.sha256(self.airport_data).hexdigest(),
            "plan": hashlib.sha256(self.plan_data).hexdigest(),
            "title": self.title,
            "days": self.days,
            "seed": self.seed,
            "limit": self.limit,
            "order": self.order,
            "own": os.path.basename(self.router.own),
            "check": self.router.check,
            "delays": [rule.text for rule in self.delays],
            "closures": [[it.segment, it.begin, it.until, it.share] for it in self.closures],
        }


@dataclass(frozen=True)
class DayRows:
    """The rows of a day as bytes, and why it failed with the files that are kept, if it did."""

    day: int
    flights: bytes
    segments: bytes
    row: bytes
    failure: DayFailed = None


@dataclass
class Bench:
    """A study and a place to run its days, with what is known of the plan: each flight alone, and the plan's stand seconds."""

    study: Study
    desk: Desk
    alone: list = field(default_factory=list)  # for each request its seconds with nobody else about, or None
    planned: list = field(default_factory=list)  # for each request its stand's second in the plan, or None

    def find_alone(self):
        """Has each request routed with nobody else about; those of one way take as long."""
        horizon = self.study.airport.horizon
        ways = {ask.way: ask for ask in self.study.plan.asks}
        lines = [line for ask in ways.values() for line in alone_lines(ask, horizon)]
        replies = read_replies(self.desk.transcript("".join(f"{line}\n" for line in lines).encode()))
        seconds = {way: alone_seconds(ask, reply, horizon) for (way, ask), reply in zip(ways.items(), replies[::2])}
        self.alone = [seconds[ask.way] for ask in self.study.plan.asks]

    def find_planned(self):
        """Has the plan itself routed, and keeps its stand seconds."""
        flights, _ = self.flights_of(self.study.day(0))
        self.planned = [flight.stand_second if flight.steps else None for flight in flights]

    def flights_of(self, day):
        """What became of each request of the plan on a day, and what was routed."""
        routed = self.desk.routed(day.text)
        try:
            found = outcomes(self.study.airport, self.study.plan.asks, routed, bool(self.study.router.own))
        except BadFile as fault:
            raise DayFailed(str(fault), {"commands.txt": routed[0], "transcript.txt": routed[1]}) from fault
        planned = self.planned or [None] * len(self.alone)
        facts = zip(self.study.plan.asks, day.times, self.alone, planned)
        return [found.flight(*fact) for fact in facts], routed

    def run(self, number):
        """The rows of a day. A day that fails has one row alone, which says so."""
        day = self.study.day(number)
        try:
            flights, _ = self.flights_of(day)
        except (DayFailed, Refused) as fault:
            failure = fault if isinstance(fault, DayFailed) else DayFailed(str(fault), {"commands.txt": day.text})
            row = text_of([number, "failed", len(day.times), *[""] * 11, day.closed])
            return DayRows(number, b"", b"", row.encode(), failure)
        return self.rows_of(day, flights)

    def rows_of(self, day, flights):
        """The rows of a day that was routed."""
        airport = self.study.airport
        passes, totals, lines = Passes(airport), Totals(self.study.limit, Counter()), []
        for flight in flights:
            row = flight_row(day.number, flight, passes.take(flight) if flight.steps else 0, airport)
            totals.take(flight, row)
            lines.append(text_of(row))
        row = text_of(totals.row(day, len(flights)))
        return DayRows(day.number, "".join(lines).encode(), passes.text(day.number).encode(), row.encode())

    def knowledge(self):
        """What other workers need not find again."""
        return json.dumps([self.alone, self.planned])

    def learn(self, knowledge):
        """Takes what another has found."""
        self.alone, self.planned = json.loads(knowledge)


def alone_lines(ask, horizon):
    """Two lines that route a request on an empty airport and take it out again."""
    words = list(ask.moved(0 if ask.request.kind == "arrival" else horizon))
    words[1], words[ask.at + 1] = "ALONE", "0"
    return " ".join(words), "cancel ALONE"


def alone_seconds(ask, reply, horizon):
    """What a request costs by the reply to the first of these lines, or None."""
    if reply["reply"] != "route":
        return None
    return reply["second"] if ask.request.kind == "arrival" else horizon - reply["second"]
