"""What a reply says."""

from __future__ import annotations

from dataclasses import dataclass, field
from functools import cached_property
from typing import Any, Literal, NamedTuple

from .asked import Asked
from .objects import object_of


class Step(NamedTuple):
    """The aircraft holds the arc's segment from `enter` on, and no longer at `leave`."""

    arc: str
    enter: int
    leave: int


class Label(NamedTuple):
    """A row of the evidence: an arc, one free window of its segment, and the best second there."""

    arc: str
    start: int
    until: int
    value: int


class Window(NamedTuple):
    """A row of `windows`: the segment is free from `start` on, and no longer at `until`."""

    start: int
    until: int


class Held(NamedTuple):
    """A row of `occupancy`: the flight or work party holds the segment from `start` on, and no longer at `until`."""

    start: int
    until: int
    flight: str
    segment: str


class FlightRow(NamedTuple):
    """A row of `timetable`. `kind` is `filed`, `arrival` or `departure`; the route goes from `start` to `end`."""

    flight: str
    kind: str
    class_name: str
    start: int
    end: int


@dataclass(frozen=True)
class Reply:
    """The reply to one command. What it says is read from its text when asked for, and then kept: copy a list before you change it."""

    text: bytes
    asked: Asked | None = field(default=None, compare=False)

    @cached_property
    def words(self) -> list[str]:
        """The words of the first line."""
        return self.text.partition(b"\n")[0].decode().split(" ")

    @property
    def kind(self) -> str:
        """The first word: `route`, `no-route`, `filed`, `cancelled`, `batch`, `late`, `refused`, `windows`, `occupancy` or `timetable`.
        An entry may also be `dropped`."""
        return self.words[0]

    @property
    def flight(self) -> str | None:
        """The flight or work party that is routed, filed, cancelled, late or dropped."""
        return self.words[1] if self.kind in ("route", "filed", "cancelled", "late", "dropped") else None

    @property
    def second(self) -> int | None:
        """Of a route, when an arrival ends, or when a departure leaves its stand."""
        return int(self.words[2]) if self.kind == "route" else None

    @property
    def start(self) -> int | None:
        """The first second of what was filed, or of a route."""
        if self.kind == "filed":
            return int(self.words[2])
        return self.steps[0].enter if self.steps else None

    @property
    def end(self) -> int | None:
        """The first second after what was filed, or after a route."""
        if self.kind == "filed":
            return int(self.words[3])
        return self.steps[-1].leave if self.steps else None

    @property
    def node(self) -> str | None:
        """Where a route leads: for `arrival-any` and `departure-any` the node that was chosen. None if no engine gave this reply."""
        return self.asked.heads.of(self.steps[-1].arc) if self.asked and self.steps else None

    @property
    def total(self) -> int | None:
        """What the flights of a `batch` cost together."""
        return int(self.words[2]) if self.kind == "batch" else None

    @property
    def why(self) -> str | None:
        """Why a command is refused, as `step 2 taken 145 SWR103`."""
        return " ".join(self.words[1:]) if self.kind == "refused" else None

    @property
    def segment(self) -> str | None:
        """The segment that `windows` or `occupancy` was asked for."""
        return self.words[1] if self.kind in ("windows", "occupancy") else None

    @cached_property
    def rows(self) -> list[list[str]]:
        """The lines behind the first, each as a list of words."""
        return [line.decode().split(" ") for line in self.text.splitlines()[1:]]

    @cached_property
    def steps(self) -> list[Step]:
        """The steps of a route. Those of a `batch` or a `late` are in its entries."""
        return [Step(row[1], int(row[2]), int(row[3])) for row in self._rows_of("step")]

    @cached_property
    def labels(self) -> list[Label]:
        """The table of a route, or of a `no-route`. Those of a `batch` or a `late` are in its entries."""
        return [Label(row[1], int(row[2]), int(row[3]), int(row[4])) for row in self._rows_of("label")]

    @cached_property
    def windows(self) -> list[Window]:
        """The free windows that `windows` tells."""
        return [Window(int(row[1]), int(row[2])) for row in self._rows_of("window")]

    @cached_property
    def held(self) -> list[Held]:
        """The holds that `occupancy` tells."""
        return [Held(int(row[1]), int(row[2]), row[3], row[4]) for row in self._rows_of("held")]

    @cached_property
    def flights(self) -> list[FlightRow]:
        """The flights in force that `timetable` tells."""
        return [FlightRow(row[1], row[2], row[3], int(row[4]), int(row[5])) for row in self._rows_of("flight")]

    @cached_property
    def entries(self) -> list[tuple[str, Reply]]:
        """Each flight of a `batch` or a `late` in turn, with its reply: a route, a `no-route`, or `dropped FLIGHT`."""
        found: list[tuple[str, bytes]] = []
        if self.kind in ("batch", "late"):
            for line in self.text.splitlines(keepends=True)[1:]:
                word, flight = line.decode().split(" ", 1)
                if word in ("next", "dropped"):
                    found.append((flight.strip(), line if word == "dropped" else b""))
                else:
                    found[-1] = found[-1][0], found[-1][1] + line
        return [(flight, Reply(text, self.asked)) for flight, text in found]

    def as_dict(self) -> dict[str, Any]:
        """The reply as `taxi-tools json` writes it, with the keys in the same order. The keys `command`, `line` and `words` are there if an
        engine gave the reply. They are counted from the opening of that engine."""
        found = object_of(self)
        if self.asked:
            found.update(command=self.asked.command, line=self.asked.number, words=self.asked.words)
        return dict(sorted(found.items()))

    def _rows_of(self, word: str) -> list[list[str]]:
        return [row for row in self.rows if row[0] == word] if self.kind not in ("batch", "late") else []

    def __getstate__(self) -> dict[str, Any]:
        """What is pickled: the text and the line. Of the airport it is where the routes lead, and no more."""
        replies = [self, *(entry for _, entry in self.entries)]
        arcs = [reply.steps[-1].arc for reply in replies if reply.steps]
        return {"text": self.text, "asked": self.asked and self.asked.alone(arcs)}


class Comment(Reply):
    """What a line without a command gets, a comment or a blank line. It is false, and a reply to a command is true."""

    @property
    def kind(self) -> str:
        """Not the first word of a reply, as there is none: `comment`."""
        return "comment"

    def as_dict(self) -> dict[str, Any]:
        """Nothing: `taxi-tools json` writes no object for such a line."""
        return {}

    def __bool__(self) -> Literal[False]:
        return False
