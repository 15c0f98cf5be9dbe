"""Orders of a day's requests, and which of them the router answers best. Who asks first is served first."""
import random
from dataclasses import dataclass

from day_replay.commands import ASKS_ROUTE, own_time
from endings import Stopped

FIXED = ("file", "work")


@dataclass
class Parts:
    """A command file whose requests may change places: its comments, what stays ahead, and the requests in the file's order."""

    comments: list
    fixed: list
    requests: list


@dataclass(frozen=True)
class Figures:
    """What an order comes to: flights without a route, then seconds waited under way, and before or behind it."""

    order: str
    no_routes: int
    waited: int
    held: int

    @property
    def rank(self):
        """Fewer flights without a route are better, and then fewer seconds lost in all."""
        return self.no_routes, self.waited + self.held


def read_parts(data):
    """The parts of a command file. One that has commands besides requests, routes and works is `Stopped`: their place has a meaning."""
    parts = Parts([], [], [])
    for number, line in enumerate(data.decode("utf-8-sig", errors="surrogateescape").split("\n"), start=1):
        line = line.removesuffix("\r")
        if line.startswith("#"):
            parts.comments.append(line)
        elif line.strip(" \t"):
            take_line(parts, line, number)
    return parts


def take_line(parts, line, number):
    """Takes one command."""
    words = line.split(" ")
    if words[0] in FIXED:
        parts.fixed.append(line)
    elif words[0] in ASKS_ROUTE:
        if own_time(words) is None:
            raise Stopped(f"line {number} is none of the forms: {line}")
        parts.requests.append(line)
    else:
        raise Stopped(f"line {number} begins with {words[0]!r}; only arrivals, departures, filed routes and works can change places")


def class_of(line):
    """The class of a request."""
    return line.split(" ")[2]


def time_of(line):
    """The second for which a request asks."""
    return own_time(line.split(" "))


def orders(parts, classes, tries, seed):
    """Each order to be tried, as its name and its requests. CLASSES are those of the airport in their order."""
    lines = parts.requests
    yield "as given", lines
    yield "by time", sorted(lines, key=time_of)
    yield "by time, the last first", sorted(lines, key=time_of, reverse=True)
    for kind in ("arrivals", "departures"):
        yield f"{kind} first, then by time", sorted(lines, key=lambda line: (not line.startswith(kind[:-1]), time_of(line)))
    rank = {name: number for number, name in enumerate(classes)}
    for name, sign in (("by class", 1), ("by class, the last class first", -1)):
        yield f"{name}, then by time", sorted(lines, key=lambda line: (sign * rank.get(class_of(line), 0), time_of(line)))
    draw = random.Random(seed)
    for number in range(1, tries + 1):
        yield f"random {number} of seed {seed}", draw.sample(lines, len(lines))


def text_of(parts, requests, head):
    """A command file: a head, the comments, what stays ahead, and the requests."""
    return "\n".join([head, *parts.comments, *parts.fixed, *requests, ""])


def figures_of(order, lines):
    """The figures of an order from the lines of `taxi-tools figures`."""
    counts = [line.rsplit(" ", 1) for line in lines]

    def total(*words):
        return sum(int(number) for name, number in counts if name.startswith(words))

    return Figures(order, total("reply no-route"), total("waited "), total("held ", "early "))
