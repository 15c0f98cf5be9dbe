"""What is read of an airport before anything is made of it: metres in the plane, names as in the source."""
import sys
from dataclasses import dataclass, field

# How many metres an airport reaches from its origin at most.
FARTHEST = 30_000.0


def opened(path):
    """A file as a stream of bytes; - is standard input."""
    return sys.stdin.buffer if path == "-" else open(path, "rb")


def number(word, low=-FARTHEST, high=FARTHEST):
    """The number of a word, in metres where no range is told."""
    try:
        value = float(word)
    except ValueError:
        value = None
    if value is None or not low <= value <= high:
        raise ValueError(f"{word} is no number from {low:g} to {high:g}")
    return value


@dataclass
class Runway:
    """A runway by its width and the ends of its centre line."""

    name: str
    width: float
    start: tuple
    end: tuple


@dataclass
class SourceNode:
    """A node by its number in the source; `name` is what it asks to be called, where told."""

    number: str
    point: tuple
    name: str = ""


@dataclass
class SourceEdge:
    """A taxi edge between two nodes by their numbers. `size` is the widest aircraft, a letter from A to F, where told."""

    first: str
    second: str
    two_way: bool
    on_runway: bool = False
    size: str = ""
    name: str = ""


@dataclass
class Start:
    """A startup location. `kinds` and `size` are what the source says of aircraft; `classes`, where told, stands for both."""

    name: str
    point: tuple
    kinds: frozenset = frozenset()
    size: str = ""
    classes: tuple = ()


@dataclass
class Source:
    """All that is read of one airport; `title` says of which."""

    title: str
    projection: object
    runways: list = field(default_factory=list)
    nodes: list = field(default_factory=list)
    edges: list = field(default_factory=list)
    starts: list = field(default_factory=list)

    def counts(self):
        """How much there is of each, in words."""
        network = f"{len(self.runways)} runways, {len(self.nodes)} nodes, {len(self.edges)} edges"
        return f"{network}, {len(self.starts)} startup locations"
