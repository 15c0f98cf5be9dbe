"""The airport file, as far as the scripts need it. The router judges the file; this reads one that it accepts."""
import csv
import io
from dataclasses import dataclass, field


class BadFile(Exception):
    """A file that cannot be read as what it should be; its text says which and why."""


@dataclass
class Segment:
    """A piece of taxiway from the node numbered `tail` to the node numbered `head`."""

    name: str
    tail: int
    head: int
    one_way: bool


@dataclass
class Airport:
    """Nodes, classes and segments are numbered in file order, each from 0."""

    horizon: int = 0
    nodes: list = field(default_factory=list)  # (name, kind)
    classes: list = field(default_factory=list)  # names
    segments: list = field(default_factory=list)
    seconds: dict = field(default_factory=dict)  # (segment, class) -> least seconds
    clearance: dict = field(default_factory=dict)  # class -> seconds
    forbidden: set = field(default_factory=set)  # pairs of arc words
    conflicts: list = field(default_factory=list)  # lists of segment numbers
    segment_number: dict = field(default_factory=dict)
    class_number: dict = field(default_factory=dict)
    node_number: dict = field(default_factory=dict)

    def of_kind(self, kind):
        """The names of the runway nodes, the junctions or the stands."""
        return [name for name, told in self.nodes if told == kind]

    def arc(self, word):
        """The number of an arc word: 2s along segment s, 2s + 1 against it."""
        return 2 * self.segment_number[word[:-1]] + (word[-1] == "-")

    def arc_word(self, arc):
        """The word of an arc by its number."""
        return self.segments[arc // 2].name + "+-"[arc % 2]

    def tail(self, arc):
        """The node at which an arc begins."""
        segment = self.segments[arc // 2]
        return segment.head if arc % 2 else segment.tail

    def head(self, arc):
        """The node at which an arc ends."""
        return self.tail(arc ^ 1)

    def head_name(self, arc):
        """The name of the node at which an arc ends."""
        return self.nodes[self.head(arc)][0]

    def least(self, segment, class_number):
        """The least seconds of a class on a segment."""
        return self.seconds.get((segment, class_number), 0)

    def clearance_of(self, class_number):
        """For how long a class keeps a segment shut after it has left; a work party has no class and no clearance."""
        return self.clearance.get(class_number, 0)

    def in_conflict(self):
        """For each segment the set of those that a hold of it shuts, itself among them."""
        shut = [{number} for number in range(len(self.segments))]
        for members in self.conflicts:
            for number in members:
                shut[number].update(members)
        return shut


def add_record(airport, record):
    """Takes one record after the first."""
    word, fields = record[0], record[1:]
    if word == "horizon":
        airport.horizon = int(fields[0])
    elif word == "node":
        airport.node_number[fields[0]] = len(airport.nodes)
        airport.nodes.append((fields[0], fields[1]))
    elif word == "class":
        airport.class_number[fields[0]] = len(airport.classes)
        airport.classes.append(fields[0])
    elif word == "segment":
        tail, head = airport.node_number[fields[1]], airport.node_number[fields[2]]
        airport.segment_number[fields[0]] = len(airport.segments)
        airport.segments.append(Segment(fields[0], tail, head, fields[3] == "one"))
    elif word == "seconds":
        pair = airport.segment_number[fields[0]], airport.class_number[fields[1]]
        airport.seconds[pair] = int(fields[2])
    elif word == "clearance":
        airport.clearance[airport.class_number[fields[0]]] = int(fields[1])
    elif word == "forbid":
        airport.forbidden.add(tuple(fields))
    elif word == "conflict":
        airport.conflicts.append([airport.segment_number[name] for name in fields])


def read_airport(data):
    """The airport of a file's bytes. What the router would refuse is a `BadFile`, as far as it is in the way here."""
    text = data.decode("utf-8-sig", errors="replace")
    records = [record for record in csv.reader(io.StringIO(text, newline="")) if record]
    if not records or records[0][0] != "taxi-airport":
        raise BadFile("airport: the first record is not taxi-airport")
    airport = Airport()
    for number, record in enumerate(records[1:], start=2):
        try:
            add_record(airport, record)
        except (KeyError, IndexError, ValueError) as fault:
            raise BadFile(f"airport: record {number} cannot be read") from fault
    if airport.horizon < 1:
        raise BadFile("airport: there is no horizon")
    return airport
