"""Reads a drawing of an airport: a small table with places in metres.

    taxi-drawing,1
    origin,47.25,8.5                     where the place 0,0 lies, by degrees of WGS 84; may be left out
    runway,09/27,45,0,0,2400,0           its name, its width, and its ends, each by x and y
    node,A1,100,-180                     its name, x (to the east) and y (to the north)
    taxiway,A,both,A1,A2,A3              its name, both or one, and the nodes that it goes through
    stand,G1,120,-260,M/H                its name, x and y, and the classes that may use it, or all

Lines that are blank or begin with # say nothing. A thing is named only after the line that gives it.
"""
from ground_network.names import is_name
from ground_network.plane import Projection
from ground_network.problem import NOTHING_TO_MAKE, UNREADABLE, Problem
from ground_network.source import Runway, Source, SourceEdge, SourceNode, Start, number

FIRST = b"taxi-drawing,"
# How many fields each line has behind its word, at least and at most.
COUNTS = {"origin": (2, 2), "runway": (6, 6), "node": (3, 3), "taxiway": (4, 1000), "stand": (4, 4)}


class Reader:
    """Takes the lines of a drawing. The first that is wrong ends the run: a drawing is corrected by who made it."""

    def __init__(self, title):
        self.source = Source(title, Projection(0.0, 0.0))
        self.nodes, self.stands = set(), set()

    def take(self, fields):
        """Takes the fields of one line by the method that is called as its word."""
        word, fields = fields[0], fields[1:]
        if word not in COUNTS:
            raise ValueError(f"{word} is none of {', '.join(COUNTS)}")
        least, most = COUNTS[word]
        if not least <= len(fields) <= most:
            raise ValueError(f"behind {word} it has {len(fields)} fields, not {least}" + (" or more" if most > least else ""))
        getattr(self, word)(*fields)

    def new_name(self, name):
        """A name that was not given before."""
        if not is_name(name):
            raise ValueError(f"{name} is no name: 1 to 16 letters, digits and _ - / .")
        if name in self.nodes or name in self.stands:
            raise ValueError(f"{name} was given before")
        return name

    def origin(self, latitude, longitude):
        self.source.projection = Projection(number(latitude, -89, 89), number(longitude, -180, 180))

    def runway(self, name, width, x, y, end_x, end_y):
        start, end = (number(x), number(y)), (number(end_x), number(end_y))
        self.source.runways.append(Runway(name, number(width, 1, 500), start, end))

    def node(self, name, x, y):
        self.source.nodes.append(SourceNode(self.new_name(name), (number(x), number(y)), name))
        self.nodes.add(name)

    def taxiway(self, name, direction, *nodes):
        if direction not in ("both", "one"):
            raise ValueError(f"{direction} is neither both nor one")
        for node in nodes:
            if node not in self.nodes:
                raise ValueError(f"{node} is no node that was given before")
        for first, second in zip(nodes, nodes[1:]):
            self.source.edges.append(SourceEdge(first, second, direction == "both", name=name))

    def stand(self, name, x, y, classes):
        told = () if classes == "all" else tuple(classes.split("/"))
        self.source.starts.append(Start(self.new_name(name), (number(x), number(y)), classes=told))
        self.stands.add(name)


def read_drawing(path, data, report):
    """What a drawing says of its airport."""
    try:
        lines = data.decode("utf-8-sig").splitlines()
    except UnicodeDecodeError as error:
        raise Problem(UNREADABLE, f"{path} isn't text in UTF-8") from error
    reader = Reader(f"the drawing {path.rsplit('/', 1)[-1]}")
    for place, line in enumerate(lines, 1):
        if place == 1 and line.strip() != "taxi-drawing,1":
            raise Problem(NOTHING_TO_MAKE, f"{path}, line 1: it is to be taxi-drawing,1")
        if place == 1 or not line.strip() or line.startswith("#"):
            continue
        try:
            reader.take([field.strip() for field in line.split(",")])
        except ValueError as error:
            raise Problem(NOTHING_TO_MAKE, f"{path}, line {place}: {error}") from error
    report.say(f"taken, from {reader.source.title}: {reader.source.counts()}")
    return reader.source
