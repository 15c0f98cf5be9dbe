"""Writes the airport file, the map and the list of runways."""
import json

from ground_network.names import name_of
from ground_network.naming import Namer
from ground_network.plane import gap, lines_cross
from ground_network.problem import NOTHING_TO_MAKE, Problem

MOST_NODES = MOST_SEGMENTS = MOST_SETS = 10_000
MOST_FORBIDS = 50_000
MOST_BYTES = 4_194_304
MOST_SECONDS = 3_600
PUSHBACK = "-PUSH"


class Airport:
    """All that the files say. `turns` are pairs of arcs of the network, `sets` are lists of numbers of pieces, `pushback` the
    seconds by which departures take longer at their stand, or 0."""

    def __init__(self, pieces, classes, turns, sets, pushback=0):
        self.pieces, self.classes, self.turns, self.sets, self.pushback = pieces, classes, turns, sets, pushback
        self.slow = slow_pieces(pieces)
        namer = Namer(pieces)
        namer.name_all()
        self.order, self.names = namer.order, namer.nodes

    def name(self, node):
        """The name of a node."""
        return self.names[node]

    def seconds(self, piece):
        """The seconds of each class that may use a piece, by its name."""
        allowed = [aircraft_class for aircraft_class in self.classes if aircraft_class.name in piece.classes]
        found = {aircraft_class.name: aircraft_class.seconds_on(piece.metres, piece.is_lead) for aircraft_class in allowed}
        if self.pushback:
            more = self.pushback if id(piece) in self.slow else 0
            found |= {self.pushback_name(aircraft_class): found[aircraft_class.name] + more for aircraft_class in allowed}
        return found

    def pushback_name(self, aircraft_class):
        """The name of the class of departures that goes with a class."""
        return aircraft_class.name + PUSHBACK

    def class_names(self):
        """The names of all classes, and their clearances."""
        told = [(aircraft_class.name, aircraft_class.clearance) for aircraft_class in self.classes]
        more = [(self.pushback_name(aircraft_class), aircraft_class.clearance) for aircraft_class in self.classes]
        return told + more if self.pushback else told

    def direction(self, piece):
        """The word for the directions of a piece."""
        return "both" if self.pieces.network.edges[piece.key].two_way else "one"

    def arc_word(self, arc, is_last):
        """The word of an arc at one end of an edge: its last piece, or its first, in the arc's direction."""
        key, back = arc
        numbers = self.pieces.of_edge[key]
        number = numbers[0] if bool(back) == is_last else numbers[-1]
        return self.pieces.all[number].name + ("-" if back else "+")


def rows(airport, version, horizon):
    """The records of the airport file, in the order of its canonical text."""
    yield f"taxi-airport,{version}"
    yield f"horizon,{horizon}"
    for node in airport.order:
        yield f"node,{airport.name(node)},{airport.pieces.nodes[node].kind}"
    for name, _ in airport.class_names():
        yield f"class,{name}"
    for piece in airport.pieces.all:
        yield f"segment,{piece.name},{airport.name(piece.first)},{airport.name(piece.second)},{airport.direction(piece)}"
    for piece in airport.pieces.all:
        yield from seconds_rows(airport, piece)
    for name, clearance in airport.class_names():
        if version == 2 and clearance:
            yield f"clearance,{name},{clearance}"
    yield from turn_rows(airport)
    for members in airport.sets:
        yield "conflict," + ",".join(airport.pieces.all[number].name for number in members)


def seconds_rows(airport, piece):
    """The times of a segment. One that is longer than the airport file takes ends the run."""
    for name, seconds in airport.seconds(piece).items():
        if seconds > MOST_SECONDS:
            long = f"segment {piece.name}, {piece.metres:.0f} m, takes class {name} {seconds} s"
            raise Problem(NOTHING_TO_MAKE, f"{long}; the most is {MOST_SECONDS}")
        yield f"seconds,{piece.name},{name},{seconds}"


def turn_rows(airport):
    """The forbidden turns, by the places of their segments in the file."""
    numbers = {piece.name: number for number, piece in enumerate(airport.pieces.all)}
    pairs = [(airport.arc_word(a, True), airport.arc_word(b, False)) for a, b in airport.turns]
    for first, second in sorted(pairs, key=lambda pair: [(numbers[word[:-1]], word[-1] == "-") for word in pair]):
        yield f"forbid,{first},{second}"


def slow_pieces(pieces):
    """What a departure uses for its pushback: the pieces at stands, and those before them."""
    found, inner = set(), set()
    for piece in pieces.all:
        if piece.stand >= 0:
            found.add(id(piece))
            inner.add((piece.key, piece.first if piece.second == piece.stand else piece.second))
    return found | {id(piece) for piece in pieces.all if {(piece.key, piece.first), (piece.key, piece.second)} & inner}


def runways_of(airport, runways, projection):
    """What is known of each runway: its name, width and ends, the segments along it, and those that reach onto its pavement."""
    pieces = airport.pieces
    for runway in runways:
        along = sorted((piece for piece in pieces.all if pieces.runway(piece) is runway), key=pieces.along_runway)
        along = [piece.name for piece in along]
        reach = [piece.name for piece in pieces.all if pieces.runway(piece) is not runway and is_on(pieces.points(piece), runway)]
        ends = [projection.to_globe(point) for point in (runway.start, runway.end)]
        places = [[round(longitude, 7), round(latitude, 7)] for latitude, longitude in ends]
        yield {"name": runway.name, "width": runway.width, "ends": places, "segments": along, "crossings": reach}


def is_on(line, runway):
    """Whether a line reaches onto the pavement of a runway."""
    return lines_cross(*line, runway.start, runway.end) or gap(*line, runway.start, runway.end) < runway.width / 2


def runways_text(airport, runways, projection):
    """The list of runways as JSON, one a line of the file."""
    lines = [json.dumps(told, ensure_ascii=True) for told in runways_of(airport, runways, projection)]
    return '{"runways": [\n' + ",\n".join(lines) + "\n]}\n"


def feature(geometry, points, projection, properties):
    """A line of the map: a LineString through some points of the plane, or a Point at the first of them."""
    globe = [projection.to_globe(point) for point in points]
    places = [[round(longitude, 7), round(latitude, 7)] for latitude, longitude in globe]
    shape = {"type": geometry, "coordinates": places if geometry == "LineString" else places[0]}
    return json.dumps({"type": "Feature", "properties": properties, "geometry": shape}, ensure_ascii=True)


def runway_features(airport, runways, projection):
    """A line of the map for each runway, drawn beneath all else."""
    told = runways_of(airport, runways, projection)
    for runway, known in zip(runways, told):
        properties = {"name": known["name"], "kind": "runway", "width": known["width"], "segments": known["segments"]}
        yield feature("LineString", [runway.start, runway.end], projection, properties | {"crossings": known["crossings"]})


def map_text(airport, runways, projection):
    """The map, in GeoJSON: a line for each runway and each segment and a point for each node, one a line of the file."""
    features = list(runway_features(airport, runways, projection))
    for piece in airport.pieces.all:
        told = {"name": piece.name, "kind": "segment", "from": airport.name(piece.first), "to": airport.name(piece.second)}
        told |= {"direction": airport.direction(piece), "metres": round(piece.metres, 1), "seconds": airport.seconds(piece)}
        edge, runway = airport.pieces.network.edges[piece.key], airport.pieces.runway(piece)
        told |= {"taxiway": edge.name} if name_of(edge.name) else {}
        told |= {"runway": runway.name} if runway else {}
        features.append(feature("LineString", airport.pieces.points(piece), projection, told))
    for node in airport.order:
        place = airport.pieces.nodes[node]
        told = {"name": airport.name(node), "kind": place.kind, "source": place.origin}
        features.append(feature("Point", [place.point], projection, told))
    return '{"type": "FeatureCollection", "features": [\n' + ",\n".join(features) + "\n]}\n"
