"""A map of an airport: GeoJSON in WGS 84, with a LineString for each segment and a Point for each node, each with its name.

Runways are LineStrings of the kind `runway`. Of a segment the map may tell on which runway it lies, and of which taxiway it is.
"""
import json
import math
from dataclasses import dataclass, field

from day_replay.airport import BadFile

METRES_PER_DEGREE = 111_195  # of a great circle on a sphere of 6,371 km
RUNWAY_WIDTH = 45  # metres, where the map tells no width


class Plane:
    """Metres east and north of a point of the airport."""

    def __init__(self, longitude, latitude):
        self.longitude, self.latitude = longitude, latitude
        self.width = METRES_PER_DEGREE * math.cos(math.radians(latitude))

    def point(self, position):
        """A position's metres to the east and to the north, to a tenth."""
        east = (position[0] - self.longitude + 180) % 360 - 180
        return round(east * self.width, 1), round((position[1] - self.latitude) * METRES_PER_DEGREE, 1)


@dataclass
class Shape:
    """A feature that has a name: its geometry, its positions, and what else is told of it."""

    geometry: str
    name: str
    positions: list
    properties: dict

    @property
    def is_runway(self):
        return self.geometry == "LineString" and self.properties.get("kind") == "runway"

    def text(self, key):
        """A property that is a text, or nothing."""
        value = self.properties.get(key)
        return value if isinstance(value, str) else ""


@dataclass
class AirportMap:
    """What is drawn, in metres: lines of segments and points of nodes by their numbers, and runways."""

    airport: object
    plane: object = None
    lines: dict = field(default_factory=dict)
    points: dict = field(default_factory=dict)
    runways: list = field(default_factory=list)
    pieces: set = field(default_factory=set)  # the segments that lie on runways
    taxiways: dict = field(default_factory=dict)  # the names of taxiways by segments
    other: int = 0  # features of no use

    def take(self, shape):
        """Takes a shape, unless it is of no use."""
        numbers = self.airport.node_number if shape.geometry == "Point" else self.airport.segment_number
        if not shape.is_runway and shape.name not in numbers:
            self.other += 1
            return
        self.plane = self.plane or Plane(*shape.positions[0][:2])
        places = [self.plane.point(position) for position in shape.positions]
        if shape.is_runway:
            self.take_runway(shape, places)
        elif shape.geometry == "Point":
            self.points[numbers[shape.name]] = places[0]
        else:
            self.take_segment(numbers[shape.name], shape, places)

    def take_runway(self, shape, places):
        """A runway: its line, its width if that is told, and the segments on it."""
        width = shape.properties.get("width")
        known = isinstance(width, (int, float)) and math.isfinite(width) and 0 < width <= 500
        self.runways.append({"name": shape.name, "width": width if known else RUNWAY_WIDTH, "line": flat(places)})
        named = shape.properties.get("segments")
        names = [name for name in named if isinstance(name, str)] if isinstance(named, list) else []
        self.pieces.update(self.airport.segment_number[name] for name in names if name in self.airport.segment_number)

    def take_segment(self, number, shape, places):
        """A segment: its line, and what runway or taxiway it is of."""
        self.lines[number] = places
        if shape.text("runway"):
            self.pieces.add(number)
        if shape.text("taxiway"):
            self.taxiways[number] = shape.text("taxiway")


def is_position(position):
    """Whether something is a longitude and a latitude."""
    return (
        isinstance(position, list)
        and len(position) >= 2
        and all(isinstance(number, (int, float)) and math.isfinite(number) for number in position[:2])
        and abs(position[0]) <= 360
        and abs(position[1]) < 90
    )


def shapes_of(document):
    """The shapes among the features, and how many features are none."""
    features = document.get("features") if isinstance(document, dict) else None
    if not isinstance(features, list):
        raise BadFile("map: it has no list of features, so it is no GeoJSON map")
    shapes = [shape for shape in map(shape_of, features) if shape is not None]
    return shapes, len(features) - len(shapes)


def shape_of(feature):
    """A feature that has a name and is a LineString or a Point, or None."""
    try:
        properties, geometry = feature["properties"], feature["geometry"]["type"]
        name, positions = properties["name"], feature["geometry"]["coordinates"]
    except (KeyError, TypeError):
        return None
    positions = [positions] if geometry == "Point" else positions
    if not isinstance(name, str) or geometry not in ("Point", "LineString") or not isinstance(positions, list):
        return None
    if len(positions) < (2 if geometry == "LineString" else 1) or not all(map(is_position, positions)):
        return None
    return Shape(geometry, name, positions, properties)


def read_map(data, airport):
    """The map as the page has it: lines and points by the numbers of segments and nodes, runways, and what has no place."""
    try:
        document = json.loads(data.decode("utf-8-sig"))
    except (ValueError, RecursionError) as fault:
        raise BadFile(f"map: it cannot be read as JSON ({fault})") from fault
    shapes, other = shapes_of(document)
    drawn = AirportMap(airport, other=other)
    for shape in shapes:
        drawn.take(shape)
    if not drawn.lines:
        raise BadFile("map: it draws no segment of this airport")
    forward = {number: along(airport.segments[number], line, drawn.points) for number, line in drawn.lines.items()}
    return {
        "lines": [[number, flat(line)] for number, line in sorted(forward.items())],
        "points": [[number, *place] for number, place in sorted(drawn.points.items())],
        "runways": drawn.runways,
        "runwayPieces": sorted(drawn.pieces),
        "taxiways": sorted(drawn.taxiways.items()),
        "missing": len(airport.segments) - len(drawn.lines),
        "other": drawn.other,
    }


def along(segment, line, nodes):
    """A segment's line from its first node to its second, whichever way it was drawn."""
    tail, head = nodes.get(segment.tail), nodes.get(segment.head)
    if tail is None or head is None:
        return line
    as_drawn = math.dist(line[0], tail) + math.dist(line[-1], head)
    turned = math.dist(line[-1], tail) + math.dist(line[0], head)
    return line[::-1] if turned < as_drawn else line


def flat(line):
    """The numbers of a line, one after the other."""
    return [number for point in line for number in point]
