"""Plane geometry in metres, and the way from degrees to metres and back.

A point is a pair (x, y), x to the east and y to the north. A line is two points.
"""
import math

EQUATOR_RADIUS = 6378137.0
ECCENTRICITY_SQUARED = 0.00669437999014


def metres_per_degree(latitude):
    """The metres of a degree of latitude and of a degree of longitude, on the ellipsoid of WGS 84."""
    radians = math.radians(latitude)
    bulge = 1 - ECCENTRICITY_SQUARED * math.sin(radians) ** 2
    north = EQUATOR_RADIUS * (1 - ECCENTRICITY_SQUARED) / bulge ** 1.5
    east = EQUATOR_RADIUS / math.sqrt(bulge) * math.cos(radians)
    return math.radians(north), math.radians(max(east, 1.0))


class Projection:
    """The plane that touches the earth at an origin. It is good for an airport, not for a country."""

    def __init__(self, latitude, longitude):
        self.latitude, self.longitude = latitude, longitude
        self.north, self.east = metres_per_degree(latitude)

    def to_plane(self, latitude, longitude):
        """The point of the plane at a latitude and a longitude."""
        turned = (longitude - self.longitude + 180) % 360 - 180
        return (turned * self.east, (latitude - self.latitude) * self.north)

    def to_globe(self, point):
        """The latitude and the longitude of a point."""
        longitude = self.longitude + point[0] / self.east
        return self.latitude + point[1] / self.north, (longitude + 180) % 360 - 180


def distance(p, q):
    """The metres from a point to another."""
    return math.hypot(q[0] - p[0], q[1] - p[1])


def between(p, q, part):
    """The point at a part of the way from p to q, 0 being p and 1 being q."""
    return (p[0] + (q[0] - p[0]) * part, p[1] + (q[1] - p[1]) * part)


def nearest_part(point, p, q):
    """The part of the way from p to q at which the line comes nearest to a point."""
    dx, dy = q[0] - p[0], q[1] - p[1]
    square = dx * dx + dy * dy
    if square == 0:
        return 0.0
    part = ((point[0] - p[0]) * dx + (point[1] - p[1]) * dy) / square
    return min(1.0, max(0.0, part))


def distance_to_line(point, p, q):
    """The metres from a point to a line."""
    return distance(point, between(p, q, nearest_part(point, p, q)))


def side(p, q, r):
    """Over 0 where r lies to the left of the way from p to q, under 0 where to the right."""
    return (q[0] - p[0]) * (r[1] - p[1]) - (q[1] - p[1]) * (r[0] - p[0])


def lines_cross(p, q, r, s):
    """Whether two lines cross at a point inside both."""
    return side(p, q, r) * side(p, q, s) < 0 and side(r, s, p) * side(r, s, q) < 0


def gap(p, q, r, s):
    """The least distance of two lines, 0 where they cross."""
    if lines_cross(p, q, r, s):
        return 0.0
    return min(distance_to_line(p, r, s), distance_to_line(q, r, s), distance_to_line(r, p, q), distance_to_line(s, p, q))


def turn_angle(p, q, r, s):
    """By how many degrees, from 0 to 180, the heading changes from the line p q to the line r s; 0 where one has no length."""
    before, after = (q[0] - p[0], q[1] - p[1]), (s[0] - r[0], s[1] - r[1])
    if math.hypot(*before) < 0.5 or math.hypot(*after) < 0.5:
        return 0.0
    cross = before[0] * after[1] - before[1] * after[0]
    return abs(math.degrees(math.atan2(cross, before[0] * after[0] + before[1] * after[1])))


class Grid:
    """Lines by the squares that they touch, so that what is near is found without a look at all."""

    def __init__(self, size):
        self.size = size
        self.squares = {}

    def cells(self, p, q, reach):
        """The squares within a distance of a line, and some more, once each and in order."""
        found = {}
        count = max(1, math.ceil(distance(p, q) / self.size))
        for k in range(count):
            a, b = between(p, q, k / count), between(p, q, (k + 1) / count)
            low = [math.floor((min(a[axis], b[axis]) - reach) / self.size) for axis in (0, 1)]
            high = [math.floor((max(a[axis], b[axis]) + reach) / self.size) for axis in (0, 1)]
            for x in range(low[0], high[0] + 1):
                for y in range(low[1], high[1] + 1):
                    found[(x, y)] = True
        return found

    def add(self, key, p, q):
        """Adds a line under a key."""
        for cell in self.cells(p, q, 0):
            self.squares.setdefault(cell, []).append(key)

    def near(self, p, q, reach):
        """The keys of all lines within a distance of a line, and some more, in rising order."""
        keys = set()
        for cell in self.cells(p, q, reach):
            keys.update(self.squares.get(cell, ()))
        return sorted(keys)
