"""Cuts the edges into the segments of the airport file."""
import math
from dataclasses import dataclass, field

from ground_network.network import Node
from ground_network.plane import between, distance, nearest_part


@dataclass
class Piece:
    """A segment: a piece of an edge between two nodes by their numbers, `at` being its place along the edge. `stand` is the node
    of the stand where an aircraft stands on the piece, and -1 on all others; `is_lead` says that the class goes at its lead speed."""

    first: int
    second: int
    key: int
    at: int
    metres: float
    name: str = ""
    classes: frozenset = field(default_factory=frozenset)
    is_lead: bool = False
    stand: int = -1


@dataclass(frozen=True)
class Cutting:
    """Edges of `shortest` metres or more are cut `stub` metres from each end where three or more meet, and between into pieces
    of at most `longest` metres. Shorter edges stay whole, and so do those that have no room for both cuts. Of what leads to a
    stand the last `place` metres are a piece of their own, or the last half where it is short."""

    shortest: float = 120.0
    stub: float = 40.0
    longest: float = 250.0
    place: float = 10.0

    def places(self, network, edge):
        """The parts of an edge's length at which it is cut, in rising order."""
        length = network.length(edge)
        low = self.stub if len(network.ends[edge.first]) > 2 else 0.0
        high = length - (self.stub if len(network.ends[edge.second]) > 2 else 0.0)
        if length < self.shortest or low >= high:
            return []
        count = max(1, math.ceil(round((high - low) / self.longest, 6)))
        cuts = [low + (high - low) * k / count for k in range(count + 1)]
        return [cut / length for cut in cuts if 0 < cut < length]

    def with_stands(self, network, edge):
        """The same parts, with those at which the places of aircraft on stands begin."""
        parts, length = self.places(network, edge), network.length(edge)
        if not length:
            return [0.5] if "stand" in (network.nodes[edge.first].kind, network.nodes[edge.second].kind) else []
        chain = [0.0, *parts, 1.0]
        if network.nodes[edge.second].kind == "stand":
            parts = [*parts, 1 - min(self.place / length, (1 - chain[-2]) / 2)]
        if network.nodes[edge.first].kind == "stand":
            # Where stands are at both ends of one piece, both take a part of its half.
            room = chain[1] / (4 if chain[1] == 1.0 and network.nodes[edge.second].kind == "stand" else 2)
            parts = [min(self.place / length, room), *parts]
        return parts


class Pieces:
    """The pieces of all edges in order, and the nodes with those at which edges are cut."""

    def __init__(self, network, cutting):
        self.network, self.nodes = network, list(network.nodes)
        self.all, self.of_edge = [], {}
        for key in network.in_order():
            self.cut(key, network.edges[key], cutting.with_stands(network, network.edges[key]))

    def cut(self, key, edge, parts):
        """Adds the pieces of an edge that is cut at some parts of its length."""
        p, q = self.network.line(edge)
        chain = [edge.first]
        for part in parts:
            self.nodes.append(Node(between(p, q, part)))
            chain.append(len(self.nodes) - 1)
        chain.append(edge.second)
        pairs = list(zip(chain, chain[1:]))
        stands = [next((node for node in pair if self.nodes[node].kind == "stand"), -1) for pair in pairs]
        self.of_edge[key] = []
        for at, (first, second) in enumerate(pairs):
            metres = distance(self.nodes[first].point, self.nodes[second].point)
            is_lead = any(stand >= 0 for stand in stands[max(0, at - 1): at + 2])
            self.of_edge[key].append(len(self.all))
            self.all.append(Piece(first, second, key, at, metres, "", edge.classes, is_lead, stands[at]))

    def runway(self, piece):
        """The runway along which a piece lies, or None."""
        return self.network.edges[piece.key].runway

    def along_runway(self, piece):
        """How far along its runway a piece lies; 0 on all others."""
        runway = self.runway(piece)
        return 0.0 if runway is None else nearest_part(between(*self.points(piece), 0.5), runway.start, runway.end)

    def points(self, piece):
        """The two points of a piece."""
        return self.nodes[piece.first].point, self.nodes[piece.second].point

    def used_nodes(self):
        """The nodes that a piece has, runway nodes first along their runways, then junctions, then stands."""
        kinds = ("runway", "junction", "stand")
        used = sorted({node for piece in self.all for node in (piece.first, piece.second)})
        runways = {}
        for node in used:
            runways.setdefault(id(self.nodes[node].runway), len(runways))

        def place(node):
            told = self.nodes[node]
            return kinds.index(told.kind), runways[id(told.runway)], told.along, node

        return sorted(used, key=place)
