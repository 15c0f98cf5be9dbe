"""Gives the segments and the nodes of the airport file their names, made from those of the source."""
from ground_network.names import Names, name_of
from ground_network.stands import BEHIND_ALL


class Namer:
    """`nodes` has the name of each node by its number, when all is named; a piece has its own name."""

    def __init__(self, pieces):
        self.pieces, self.order = pieces, pieces.used_nodes()
        self.nodes, self.names = {}, Names()

    def name_all(self):
        """Names all, those first that the source names."""
        self.name_drawn_nodes()
        self.name_stands()
        self.name_pieces()
        self.name_other_nodes()

    def name_drawn_nodes(self):
        """Names that were drawn stay as they are."""
        for node in self.order:
            told = self.pieces.nodes[node]
            if told.wanted and told.kind != "stand":
                self.nodes[node] = self.names.take(told.wanted)

    def name_stands(self):
        """Stands by the names of their startup locations."""
        for node in self.order:
            told = self.pieces.nodes[node]
            if told.kind == "stand":
                self.nodes[node] = self.names.take(name_of(told.wanted) or name_of(f"S{told.origin}"))

    def name_pieces(self):
        """Names the segments: those of one taxiway, or of one edge where its taxiway has no name, are numbered in order. Those
        along a runway are numbered as they lie there."""
        bases = [self.base_of(piece) for piece in self.pieces.all]
        counts, given, names = {}, {}, Names()
        for base in bases:
            counts[base] = counts.get(base, 0) + 1
        for piece, base in sorted(zip(self.pieces.all, bases), key=lambda pair: self.pieces.along_runway(pair[0])):
            given[base] = given.get(base, 0) + 1
            is_runway = self.pieces.runway(piece) is not None
            sign = "-" if is_runway else "."
            ending = f"{sign}{given[base]}" if counts[base] > 1 or is_runway else ""
            piece.name = names.take(base[: 16 - len(ending)] + ending)

    def base_of(self, piece):
        """For a stand's piece and for a lead-in the stand's name, for a piece along a runway the runway's, else that of a
        taxiway, or one of the numbers of the edge's nodes."""
        edge, runway = self.pieces.network.edges[piece.key], self.pieces.runway(piece)
        if piece.stand >= 0:
            return "S-" + name_of(self.nodes[piece.stand], 14)
        if runway is not None:
            return "R-" + (name_of(runway.name, 11) or "RW")
        if edge.order[0] >= BEHIND_ALL:
            return "L-" + name_of(self.nodes[edge.stand], 14)
        by_nodes = f"T{edge.label}"
        return name_of(edge.name, 11) or (by_nodes if by_nodes == name_of(by_nodes, 13) else f"T{edge.order[0] + 1}")

    def name_other_nodes(self):
        """Runway nodes by their runway and their place along it, junctions by the source's number, or where a lead-in meets
        by the stand, or where an edge is cut by the segment that ends there."""
        ends_at, counts = {}, {}
        for piece in self.pieces.all:
            ends_at.setdefault(piece.second, piece.name)
        for node in self.order:
            told = self.pieces.nodes[node]
            if node in self.nodes:
                continue
            if told.kind == "runway":
                runway = (name_of(told.runway.name, 11) if told.runway else "") or "RW"
                counts[runway] = counts.get(runway, 0) + 1
                wanted = f"{runway}.{counts[runway]}"
            elif told.met_by:
                wanted = f"J-{name_of(told.met_by, 14)}"
            elif told.origin:
                wanted = name_of(f"J{told.origin}")
            else:
                wanted = "X-" + ends_at[node][:14]
            self.nodes[node] = self.names.take(wanted)
