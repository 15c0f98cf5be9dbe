"""Which pieces conflict, and the sets that say it: each pair stands in one set at least, and no set has more than 16.

The piece on which an aircraft stands conflicts with those that it meets, and with no other however near: so who stands there or
works there shuts no neighbour."""
import itertools

from ground_network.plane import Grid, gap
from ground_network.problem import NOTHING_TO_MAKE, Problem

MOST_MEMBERS = 16
MOST_PAIRS = 1_000_000


class Conflicts:
    """`others` has for each piece, by its number, those that conflict with it."""

    def __init__(self, pieces, classes, widest):
        self.pieces = pieces
        self.spans = {aircraft_class.name: min(aircraft_class.span, widest) for aircraft_class in classes}
        self.others = [set() for _ in pieces.all]
        self.at_node = {}
        for number, piece in enumerate(pieces.all):
            self.at_node.setdefault(piece.first, []).append(number)
            self.at_node.setdefault(piece.second, []).append(number)
        self.count = 0
        for meeting in self.at_node.values():
            self.add_all(meeting)
        self.add_close()

    def add(self, a, b):
        """Adds a pair of pieces, once."""
        if a != b and b not in self.others[a]:
            self.others[a].add(b)
            self.others[b].add(a)
            self.count += 1
            if self.count > MOST_PAIRS:
                raise Problem(NOTHING_TO_MAKE, f"over {MOST_PAIRS} pairs of segments are in conflict; a smaller --span makes them fewer")

    def add_all(self, numbers):
        """Adds each two of some pieces."""
        for a, b in itertools.combinations(numbers, 2):
            self.add(a, b)

    def span(self, number):
        """The wing span of the widest class that may use a piece."""
        return max((self.spans[class_name] for class_name in self.pieces.all[number].classes), default=0.0)

    def add_close(self):
        """Adds the pieces that cross, or come nearer to each other than the mean of their wing spans."""
        reach = max(self.spans.values())
        spans = [self.span(number) for number in range(len(self.pieces.all))]
        grid = Grid(max(50.0, reach))
        for number, piece in enumerate(self.pieces.all):
            if piece.stand >= 0:
                continue
            line = self.pieces.points(piece)
            for other in grid.near(*line, reach):
                if other not in self.others[number]:
                    apart = gap(*line, *self.pieces.points(self.pieces.all[other]))
                    if apart < (spans[number] + spans[other]) / 2 or apart == 0:
                        self.add(number, other)
            grid.add(number, *line)

    def sets(self):
        """The conflict sets: what meets at each node first, each filled up with what conflicts with all of it."""
        self.open = [set(others) for others in self.others]
        found = []
        for node in sorted(self.at_node):
            for seed in parts_of(self.at_node[node]):
                if any(b in self.open[a] for a in seed for b in seed):
                    found.append(self.grown(seed))
        for a in range(len(self.open)):
            while self.open[a]:
                found.append(self.grown([a, min(self.open[a])]))
        return found

    def grown(self, seed):
        """A set around a seed, which takes in what conflicts with all members and has most pairs that no set has yet."""
        members = set(seed)
        common = set.intersection(*(self.others[a] for a in seed)) - members
        while common and len(members) < MOST_MEMBERS:
            best = max(sorted(common), key=lambda c: len(self.open[c] & members))
            if not self.open[best] & members:
                break
            members.add(best)
            common = common & self.others[best]
        for a in members:
            self.open[a] -= members
        return sorted(members)


def parts_of(numbers):
    """Groups of at most 16 such that each two of the numbers stand in one group."""
    numbers = sorted(set(numbers))
    if len(numbers) <= MOST_MEMBERS:
        return [numbers] if len(numbers) > 1 else []
    half = MOST_MEMBERS // 2
    parts = [numbers[k: k + half] for k in range(0, len(numbers), half)]
    return [first + second for k, first in enumerate(parts) for second in parts[k + 1:]]
