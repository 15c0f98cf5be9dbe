#!/usr/bin/env python3
"""A small router of one's own, to compare with Rusboqan: own_router.py AIRPORT COMMANDS.

Each flight takes its quickest way and doesn't stop on it. An arrival begins as soon as this way is free, and a departure as late as it is.
Flights are served in the order of the file. Of other lines it knows `work` alone. The routes are written as `file` lines, for `--own` of
tools/many_days. See docs/STUDY.md.
"""
import heapq
import os
import sys
from collections import defaultdict
from pathlib import Path

sys.dont_write_bytecode = True
sys.path.insert(0, os.path.join(os.path.dirname(os.path.realpath(__file__)), "..", "tools"))

from day_replay.airport import read_airport  # noqa: E402
from day_study.plan import read_plan  # noqa: E402


class Network:
    """The arcs of an airport, and the quickest ways along them."""

    def __init__(self, airport):
        self.airport = airport
        self.leaving = defaultdict(list)  # node -> the arcs that begin there
        for number, segment in enumerate(airport.segments):
            for arc in (2 * number,) if segment.one_way else (2 * number, 2 * number + 1):
                self.leaving[airport.tail(arc)].append(arc)

    def onward(self, arc, class_number):
        """The arcs that a class may take after an arc."""
        word = self.airport.arc_word
        for other in self.leaving[self.airport.head(arc)]:
            may_turn = other // 2 != arc // 2 and (word(arc), word(other)) not in self.airport.forbidden
            if may_turn and self.airport.least(other // 2, class_number):
                yield other

    def quickest(self, source, targets, class_number):
        """The arcs of a quickest way between nodes, or None: the search of Dijkstra over arcs."""
        starts = [arc for arc in self.leaving[source] if self.airport.least(arc // 2, class_number)]
        queue = [(self.airport.least(arc // 2, class_number), arc, None) for arc in starts]
        before = {}
        heapq.heapify(queue)
        while queue:
            cost, arc, previous = heapq.heappop(queue)
            if arc in before:
                continue
            before[arc] = previous
            if self.airport.head(arc) in targets:
                return way_to(arc, before)
            for other in self.onward(arc, class_number):
                heapq.heappush(queue, (cost + self.airport.least(other // 2, class_number), other, arc))
        return None


def way_to(arc, before):
    """The arcs that lead to this one and end with it."""
    way = []
    while arc is not None:
        way.append(arc)
        arc = before[arc]
    return way[::-1]


class Ledger:
    """Who has which segment when."""

    def __init__(self, airport):
        self.shut = airport.in_conflict()
        self.holds = defaultdict(list)  # segment -> (from, until) of the holds of it and of those in conflict with it

    def is_free(self, segment, begin, until):
        """Whether nobody has the segment, or one in conflict with it, from BEGIN up to UNTIL."""
        return all(until <= other or end <= begin for other, end in self.holds[segment])

    def hold(self, segment, begin, until):
        """Gives a segment away."""
        for other in self.shut[segment]:
            self.holds[other].append((begin, until))


class OwnRouter:
    """Gives routes, one after another."""

    def __init__(self, airport):
        self.airport, self.network, self.ledger = airport, Network(airport), Ledger(airport)

    def steps(self, way, class_number, begin):
        """The arcs of a way with the seconds of their holds, from BEGIN on and without a stop."""
        for arc in way:
            end = begin + self.airport.least(arc // 2, class_number)
            yield arc, begin, end
            begin = end

    def begins(self, ask, least):
        """The seconds at which a request may begin, the best first."""
        time, limit = ask.request.time, ask.request.limit
        if ask.request.kind == "arrival":
            return range(time, min(time + limit, self.airport.horizon - least) + 1)
        return range(time - least, max(time - limit - least, 0) - 1, -1)

    def line(self, ask):
        """The `file` line of a request, or None if the way is free at no second."""
        class_number = self.airport.class_number[ask.request.class_name]
        number = self.airport.node_number
        way = self.network.quickest(number[ask.sources[0]], {number[name] for name in ask.targets}, class_number)
        clearance = self.airport.clearance_of(class_number)
        least = sum(self.airport.least(arc // 2, class_number) for arc in way or ())
        for begin in self.begins(ask, least) if way else ():
            steps = list(self.steps(way, class_number, begin))
            if all(self.ledger.is_free(arc // 2, enter, end + clearance) for arc, enter, end in steps):
                return self.filed(ask, steps, clearance)
        return None

    def filed(self, ask, steps, clearance):
        """Gives the segments of a route away, and the line that files it."""
        for arc, enter, end in steps:
            self.ledger.hold(arc // 2, enter, end + clearance)
        pairs = " ".join(f"{self.airport.arc_word(arc)} {end}" for arc, _, end in steps)
        return f"file {ask.request.flight} {ask.request.class_name} {steps[0][1]} {pairs}"

    def other_line(self, text):
        """A line that is no request. A work party shuts its segment."""
        words = text.split(" ")
        if words[0] == "work":
            self.ledger.hold(self.airport.segment_number[words[2]], int(words[3]), int(words[4]))
        return text


def main():
    """Writes a line for each request that gets a route; the other lines stay."""
    if len(sys.argv) != 3 or sys.argv[1].startswith("-"):
        print(__doc__)
        return 0 if "--help" in sys.argv else 1
    airport = read_airport(Path(sys.argv[1]).read_bytes())
    router = OwnRouter(airport)
    for line in read_plan(Path(sys.argv[2]).read_bytes()).lines:
        told = [router.line(ask) for ask in line.asks] if line.asks else [router.other_line(line.text)]
        print("".join(f"{text}\n" for text in told if text), end="")
    return 0


if __name__ == "__main__":
    sys.exit(main())
