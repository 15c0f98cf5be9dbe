"""Which stands are reached from which runway nodes, and reach which, by arcs and permitted turns.

An arc is an edge's key and its direction, 0 from its first node to its second, 1 back. Many runway nodes are one number, with
a bit for each.
"""
from collections import deque


class Ways:
    """The arcs of a network for one class after the other. The network isn't changed while this is in use."""

    def __init__(self, network):
        self.network = network
        self.runway, self.stands = network.of_kind("runway"), network.of_kind("stand")
        self.leaving, self.entering = {}, {}
        for key in network.in_order():
            edge = network.edges[key]
            self.add((key, 0), edge.first, edge.second)
            if edge.two_way:
                self.add((key, 1), edge.second, edge.first)

    def add(self, arc, tail, head):
        """Adds an arc at both of its nodes."""
        self.leaving.setdefault(tail, []).append(arc)
        self.entering.setdefault(head, []).append(arc)

    def head(self, arc):
        """The node at which an arc ends."""
        edge = self.network.edges[arc[0]]
        return edge.first if arc[1] else edge.second

    def tail(self, arc):
        """The node at which an arc begins."""
        edge = self.network.edges[arc[0]]
        return edge.second if arc[1] else edge.first

    def points(self, arc):
        """The points of an arc's tail and head."""
        return self.network.nodes[self.tail(arc)].point, self.network.nodes[self.head(arc)].point

    def next_arcs(self, arc, class_name, backward=False):
        """The arcs of other edges that follow an arc, or with `backward` that come before it, forbidden turns or not."""
        arcs = self.entering.get(self.tail(arc), ()) if backward else self.leaving.get(self.head(arc), ())
        return [other for other in arcs if other[0] != arc[0] and class_name in self.network.edges[other[0]].classes]

    def easiest(self, class_name, starts, goal, forbidden):
        """The turns of a walk from one of some arcs to one of a goal's with the fewest forbidden turns; none where there is none."""
        best, before = {arc: 0 for arc in starts}, {arc: None for arc in starts}
        waiting = deque(starts)
        while waiting:
            arc = waiting.popleft()
            if arc in goal:
                return self.turns_back(arc, before)
            for other in self.next_arcs(arc, class_name):
                cost = best[arc] + ((arc, other) in forbidden)
                if cost < best.get(other, cost + 1):
                    best[other], before[other] = cost, arc
                    if cost == best[arc]:
                        waiting.appendleft(other)
                    else:
                        waiting.append(other)
        return []

    def turns_back(self, arc, before):
        """The turns of the walk that ends with an arc, from the last to the first."""
        turns = []
        while before[arc] is not None:
            turns.append((before[arc], arc))
            arc = before[arc]
        return turns


class Spread:
    """For each arc that a class may use, the runway nodes from which it is reached, or with `backward` those to which it leads.
    `masks` has them by arc. What is forbidden may become less, and then they are followed up."""

    def __init__(self, ways, class_name, forbidden, backward=False):
        self.ways, self.class_name, self.forbidden, self.backward = ways, class_name, forbidden, backward
        self.masks, waiting = {}, deque()
        at_runway = ways.entering if backward else ways.leaving
        for bit, node in enumerate(ways.runway):
            for arc in at_runway.get(node, ()):
                if class_name in ways.network.edges[arc[0]].classes:
                    self.masks[arc] = self.masks.get(arc, 0) | 1 << bit
                    waiting.append(arc)
        self.follow(waiting)

    def follow(self, waiting):
        """Hands on what some arcs have, until nothing is new."""
        while waiting:
            arc = waiting.popleft()
            for other in self.ways.next_arcs(arc, self.class_name, self.backward):
                if self.hand_on(arc, other):
                    waiting.append(other)

    def hand_on(self, arc, other):
        """Hands on what an arc has to one that follows, where the turn may be taken; says whether that was new."""
        mask, old = self.masks.get(arc, 0), self.masks.get(other, 0)
        turn = (other, arc) if self.backward else (arc, other)
        if not mask & ~old or turn in self.forbidden:
            return False
        self.masks[other] = old | mask
        return True

    def allow(self, turns):
        """Follows up turns that are no longer forbidden."""
        pairs = [turn[::-1] if self.backward else turn for turn in turns]
        self.follow(deque(other for arc, other in pairs if self.hand_on(arc, other)))

    def at(self, stand):
        """The runway nodes from which a stand is reached, or to which it leads."""
        found = 0
        for arc in (self.ways.leaving if self.backward else self.ways.entering).get(stand, ()):
            found |= self.masks.get(arc, 0)
        return found
