"""Joins the startup locations to the network: each becomes a stand, by a lead-in or as the node that lies there."""
from dataclasses import dataclass

from ground_network.aircraft import classes_at, names_of
from ground_network.network import BESIDE_RUNWAY, MOST_ENDS, Edge, Node, come_and_go, is_useful, leads, split
from ground_network.plane import Grid, between, distance, distance_to_line, lines_cross, nearest_part

# A node this near to a startup location may be the stand itself.
SAME_PLACE = 8.0
# A lead-in goes to a node where it would meet a taxiway this near to it, and lead-ins this near to each other meet.
SNAP = 20.0
# How far is looked first for a place where a lead-in may meet the network.
FIRST_LOOK = 60.0
LEAD_INS_AT_ONE_PLACE = MOST_ENDS - 2
# Lead-ins come behind all edges of the source.
BEHIND_ALL = 10 ** 9


@dataclass
class Meeting:
    """Where a lead-in may meet the network: at a node, or at a part of an edge where the node is -1."""

    cost: tuple
    key: int
    part: float
    node: int


class StandMaker:
    """Makes stands of startup locations. `start_at` has by the node of each its place in the source, its startup location and its classes.
    `left` has the names of those that became none, by why, and `odd` those that were told two ways."""

    def __init__(self, network, runways, classes, longest):
        self.network, self.runways, self.classes, self.longest = network, runways, classes, longest
        self.served = {class_name: come_and_go(network, class_name) for class_name in names_of(classes)}
        self.grid = Grid(100.0)
        for key in network.in_order():
            self.grid.add(key, *network.line(network.edges[key]))
        self.start_at = {}
        self.left = {"on a runway": [], "no class may use them": [], f"no taxiway within {longest:g} m": []}
        self.odd = []

    def make(self, starts):
        """Makes stands of the startup locations; gives the start and the classes of each stand by its node."""
        wanted = [item for item in self.usable(starts) if not self.becomes_node(*item)]
        met = {}
        for place, start, allowed in wanted:
            meeting = self.best_meeting(start, allowed)
            if meeting is None:
                self.left[f"no taxiway within {self.longest:g} m"].append(start.name)
            elif meeting.node >= 0:
                self.lead_in(meeting.node, place, start, allowed)
            else:
                met.setdefault(meeting.key, []).append((meeting.part, place, start, allowed))
        for key, leads_in in sorted(met.items()):
            self.split_for(key, sorted(leads_in, key=lambda item: item[:2]))
        self.limit_classes()
        return self.start_at

    def usable(self, starts):
        """The startup locations that some class may use, each with its place in the source and these classes."""
        found = []
        for place, start in enumerate(starts):
            allowed, odd = classes_at(start, self.classes)
            if odd:
                self.odd.append(start.name)
            if self.is_on_runway(start.point):
                self.left["on a runway"].append(start.name)
            elif not allowed:
                self.left["no class may use them"].append(start.name)
            else:
                found.append((place, start, allowed))
        return found

    def is_on_runway(self, point):
        """Whether a point is on the pavement of a runway or close beside it."""
        return any(distance_to_line(point, r.start, r.end) <= r.width / 2 + BESIDE_RUNWAY for r in self.runways)

    def serves(self, edge, allowed):
        """Whether a class that may use a stand can come by an edge and go by it."""
        return is_useful(edge, {class_name: self.served[class_name] for class_name in allowed})

    def becomes_node(self, place, start, allowed):
        """Takes the nearest node as the stand where it is near enough and no way for others leads through it."""
        near = {}
        for key in self.grid.near(start.point, start.point, SAME_PLACE):
            edge = self.network.edges[key]
            if self.serves(edge, allowed):
                near.update({node: distance(start.point, self.network.nodes[node].point) for node in (edge.first, edge.second)})
        for node in sorted(near, key=lambda k: (near[k], k)):
            if near[node] <= SAME_PLACE and self.network.nodes[node].kind == "junction" and self.can_close(node):
                self.network.nodes[node].kind = "stand"
                self.network.nodes[node].wanted = start.name
                self.start_at[node] = (place, start, allowed)
                return True
        return False

    def can_close(self, node):
        """Whether no flight to another place needs the node: a dead end, or between two nodes that lead to each other without it."""
        if len(self.network.neighbours(node)) > 2:
            return False
        before = [other for _, other in self.network.onward(node, backward=True)]
        behind = [other for _, other in self.network.onward(node)]
        return all(a == b or leads(self.network, a, b, closed=node) for a in before for b in behind)

    def best_meeting(self, start, allowed):
        """The best place for a lead-in. It is looked for near by first: what is farther off costs more."""
        reach = min(FIRST_LOOK, self.longest)
        while True:
            best = self.best_within(start, allowed, reach)
            if reach == self.longest or best and not best.cost[0] and best.cost[1] <= reach:
                return best
            reach = min(2 * reach, self.longest)

    def best_within(self, start, allowed, reach):
        """The best place for a lead-in to an edge within a distance, or None."""
        meetings = []
        for key in self.grid.near(start.point, start.point, reach):
            edge = self.network.edges[key]
            if self.serves(edge, allowed):
                meetings.append(self.meeting(key, edge, start))
        return min((meeting for meeting in meetings if meeting), key=lambda meeting: meeting.cost, default=None)

    def meeting(self, key, edge, start):
        """Where a lead-in meets an edge, with what speaks against it: that it is on a runway or beyond one, and then how far
        it is, where an edge to another stand counts as twice as far."""
        network = self.network
        p, q = network.line(edge)
        length = network.length(edge)
        part = nearest_part(start.point, p, q)
        ends = [(abs(part - end) * length, node) for end, node in ((0, edge.first), (1, edge.second))]
        free = [(away, node) for away, node in ends if network.nodes[node].kind != "stand"]
        away, node = min(ends)
        if away > SNAP:
            node = -1
        elif free:
            node = min(free)[1]
        if node >= 0 and (network.nodes[node].kind == "stand" or not network.has_room(node)):
            return None
        place = between(p, q, part) if node < 0 else network.nodes[node].point
        far = distance(start.point, place)
        if far > self.longest:
            return None
        beyond = self.is_on_runway(place) or any(lines_cross(start.point, place, r.start, r.end) for r in self.runways)
        return Meeting((beyond, far * (3 - len(free)), edge.order), key, part, node)

    def lead_in(self, node, place, start, allowed):
        """Makes a stand and joins it to a node."""
        stand = self.network.add_node(Node(start.point, "stand", wanted=start.name))
        self.network.add_edge(Edge(node, stand, True, (BEHIND_ALL + place, 0.0), stand=stand, classes=allowed))
        self.start_at[stand] = (place, start, allowed)

    def split_for(self, key, leads_in):
        """Cuts an edge where its lead-ins meet it; those near to each other meet at one place."""
        length = self.network.length(self.network.edges[key])
        groups = []
        for item in leads_in:
            first = groups[-1][0] if groups else None
            if first and (item[0] - first[0]) * length <= SNAP and len(groups[-1]) < LEAD_INS_AT_ONE_PLACE:
                groups[-1].append(item)
            else:
                groups.append([item])
        places = [sum(item[0] for item in group) / len(group) for group in groups]
        for node, group in zip(split(self.network, key, places), groups):
            self.network.nodes[node].met_by = group[0][2].name
            for _, place, start, allowed in group:
                self.lead_in(node, place, start, allowed)

    def limit_classes(self):
        """Lets onto the edges at a stand the classes alone that may use it."""
        for node, (_, _, allowed) in self.start_at.items():
            for key in self.network.ends[node]:
                edge = self.network.edges[key]
                edge.classes = edge.classes & allowed
                edge.stand = node

    def tell(self, report):
        """Tells the startup locations that became no stands, and those that were told two ways."""
        for why, names in self.left.items():
            report.left_out("startup locations", names, why)
        if self.odd:
            what = f"startup locations ({len(self.odd)}), of a size for none of their kinds"
            report.say(f"told two ways, {what}; the kinds count: {', '.join(self.odd)}")


def add_dead_ends(network, classes, start_at):
    """Makes a stand of each dead end that is none yet, for all classes that may use its edge."""
    for node, place in enumerate(network.nodes):
        if place.kind == "junction" and len(network.neighbours(node)) == 1:
            place.kind = "stand"
            start_at[node] = (0, None, names_of(classes))
            for key in network.ends[node]:
                network.edges[key].stand = node
