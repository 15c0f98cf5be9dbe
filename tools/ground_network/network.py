"""The network of an airport while it is made: nodes, edges between them, and which nodes lie on a runway."""
from dataclasses import dataclass, field, replace

from ground_network.aircraft import names_of
from ground_network.plane import between, distance, distance_to_line, nearest_part, turn_angle

# No more edges may meet at a node than the airport file has segment ends for.
MOST_ENDS = 32
LONGEST_EDGE = 10_000.0
BESIDE_RUNWAY = 5.0


@dataclass
class Node:
    """`kind` is runway, junction or stand. `origin` is the number in the source, `wanted` the name that it asks for, `met_by`
    the stand whose lead-in meets a taxiway there, and `along` how many metres behind the start of its runway it lies."""

    point: tuple
    kind: str = "junction"
    origin: str = ""
    wanted: str = ""
    met_by: str = ""
    runway: object = None
    along: float = 0.0


@dataclass
class Edge:
    """A straight taxiway between two nodes by their numbers. `order` sorts edges as the source has them, `label` has the
    numbers of its nodes there, `size` is a letter where it limits the classes, `stand` a node where it leads to a stand, `runway`
    the one along which it leads, and `classes` are the names of those that may use it."""

    first: int
    second: int
    two_way: bool
    order: tuple
    label: str = ""
    name: str = ""
    size: str = ""
    on_runway: bool = False
    stand: int = -1
    runway: object = None
    classes: frozenset = field(default_factory=frozenset)

    def other(self, node):
        return self.second if node == self.first else self.first


class Network:
    """`ends` has for each node the keys of the edges that meet there, `edges` each edge by its key."""

    def __init__(self):
        self.nodes, self.ends, self.edges = [], [], {}
        self.next_key = 0

    def add_node(self, node):
        """Adds a node; gives its number."""
        self.nodes.append(node)
        self.ends.append({})
        return len(self.nodes) - 1

    def has_room(self, *nodes):
        """Whether one more edge may meet at each of some nodes."""
        return all(len(self.ends[node]) < MOST_ENDS for node in nodes)

    def add_edge(self, edge):
        """Adds an edge; gives its key."""
        key, self.next_key = self.next_key, self.next_key + 1
        self.put(key, edge)
        return key

    def put(self, key, edge):
        """Puts an edge under a key, a new one or that under which it was removed."""
        self.edges[key] = edge
        self.ends[edge.first][key] = self.ends[edge.second][key] = True

    def remove_edge(self, key):
        """Takes an edge out and gives it."""
        edge = self.edges.pop(key)
        del self.ends[edge.first][key], self.ends[edge.second][key]
        return edge

    def line(self, edge):
        """The two points of an edge."""
        return self.nodes[edge.first].point, self.nodes[edge.second].point

    def length(self, edge):
        """The metres of an edge."""
        return distance(*self.line(edge))

    def of_kind(self, kind):
        """The nodes of a kind at which an edge ends."""
        return [number for number, node in enumerate(self.nodes) if node.kind == kind and self.ends[number]]

    def neighbours(self, node):
        """The other ends of the edges at a node."""
        return {self.edges[key].other(node) for key in self.ends[node]}

    def onward(self, node, backward=False):
        """The edges by which a node is left, or with `backward` reached, and their other ends."""
        for key in self.ends[node]:
            edge = self.edges[key]
            if edge.two_way or (edge.second if backward else edge.first) == node:
                yield edge, edge.other(node)

    def in_order(self):
        """The keys of the edges, as the source has these."""
        return sorted(self.edges, key=lambda key: self.edges[key].order)


def reached(network, starts, backward=False, class_name=None, closed=-1, goal=-1):
    """The nodes to which one of some nodes leads, or with `backward` those that lead to one: for a class by its name where
    told, not through the node `closed`, and no farther than to the node `goal`."""
    seen = set(starts)
    waiting = list(starts)
    for node in waiting:
        if node == goal:
            break
        for edge, other in network.onward(node, backward):
            if other not in seen and other != closed and (class_name is None or class_name in edge.classes):
                seen.add(other)
                waiting.append(other)
    return seen


def leads(network, start, goal, closed=-1):
    """Whether a node leads to another, not through the node `closed`."""
    return goal in reached(network, [start], closed=closed, goal=goal)


def build(source, report):
    """The network of what was read. Edges that can't be are left out and told."""
    network = Network()
    places = {node.number: network.add_node(Node(node.point, origin=node.number, wanted=node.name)) for node in source.nodes}
    known, doubled = {}, 0
    left = {"an end is no node": [], "both ends are one node": [], "a node has 32 others": [], "longer than 10 km": []}
    for order, edge in enumerate(source.edges):
        label = f"{edge.first}-{edge.second}"
        first, second = places.get(edge.first), places.get(edge.second)
        if first is None or second is None:
            left["an end is no node"].append(label)
        elif first == second:
            left["both ends are one node"].append(label)
        elif distance(network.nodes[first].point, network.nodes[second].point) > LONGEST_EDGE:
            left["longer than 10 km"].append(label)
        elif frozenset((first, second)) in known:
            doubled += not join(network.edges[known[frozenset((first, second))]], first, edge)
        elif not network.has_room(first, second):
            left["a node has 32 others"].append(label)
        else:
            made = Edge(first, second, edge.two_way, (order, 0.0), label, edge.name, edge.size, edge.on_runway)
            known[frozenset((first, second))] = network.add_edge(made)
    for why, labels in left.items():
        report.left_out("edges", labels, why)
    report.left_count("edges", doubled, "given before between the same nodes")
    return network


def join(old, first, new):
    """Takes a second edge between two nodes into the first one; says whether it gave a direction that was missing."""
    adds = not old.two_way and (new.two_way or old.first != first)
    old.two_way = old.two_way or adds
    old.on_runway = old.on_runway or new.on_runway
    return adds


def mark_runways(network, runways, report):
    """Marks the nodes on the pavement of a runway, half its width and 5 m to both sides, each for the nearest one. Where there
    are none, the ends of the edges that the source calls runway take their place."""
    for node in network.nodes:
        best = None
        for runway in runways:
            away = distance_to_line(node.point, runway.start, runway.end)
            if away <= runway.width / 2 + BESIDE_RUNWAY and (best is None or away < best):
                best = away
                node.kind, node.runway = "runway", runway
                node.along = distance(runway.start, runway.end) * nearest_part(node.point, runway.start, runway.end)
    if not any(node.kind == "runway" for node in network.nodes):
        ends = {node for edge in network.edges.values() if edge.on_runway for node in (edge.first, edge.second)}
        for node in ends:
            network.nodes[node].kind = "runway"
        if ends:
            report.warn("no node lies on the pavement of a runway; the ends of the edges that are called runway are taken")


def runway_along(network, edge, runways):
    """The runway along which an edge leads, or None: both ends are on its pavement, nearer to its direction than to across."""
    p, q = network.line(edge)
    for runway in runways:
        wide = runway.width / 2 + BESIDE_RUNWAY
        if max(distance_to_line(point, runway.start, runway.end) for point in (p, q)) <= wide:
            angle = turn_angle(p, q, runway.start, runway.end)
            if min(angle, 180 - angle) < 45:
                return runway
    return None


def is_along_runway(network, edge, runways):
    """Whether an edge leads along a runway: the source says so, or it lies so."""
    return edge.on_runway or runway_along(network, edge, runways) is not None


def tell_runways(network, runways):
    """Gives each edge the runway along which it leads."""
    for edge in network.edges.values():
        edge.runway = runway_along(network, edge, runways)


def thin_runways(network, runways, report):
    """Takes out the edges along runways, the longest first, but for those without which an end would not lead to the other,
    and then those that only lead to a node with no taxiway."""
    along = [key for key in network.in_order() if is_along_runway(network, network.edges[key], runways)]
    kept = set(along)
    for key in sorted(along, key=lambda k: (-network.length(network.edges[k]), network.edges[k].order)):
        edge = network.remove_edge(key)
        if leads(network, edge.first, edge.second) and (not edge.two_way or leads(network, edge.second, edge.first)):
            kept.discard(key)
        else:
            network.put(key, edge)
    drop_loose_ends(network, kept)
    for key in kept:
        network.edges[key].on_runway = True
    why = "since nothing is cut off without them; --keep-runway-edges keeps them"
    report.left_count("edges along a runway", len(along) - len(kept), why)
    if kept:
        report.say(f"kept, edges along a runway ({len(kept)}), without which something would be cut off")


def drop_loose_ends(network, keys):
    """Takes out the edges of some keys that lead to a node with no other, one after the other, and their keys too."""
    waiting = list(range(len(network.nodes)))
    for node in waiting:
        if len(network.ends[node]) == 1 and keys.issuperset(network.ends[node]):
            key = next(iter(network.ends[node]))
            waiting.append(network.edges[key].other(node))
            network.remove_edge(key)
            keys.discard(key)


def keep_useful(network, classes, report):
    """Takes out the edges that no class can use: not reached from a runway node, or leading to none. Says which nodes go."""
    before = {node for edge in network.edges.values() for node in (edge.first, edge.second)}
    for edge in network.edges.values():
        edge.classes = names_of(aircraft_class for aircraft_class in classes if aircraft_class.fits(edge.size))
    served = {class_name: come_and_go(network, class_name) for class_name in names_of(classes)}
    useless = [key for key, edge in network.edges.items() if not is_useful(edge, served)]
    removed = [network.remove_edge(key) for key in useless]
    between_used = [edge.label for edge in removed if network.ends[edge.first] and network.ends[edge.second]]
    report.left_out("edges", between_used, "by which no flight can come from a runway node and go to one")
    alone = [node.origin for k, node in enumerate(network.nodes) if k not in before]
    gone = [network.nodes[k].origin for k in sorted(before) if not network.ends[k]]
    report.left_out("nodes", alone, "which have no taxiway")
    report.left_out("nodes", gone, "to which no runway node leads and back")


def come_and_go(network, class_name):
    """The nodes to which a class comes from a runway node, and those from which it goes to one."""
    runway = network.of_kind("runway")
    return reached(network, runway, class_name=class_name), reached(network, runway, backward=True, class_name=class_name)


def is_useful(edge, served):
    """Whether one of some classes may use an edge, can come onto it from a runway node, and go from it to one. `served` has by
    the names of the classes where they come and whence they go."""
    starts = {edge.first, edge.second} if edge.two_way else {edge.first}
    heads = {edge.first, edge.second} if edge.two_way else {edge.second}
    allowed = (served[class_name] for class_name in edge.classes if class_name in served)
    return any(starts & come and heads & go for come, go in allowed)


def split(network, key, places):
    """Cuts an edge at some parts of its length, in rising order, by new junctions; gives the numbers of these nodes."""
    edge = network.remove_edge(key)
    p, q = network.line(edge)
    made = [network.add_node(Node(between(p, q, part))) for part in places]
    chain = [edge.first, *made, edge.second]
    for k, (first, second) in enumerate(zip(chain, chain[1:])):
        order = (edge.order[0], [0.0, *places][k])
        network.add_edge(replace(edge, first=first, second=second, order=order))
    return made
