"""Which turns are forbidden, and which classes reach a stand at all."""
from ground_network.plane import turn_angle
from ground_network.ways import Spread, Ways


def unwanted_turns(ways, sharpest):
    """The turns through a stand, or by more than a number of degrees."""
    found = set()
    for node, place in enumerate(ways.network.nodes):
        for arc in ways.entering.get(node, ()):
            for other in ways.leaving.get(node, ()):
                is_through = place.kind == "stand"
                if other[0] != arc[0] and (is_through or turn_angle(*ways.points(arc), *ways.points(other)) > sharpest):
                    found.add((arc, other))
    return found


def drop_unreached(network, start_at):
    """Takes each class off a stand that has no way there or back; gives the nodes of the stands for which none is left, which
    have lost their edges."""
    ways = Ways(network)
    served = {node: set() for node in start_at}
    for class_name in sorted({class_name for _, _, allowed in start_at.values() for class_name in allowed}):
        come, go = Spread(ways, class_name, ()), Spread(ways, class_name, (), backward=True)
        for node in start_at:
            if come.at(node) and go.at(node):
                served[node].add(class_name)
    for node in start_at:
        for key in list(network.ends[node]):
            network.edges[key].classes &= served[node]
            if not served[node]:
                network.remove_edge(key)
    return [node for node in start_at if not served[node]]


def forbid_turns(network, classes, sharpest):
    """The turns to forbid, in order: the unwanted ones, but for those without which a class would lose a way between a runway
    node and a stand. The second answer is how many were let be for that."""
    ways = Ways(network)
    unwanted = unwanted_turns(ways, sharpest)
    forbidden = set(unwanted)
    for aircraft_class in classes:
        keep_ways(ways, aircraft_class.name, forbidden)
    order = sorted(forbidden, key=lambda turn: [(network.edges[key].order, back) for key, back in turn])
    return order, len(unwanted) - len(forbidden)


def keep_ways(ways, class_name, forbidden):
    """Takes turns out of the forbidden ones until a class has all ways between runway nodes and stands that it has with none."""
    now = [Spread(ways, class_name, forbidden, backward) for backward in (False, True)]
    for there in now:
        whole = Spread(ways, class_name, (), there.backward)
        for stand in ways.stands:
            while lost := whole.at(stand) & ~there.at(stand):
                runway = ways.runway[lost.bit_length() - 1]
                turns = way_back(ways, class_name, (stand, runway) if there.backward else (runway, stand), forbidden)
                forbidden.difference_update(turns)
                for spread in now:
                    spread.allow(turns)


def way_back(ways, class_name, ends, forbidden):
    """The turns of a walk of a class from the first of two nodes to the second, with the fewest that are forbidden."""
    edges = ways.network.edges
    starts = [arc for arc in ways.leaving.get(ends[0], ()) if class_name in edges[arc[0]].classes]
    goals = {arc for arc in ways.entering.get(ends[1], ()) if class_name in edges[arc[0]].classes}
    return ways.easiest(class_name, starts, goals, forbidden)
