"""Makes the airport out of what was read, step by step."""
import itertools
import math
from dataclasses import dataclass, replace

from ground_network import output
from ground_network.aircraft import names_of
from ground_network.conflicts import Conflicts
from ground_network.network import build, keep_useful, mark_runways, tell_runways, thin_runways
from ground_network.pieces import Cutting, Pieces
from ground_network.problem import NOTHING_TO_MAKE, Problem, Report, counted
from ground_network.stands import StandMaker, add_dead_ends
from ground_network.turns import drop_unreached, forbid_turns
from ground_network.ways import Spread, Ways

FAR_LEAD_IN = 150.0


@dataclass(frozen=True)
class Choices:
    """What can be chosen: the classes, lengths in metres, an angle in degrees."""

    classes: tuple
    cutting: Cutting = Cutting()
    longest_lead_in: float = 250.0
    widest_span: float = 36.0
    sharpest: float = 140.0
    keep_runway_edges: bool = False
    dead_ends: bool = False
    are_default_classes: bool = False
    pushback: int = 0


def make_airport(source, choices, report):
    """The airport that comes of a source; the report tells what was made and what was left out."""
    network = make_network(source, choices, report)
    start_at = make_stands(network, source, choices, report)
    idle = idle_classes(network, start_at, choices)
    if idle:
        kept = tuple(aircraft_class for aircraft_class in choices.classes if aircraft_class.name not in idle)
        choices = replace(choices, classes=kept)
        what = "default class" if len(idle) == 1 else "default classes"
        report.say(f"left out the {what} {' and '.join(idle)}, which no stand takes; --class gives a class in any case")
        # What is left out for the other classes was told above.
        network = make_network(source, choices, Report())
        start_at = make_stands(network, source, choices, Report())
    turns, spared = forbid_turns(network, choices.classes, choices.sharpest)
    if spared:
        report.say(f"kept {counted(spared, 'sharp turn')} or turns through a stand that some class needs to reach a stand or to leave it")
    if len(turns) > output.MOST_FORBIDS:
        report.warn(f"{len(turns)} turns are unwanted, and {output.MOST_FORBIDS} are forbidden; a larger --sharp makes them fewer")
        turns = turns[: output.MOST_FORBIDS]
    airport = cut_to_fit(network, turns, choices, report)
    tell_made(airport, start_at, source, report)
    return airport


def make_network(source, choices, report):
    """The network that flights can use, with no stands yet."""
    if not source.nodes or not source.edges:
        raise Problem(NOTHING_TO_MAKE, f"{source.title} has no ground network: no nodes and taxiways between them")
    network = build(source, report)
    mark_runways(network, source.runways, report)
    if not any(node.kind == "runway" for node in network.nodes):
        why = "no node of its ground network on a runway, so no flight could begin or end"
        raise Problem(NOTHING_TO_MAKE, f"{source.title} has {why}")
    if not choices.keep_runway_edges:
        thin_runways(network, source.runways, report)
    tell_runways(network, source.runways)
    keep_useful(network, choices.classes, report)
    if not network.edges:
        raise Problem(NOTHING_TO_MAKE, f"{source.title} has no taxiway that leads from a runway node and to one")
    refuse_too_large(too_many(network.edges, output.MOST_SEGMENTS, "segments"))
    return network


def make_stands(network, source, choices, report):
    """Joins the stands; gives what is known of each by its node."""
    if not source.starts:
        report.warn(f"{source.title} has no startup location: the dead ends of its network become stands")
    maker = StandMaker(network, source.runways, choices.classes, choices.longest_lead_in)
    start_at = maker.make(source.starts)
    maker.tell(report)
    if choices.dead_ends or not source.starts:
        add_dead_ends(network, choices.classes, start_at)
    gone = drop_unreached(network, start_at)
    names = [network.nodes[node].wanted or network.nodes[node].origin for node in gone]
    report.left_out("stands", names, "to which no runway node leads and back")
    for node in gone:
        del start_at[node]
    if not start_at:
        raise Problem(NOTHING_TO_MAKE, f"{source.title} has no stand that a runway node leads to and that leads to one")
    return start_at


def idle_classes(network, start_at, choices):
    """The names of the default classes that no stand takes. Classes that were asked for stay in any case."""
    taken = frozenset().union(*(allowed_at(network, node) for node in start_at))
    return [one.name for one in choices.classes if choices.are_default_classes and one.name not in taken]


def cut_to_fit(network, turns, choices, report):
    """Cuts the edges as chosen, or where the airport file would be too large, into longer pieces."""
    cutting, why = choices.cutting, ""
    for times in (1, 2, 4, 8, math.inf):
        longer = cutting if times == 1 else Cutting(cutting.shortest * times, cutting.stub, cutting.longest * times)
        pieces = Pieces(network, longer)
        why = too_many(pieces.all, output.MOST_SEGMENTS, "segments") or too_many(pieces.used_nodes(), output.MOST_NODES, "nodes")
        if why:
            continue
        conflicts = Conflicts(pieces, choices.classes, choices.widest_span)
        sets = conflicts.sets()
        why = too_many(sets, output.MOST_SETS, "conflict sets")
        if not why:
            if times > 1:
                report.warn(f"edges are cut {times} times as coarsely as asked for, since the airport file takes no more")
            return output.Airport(pieces, choices.classes, turns, sets, choices.pushback)
    refuse_too_large(why)
    return None


def refuse_too_large(why):
    """Ends the run where there is too much of something."""
    if why:
        raise Problem(NOTHING_TO_MAKE, f"the network is too large for an airport file: {why}")


def too_many(things, most, what):
    """Says that there are more things than may be; the empty text where there are not."""
    return f"{len(things)} {what} of at most {most}" if len(things) > most else ""


def tell_made(airport, start_at, source, report):
    """Tells what came of it, and what a person may want to look at."""
    pieces = airport.pieces
    kinds = [pieces.nodes[node].kind for node in airport.order]
    counts = f"{kinds.count('runway')} runway nodes, {kinds.count('junction')} junctions, {kinds.count('stand')} stands"
    rest = f"{len(pieces.all)} segments, {len(airport.turns)} forbidden turns, {len(airport.sets)} conflict sets"
    report.say(f"made, {counts}, {rest}")
    for aircraft_class in airport.classes:
        name, speed, lead = aircraft_class.name, aircraft_class.speed, aircraft_class.lead
        stands = sum(name in allowed_at(pieces.network, node) for node in start_at)
        report.say(f"class {name}, {speed:g} m/s on taxiways, {lead:g} m/s on lead-ins, {stands} stands")
        if not stands:
            report.warn(f"no stand takes class {name}; see --class, or leave it out")
    if airport.pushback:
        names = ", ".join(airport.pushback_name(aircraft_class) for aircraft_class in airport.classes)
        report.say(f"classes for departures with {airport.pushback} s of pushback: {names}")
    tell_short_names(airport, report)
    tell_long_leads(airport, report)
    tell_unused_runways(pieces.network, airport.classes, source.runways, report)


def allowed_at(network, node):
    """The names of the classes that may use an edge at a node."""
    return frozenset().union(*(network.edges[key].classes for key in network.ends[node]))


def tell_long_leads(airport, report):
    """Warns of lead-ins that are longer than an apron is wide."""
    network = airport.pieces.network
    long = [edge for edge in network.edges.values() if edge.stand >= 0 and not edge.label and network.length(edge) > FAR_LEAD_IN]
    names = [f"{airport.name(edge.stand)} {network.length(edge):.0f} m" for edge in long]
    if names:
        advice = "see on the map whether their stands belong there"
        are = "1 lead-in is" if len(names) == 1 else f"{len(names)} lead-ins are"
        report.warn(f"{are} longer than {FAR_LEAD_IN:g} m, {advice}: {', '.join(names)}")


def tell_short_names(airport, report):
    """Tells the segments of the stands whose names had to be shortened, a line for each stand."""
    found = {}
    for piece in airport.pieces.all:
        edge = airport.pieces.network.edges[piece.key]
        if piece.stand >= 0 or edge.stand >= 0 and not edge.label:
            found.setdefault(airport.name(max(piece.stand, edge.stand)), []).append(piece.name)
    for stand, names in found.items():
        if any(name[2:] != stand and not name[2:].startswith(stand + ".") for name in names):
            report.say(f"segments of the stand {stand}: {', '.join(names)}")


def at_stands(ways, names, backward):
    """The runway nodes from which some class reaches a stand, or with `backward` to which it leads from one."""
    spreads, found = [Spread(ways, class_name, (), backward) for class_name in names], 0
    for spread, stand in itertools.product(spreads, ways.stands):
        found |= spread.at(stand)
    return found


def tell_unused_runways(network, classes, runways, report):
    """Warns of runways to which no stand leads, or from which none is reached."""
    ways, names = Ways(network), names_of(classes)
    come, go = at_stands(ways, names, backward=False), at_stands(ways, names, backward=True)
    for runway in runways:
        bits = sum(1 << bit for bit, node in enumerate(ways.runway) if network.nodes[node].runway is runway)
        if not bits:
            report.warn(f"runway {runway.name} has no node of the network: no flight begins or ends there")
        elif not bits & come or not bits & go:
            what = "reaches" if bits & come else "comes from"
            report.warn(f"no flight {what} runway {runway.name}: look at the one-way taxiways")
