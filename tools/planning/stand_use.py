"""Which aircraft stands where and when: arrivals and departures paired by name, by registration or by stand."""
from dataclasses import dataclass, field
from itertools import combinations
from typing import Optional

from day_replay.replay import told_times

SINCE_UNKNOWN, UNTIL_UNKNOWN = "since unknown", "until unknown"


@dataclass
class Movement:
    """A flight that comes to a stand, leaves one, or both."""

    name: str
    class_name: str
    origin: Optional[str]  # the stand that it leaves
    goal: Optional[str]  # the stand to which it comes
    begin: int
    finish: int


@dataclass
class Visit:
    """An aircraft at a stand, from the end of its arrival up to the begin of its departure. One of the two may be missing."""

    stand: str
    arrival: Optional[Movement]
    departure: Optional[Movement]
    begin: int
    until: int
    note: str = ""
    overlaps: list = field(default_factory=list)

    @property
    def name(self):
        """The flight by which the aircraft is called."""
        return (self.arrival or self.departure).name

    @property
    def class_name(self):
        """The aircraft's class."""
        return (self.arrival or self.departure).class_name


@dataclass(frozen=True)
class Moved:
    """A departure from another stand than the one at which its aircraft is."""

    arrival: Movement
    departure: Movement


def movements_of(day):
    """The flights that have used a stand, or are to use it. One that was cancelled counts if it was over by then."""
    told, airport = told_times(day.run), day.airport

    def stand_at(node):
        name, kind = airport.nodes[node]
        return name if kind == "stand" else None

    found = []
    for stay in day.run.stays:
        over = stay.closed is None or stay.end == "cancelled" and told[stay.closed - 1] >= stay.finish
        if stay.kind != "work" and over:
            origin, goal = stand_at(airport.tail(stay.steps[0][0])), stand_at(airport.head(stay.steps[-1][0]))
            found.append(Movement(stay.name, airport.classes[stay.class_number], origin, goal, stay.begin, stay.finish))
    return sorted(found, key=lambda movement: movement.begin)


class Pairing:
    """Gives each departure the arrival whose aircraft it takes."""

    def __init__(self, movements, registrations):
        self.registrations = registrations
        self.there = sorted((one for one in movements if one.goal), key=lambda one: one.finish)
        self.moved = []

    def aircraft(self, movement):
        """What names the aircraft of a flight: its registration, or else the flight's own name."""
        return self.registrations.get(movement.name, movement.name)

    def take(self, departure):
        """The arrival of a departure: of the same aircraft, or else the first that came to its stand. None where there is none."""
        came = [one for one in self.there if one.finish <= departure.begin and one is not departure]
        same = [one for one in came if self.aircraft(one) == self.aircraft(departure)]
        if same and all(one.goal != departure.origin for one in same):
            self.moved.append(Moved(same[-1], departure))
            return None
        known = departure.name in self.registrations
        others = [one for one in came if one.goal == departure.origin and not (known and one.name in self.registrations)]
        found = next((one for one in [*same, *others] if one.goal == departure.origin), None)
        if found is not None:
            self.there.remove(found)
        return found


def visits_of(movements, registrations, horizon):
    """The visits at all stands by their begins, and the departures from other stands than their aircraft's."""
    pairing, visits = Pairing(movements, registrations), []
    for departure in (one for one in movements if one.origin):
        arrival = pairing.take(departure)
        begin, note = (arrival.finish, "") if arrival else (None, SINCE_UNKNOWN)
        visits.append(Visit(departure.origin, arrival, departure, begin, departure.begin, note))
    visits += [Visit(one.goal, one, None, one.finish, horizon, UNTIL_UNKNOWN) for one in pairing.there]
    for visit in visits:
        if visit.begin is None:
            left = [other.until for other in visits if other.stand == visit.stand and other.until < visit.until]
            visit.begin = max(left, default=0)
    find_overlaps(visits)
    return sorted(visits, key=lambda visit: (visit.begin, visit.until)), pairing.moved


def find_overlaps(visits):
    """Notes for each visit the others that are at the stand in one of its seconds."""
    for one, other in combinations(visits, 2):
        if one.stand == other.stand and max(one.begin, other.begin) < min(one.until, other.until):
            one.overlaps.append(other)
            other.overlaps.append(one)


def gaps_of(visits, stand, horizon):
    """The times in which nobody is at a stand, each as its begin and its end."""
    found, free_from = [], 0
    for visit in sorted((one for one in visits if one.stand == stand), key=lambda one: one.begin):
        if visit.begin > free_from:
            found.append((free_from, visit.begin))
        free_from = max(free_from, visit.until)
    return found + [(free_from, horizon)] if free_from < horizon else found
