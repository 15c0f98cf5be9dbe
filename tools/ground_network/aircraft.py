"""The classes of aircraft: how fast each taxis, and which stands and taxiways take it."""
import math
from dataclasses import dataclass, replace

from ground_network.names import is_name
from ground_network.problem import BAD_WORDS, Problem

WING_SPANS = {"A": 15.0, "B": 24.0, "C": 36.0, "D": 52.0, "E": 65.0, "F": 80.0}
MOST_CLASSES = 32


@dataclass(frozen=True)
class AircraftClass:
    """`speed` and `lead` are metres a second on taxiways and on lead-ins; `clearance` is seconds; `size` is the letter of
    the least stand or taxiway that takes the class; `kinds` are the words of a startup location that let it in."""

    name: str
    speed: float
    lead: float
    clearance: int
    size: str
    kinds: frozenset

    @property
    def span(self):
        """The wing span in metres."""
        return WING_SPANS[self.size]

    def fits(self, size):
        """Whether the class fits where a size is told; it does where none is."""
        return not size or self.size <= size

    def is_let_in(self, kinds):
        """Whether a startup location of these kinds lets the class in; one of none lets all in."""
        return not kinds or "all" in kinds or bool(self.kinds & kinds)

    def seconds_on(self, metres, is_lead):
        """The least whole seconds that the class needs for a length, 1 at least."""
        return max(1, math.ceil(round(metres / (self.lead if is_lead else self.speed), 6)))


DEFAULTS = {
    "L": AircraftClass("L", 8.0, 3.0, 5, "B", frozenset({"props", "turboprops"})),
    "M": AircraftClass("M", 8.0, 3.0, 8, "C", frozenset({"turboprops", "jets"})),
    "H": AircraftClass("H", 7.0, 2.5, 15, "E", frozenset({"heavy"})),
}


def class_of(words):
    """The class of a text as NAME:speed=8:lead=3:clearance=8:size=C:kinds=jets+heavy; what isn't told is as for L, M or H, else M."""
    name, *settings = words.split(":")
    made = replace(DEFAULTS.get(name, DEFAULTS["M"]), name=name)
    if not is_name(name):
        raise Problem(BAD_WORDS, f"--class {words}: {name} is no name")
    for setting in settings:
        key, _, value = setting.partition("=")
        try:
            made = replace(made, **{key: value_of(key, value)})
        except ValueError as error:
            raise Problem(BAD_WORDS, f"--class {words}: {error}") from error
    return made


def value_of(key, value):
    """The value of a setting; one that it can't have is a ValueError, whose text says what it may be."""
    if key in ("speed", "lead"):
        speed = float(value)
        if not 0.1 <= speed <= 50:
            raise ValueError(f"{key} is from 0.1 to 50 metres a second")
        return speed
    if key == "clearance":
        if not (value.isdecimal() and int(value) <= 600):
            raise ValueError("clearance is from 0 to 600 seconds")
        return int(value)
    if key == "size":
        if value not in WING_SPANS:
            raise ValueError("size is a letter from A to F")
        return value
    if key == "kinds":
        return frozenset(value.split("+"))
    raise ValueError(f"{key} is none of speed, lead, clearance, size, kinds")


def classes_of(texts):
    """The classes that are asked for, or L, M and H."""
    classes = [class_of(text) for text in texts] or list(DEFAULTS.values())
    if len(names_of(classes)) < len(classes) or len(classes) > MOST_CLASSES:
        raise Problem(BAD_WORDS, f"--class: each name once, and at most {MOST_CLASSES} of them")
    return classes


def names_of(classes):
    """The names of some classes."""
    return frozenset(aircraft_class.name for aircraft_class in classes)


def classes_at(start, classes):
    """The classes that a startup location takes, and whether its size and its kinds say different things."""
    if start.classes:
        return names_of(classes) & frozenset(start.classes), False
    by_kind = [aircraft_class for aircraft_class in classes if aircraft_class.is_let_in(start.kinds)]
    by_both = [aircraft_class for aircraft_class in by_kind if aircraft_class.fits(start.size)]
    return names_of(by_both or by_kind), bool(by_kind) and not by_both
