"""What differs between two plans, flight by flight."""
import csv
import io
from dataclasses import dataclass, field

from endings import Stopped

FIRST_FIELDS = "name,kind,class,from,to,step"
COMPARED = ("kind", "class_name", "origin", "goal", "begin", "end", "waited", "way")
CALLED = {"class_name": "class", "origin": "from", "goal": "to"}


@dataclass
class Planned:
    """A flight or a work party of a plan, with the segments of its way in their order."""

    name: str
    kind: str
    class_name: str
    origin: str
    goal: str
    begin: str
    end: str = ""
    waited: int = 0
    steps: list = field(default_factory=list)

    @property
    def way(self):
        """The steps of the way in words."""
        return " ".join(self.steps)


@dataclass(frozen=True)
class Change:
    """One thing that differs for a flight. A flight that only one plan has is `new` or `gone`."""

    name: str
    what: str
    before: str
    after: str


def is_plan(data):
    """Whether bytes are a table that `taxi-tools plan` wrote."""
    return data.decode("utf-8-sig", errors="replace").startswith(FIRST_FIELDS)


def read_plan(data, name):
    """The flights and work parties of a plan by their names."""
    planned = {}
    for number, row in enumerate(csv.DictReader(io.StringIO(data.decode("utf-8-sig", errors="replace"))), start=2):
        try:
            take_row(planned, row)
        except (KeyError, TypeError, ValueError) as fault:
            raise Stopped(f"{name}: row {number} is none of a plan") from fault
    return planned


def take_row(planned, row):
    """Takes one step of a plan."""
    first = Planned(row["name"], row["kind"], row["class"], row["from"], row["to"], clock_of(row["enter"]))
    one = planned.setdefault(row["name"], first)
    one.end = clock_of(row["leave"])
    one.waited += int(row["wait"])
    one.steps.append(row["segment"] + {"forward": "+", "backward": "-"}.get(row["direction"], ""))


def clock_of(text):
    """A time of a plan: seconds as they are, a civil time without its offset."""
    return text[:19].replace("T", " ")


def changes(before, after):
    """All that differs, by the names of the flights."""
    found = []
    for name in sorted(before.keys() | after.keys()):
        if name not in before:
            found.append(Change(name, "new", "", in_words(after[name])))
        elif name not in after:
            found.append(Change(name, "gone", in_words(before[name]), ""))
        else:
            found += changes_of(before[name], after[name])
    return found


def changes_of(before, after):
    """What differs for one flight."""
    pairs = [(what, str(getattr(before, what)), str(getattr(after, what))) for what in COMPARED]
    return [Change(before.name, CALLED.get(what, what), old, new) for what, old, new in pairs if old != new]


def in_words(planned):
    """A flight in a few words."""
    return f"{planned.kind} {planned.origin} to {planned.goal}, {planned.begin} to {planned.end}"


def lines_of(found):
    """A line for each flight that differs. Where both times are of one date, the dates are left out."""
    by_name = {}
    for change in found:
        by_name.setdefault(change.name, []).append(change)
    return [f"{name} {'; '.join(map(told, group))}" for name, group in by_name.items()]


def told(change):
    """A change in words."""
    if change.what == "way":
        return "other way"
    if change.what in ("new", "gone"):
        return f"{change.what}: {change.before or change.after}"
    if change.before[:11] == change.after[:11] and change.before[10:11] == " ":
        return f"{change.what} {change.before[11:]} -> {change.after[11:]}"
    return f"{change.what} {change.before} -> {change.after}"


def counts(before, after, found):
    """How many flights differ, and the waiting of both plans, in words."""
    kinds = {change.name: change.what for change in found}
    new, gone = (sum(kind == what for kind in kinds.values()) for what in ("new", "gone"))
    same = len(before.keys() & after.keys()) - (len(kinds) - new - gone)
    waited = [sum(one.waited for one in plan.values()) for plan in (before, after)]
    return f"{len(kinds) - new - gone} changed, {new} new, {gone} gone, {same} as before; waiting {waited[0]} -> {waited[1]} s"
