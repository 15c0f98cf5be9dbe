"""What the rows of a study come to: quantiles by group, what becomes of each flight, and the segments that are waited for.

All values are whole seconds or counts. So a distribution is how often each value was seen, and memory doesn't grow with the days.
"""
import csv
import math
from collections import Counter, defaultdict, namedtuple
from dataclasses import dataclass, field
from pathlib import Path

from day_study.rows import DAY, FLIGHT, SEGMENT

FlightRow = namedtuple("FlightRow", FLIGHT.replace(",class,", ",class_name,").replace(",from,to,", ",source,target,"))
SegmentRow = namedtuple("SegmentRow", SEGMENT)
DayRow = namedtuple("DayRow", DAY)
MEASURES = ("taxi", "wait", "held", "delay")
# So many of the worst days are known by their numbers.
MOST_WORST = 1000
SHARES = (5, 25, 50, 75, 95, 99)
QUANTILES = ",".join(f"q{share:02}" for share in SHARES)
SUMS = f"group,name,measure,count,sum,mean,least,{QUANTILES},most"
BY_FLIGHT = "flight,kind,class,stand,days,served,no_route,refused,other,kept,steady,no_route_share,kept_share,steady_share,mean_delay,longest_delay"
BY_SEGMENT = f"segment,days_waited,days_waited_share,passes,seconds,wait,waited_for,waiting,mean,{QUANTILES},most"
PASSES = ("passes", "seconds", "wait", "waited_for", "waiting")
SEGMENT_MEASURES = ("seconds", "wait", "waited_for")
COUNTS = ("days", "served", "no_route", "refused", "other", "kept", "steady")
DAILY = ("flights", "served", "no_route", "refused", "other", "taxi", "wait", "held", "delay", "kept", "steady")
OUTCOMES = {"route": "served", "filed": "served", "no-route": "no_route", "refused": "refused"}


def quantile(counts, total, share):
    """The least value that so many hundredths of all don't pass."""
    due, seen = max(1, math.ceil(total * share / 100)), 0
    for value in sorted(counts):
        seen += counts[value]
        if seen >= due:
            return value
    return 0


def shape(counts):
    """The number of values, their sum, their mean, the least, the quantiles and the largest."""
    total = sum(counts.values())
    if not total:
        return [0, 0, *[""] * (len(SHARES) + 3)]
    whole = sum(value * often for value, often in counts.items())
    quantiles = [quantile(counts, total, share) for share in SHARES]
    return [total, whole, f"{whole / total:.2f}", min(counts), *quantiles, max(counts)]


def stand_of(row):
    """The stand of a flight's row."""
    return row.target if row.kind == "arrival" else row.source


@dataclass
class Record:
    """What became of one flight of the plan on all days."""

    kind: str = ""
    class_name: str = ""
    stand: str = ""
    counts: Counter = field(default_factory=Counter)
    delay: int = 0
    longest: int = 0

    def take(self, row, limit):
        """Adds a row of the flight."""
        self.kind, self.class_name = row.kind, row.class_name
        self.stand = self.stand or stand_of(row)
        self.counts[OUTCOMES.get(row.answer, "other")] += 1
        self.counts["days"] += 1
        if row.delay:
            self.delay += int(row.delay)
            self.longest = max(self.longest, int(row.delay))
        if row.shift:
            self.counts["kept"] += abs(int(row.shift)) <= limit
            self.counts["steady"] += abs(int(row.knock_on)) <= limit

    def share(self, what):
        """On which share of the days something is so."""
        return self.counts[what] / max(1, self.counts["days"])

    @property
    def mean_delay(self):
        """Its mean delay on the days on which it was served."""
        return self.delay / max(1, self.counts["served"])


@dataclass
class SegmentRecord:
    """What happened on one segment on all days. DAILY counts the seconds of the days on which there were any, for each measure."""

    totals: Counter = field(default_factory=Counter)
    daily: dict = field(default_factory=lambda: {name: Counter() for name in SEGMENT_MEASURES})

    def take(self, row):
        """Adds a row of the segment."""
        for name in PASSES:
            self.totals[name] += int(getattr(row, name))
        for name, counts in self.daily.items():
            value = getattr(row, name)
            if value != "0":
                counts[int(value)] += 1

    def all_days(self, name, days):
        """The seconds of a measure on each day, with the days on which there were none."""
        counts = Counter(self.daily[name])
        counts[0] += days - sum(counts.values())
        return +counts

    def days_waited(self):
        """On how many days it was waited for."""
        return sum(self.daily["waited_for"].values())


@dataclass
class Sums:
    """All sums of a study."""

    days: int = 0
    failed: int = 0
    cells: dict = field(default_factory=dict)  # (kind, class, stand) -> counts of each measure
    daily: dict = field(default_factory=lambda: defaultdict(Counter))  # column of `days.csv` -> counts
    flights: dict = field(default_factory=lambda: defaultdict(Record))
    segments: dict = field(default_factory=lambda: defaultdict(SegmentRecord))
    totals: Counter = field(default_factory=Counter)
    worst: list = field(default_factory=list)  # (flights not served, delay, day) of the worst days

    def take_flight(self, row, limit):
        """Adds a row of `flights.csv`."""
        self.flights[row.flight, row.kind].take(row, limit)
        if not row.taxi:
            return
        cell = row.kind, row.class_name, stand_of(row)
        if cell not in self.cells:
            self.cells[cell] = [Counter() for _ in MEASURES]
        for counts, value in zip(self.cells[cell], (row.taxi, row.wait, row.held, row.delay)):
            counts[int(value)] += 1

    def take_day(self, row):
        """Adds a row of `days.csv`."""
        if row.outcome != "done":
            self.failed += 1
            return
        self.days += 1
        for name in DAILY:
            value = int(getattr(row, name))
            self.totals[name] += value
            self.daily[name][value] += 1
        self.worst.append((int(row.flights) - int(row.served), int(row.delay), int(row.day)))
        self.worst.sort(key=lambda it: (-it[0], -it[1], it[2]))
        del self.worst[MOST_WORST:]

    def groups(self):
        """The counts of each group, name and measure, in the order of `sums.csv`."""
        groups = defaultdict(Counter)
        for (kind, class_name, stand), cell in self.cells.items():
            for place, (group, name) in enumerate((("all", "all"), ("kind", kind), ("class", class_name), ("stand", stand))):
                for measure, counts in zip(MEASURES, cell):
                    groups[place, group, name, measure].update(counts)
        for name, record in self.segments.items():
            for measure in SEGMENT_MEASURES:
                groups[8, "segment", name, measure] = record.all_days(measure, self.days)
        for measure, counts in self.daily.items():
            groups[9, "day", "all", measure] = counts
        return {key[1:]: groups[key] for key in sorted(groups, key=lambda key: key[:3])}

    def ranked_segments(self):
        """The segments with their records, the most waited-for first."""
        return sorted(self.segments.items(), key=lambda it: (-it[1].totals["waited_for"], it[0]))


def rows_of(path, form):
    """The rows of one of a study's files."""
    with open(path, newline="", encoding="utf-8") as file:
        file.readline()
        yield from map(form._make, csv.reader(file))


def sums_of(folder, limit):
    """The sums of the rows in a folder."""
    sums, folder = Sums(), Path(folder)
    for row in rows_of(folder / "days.csv", DayRow):
        sums.take_day(row)
    for row in rows_of(folder / "flights.csv", FlightRow):
        sums.take_flight(row, limit)
    for row in rows_of(folder / "segments.csv", SegmentRow):
        sums.segments[row.segment].take(row)
    return sums


def group_rows(sums):
    """The rows of `sums.csv`."""
    return [[*key, *shape(counts)] for key, counts in sums.groups().items()]


def flight_rows(sums):
    """The rows of `by_flight.csv`, in the order of the plan."""
    for (flight, kind), record in sums.flights.items():
        counts = [record.counts[it] for it in COUNTS]
        shares = [f"{record.share(it):.4f}" for it in ("no_route", "kept", "steady")]
        yield [flight, kind, record.class_name, record.stand, *counts, *shares, f"{record.mean_delay:.2f}", record.longest]


def segment_rows(sums):
    """The rows of `by_segment.csv`, the most waited-for first."""
    for name, record in sums.ranked_segments():
        _, _, mean, _, *rest = shape(record.all_days("waited_for", sums.days))
        waited = record.days_waited()
        totals = [record.totals[it] for it in PASSES]
        yield [name, waited, f"{waited / max(1, sums.days):.4f}", *totals, mean, *rest]


def write_sums(folder, sums):
    """Writes the three files of sums."""
    for name, header, rows in (
        ("sums.csv", SUMS, group_rows(sums)),
        ("by_flight.csv", BY_FLIGHT, flight_rows(sums)),
        ("by_segment.csv", BY_SEGMENT, segment_rows(sums)),
    ):
        lines = [header, *(",".join(map(str, row)) for row in rows)]
        Path(folder, name).write_text("\n".join(lines) + "\n")
