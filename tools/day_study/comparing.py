"""Studies side by side: the same days under another router, another order, or at another airport."""
import csv
import itertools
import math
import sys
from collections import Counter
from dataclasses import dataclass, field
from pathlib import Path

from day_study.problem import Refused
from day_study.sums import FlightRow, quantile, rows_of
from day_study.writing import read_settings

COLUMNS = ("study", "with a route", "taxi", "wait", "held", "delay", "95 %", "steady", "less delay a day")
# The true mean lies so many standard errors to both sides in 95 of 100 cases.
ERRORS = 1.96


def percent(share):
    """A share in hundredths."""
    return f"{100 * share:.2f} %"


def interval(values):
    """The mean of some values, and how far the true mean may be from it."""
    count = len(values)
    mean = sum(values) / max(1, count)
    if count < 2:
        return f"{mean:.0f}"
    error = math.sqrt(sum((value - mean) ** 2 for value in values) / (count - 1) / count)
    return f"{mean:.0f} ± {ERRORS * error:.0f}"


@dataclass
class Tally:
    """What a study comes to. All but SERVED is over the flights that have a route in each of the studies."""

    limit: int
    served: int = 0
    sums: Counter = field(default_factory=Counter)
    delays: Counter = field(default_factory=Counter)
    daily: list = field(default_factory=list)  # the delay of each day

    def take(self, row):
        """Adds a flight that has a route in each study, and gives its delay."""
        for name in ("taxi", "wait", "held"):
            self.sums[name] += int(getattr(row, name))
        if row.knock_on:
            self.sums["steady"] += abs(int(row.knock_on)) <= self.limit
        delay = int(row.delay)
        self.delays[delay] += 1
        return delay

    def row(self, name, flights, first):
        """The row of the study among so many flights; FIRST is what the first study comes to."""
        common = max(1, sum(self.delays.values()))
        means = [self.sums[name] / common for name in ("taxi", "wait", "held")]
        delay = sum(value * often for value, often in self.delays.items()) / common
        saved = "" if self is first else interval([before - now for before, now in zip(first.daily, self.daily)])
        return [
            name, percent(self.served / max(1, flights)), *(f"{mean:.1f}" for mean in (*means, delay)),
            quantile(self.delays, common, 95), percent(self.sums["steady"] / common), saved,
        ]


@dataclass
class Comparison:
    """Studies, by their names, and what they come to."""

    names: list
    tallies: list
    flights: int = 0
    common: int = 0
    alone: int = 0

    def take_day(self, days):
        """Adds the rows of a day; DAYS has those of each study."""
        delays = [0] * len(self.names)
        for rows in itertools.zip_longest(*days):
            if any(row is None or row[:3] != rows[0][:3] for row in rows):
                raise Refused("the studies are of other plans, or of other days")
            self.flights += 1
            for tally, row in zip(self.tallies, rows):
                tally.served += bool(row.taxi)
            if all(row.taxi for row in rows):
                self.common += 1
                self.alone += int(rows[0].taxi) + int(rows[0].held) - int(rows[0].delay)
                delays = [delay + tally.take(row) for delay, tally, row in zip(delays, self.tallies, rows)]
        for tally, delay in zip(self.tallies, delays):
            tally.daily.append(delay)

    def rows(self):
        """The rows of the table: the studies, and what no router can beat."""
        first = self.tallies[0]
        rows = [tally.row(name, self.flights, first) for name, tally in zip(self.names, self.tallies)]
        mean = f"{self.alone / max(1, self.common):.1f}"
        return rows + [["each flight alone", "", mean, "0.0", "0.0", "0.0", 0, "", interval(first.daily)]]


def flights_by_day(folder):
    """The rows of each day of a study."""
    rows = rows_of(Path(folder, "flights.csv"), FlightRow)
    return itertools.groupby(rows, key=lambda row: int(row.day))


def compared(folders):
    """The comparison of the studies in some folders. Days that failed in one of them are left out."""
    settings = [read_settings(folder) for folder in folders]
    for name in ("seed", "delays", "limit"):
        if any(it[name] != settings[0][name] for it in settings):
            raise Refused(f"the studies have not the same {name}, so their days differ")
    comparison = Comparison([Path(folder).name for folder in folders], [Tally(it["limit"]) for it in settings])
    for days in same_days([flights_by_day(folder) for folder in folders]):
        comparison.take_day(days)
    return comparison


def same_days(studies):
    """The rows of each day that all studies have."""
    present = [next(study, None) for study in studies]
    while all(present):
        last = max(day for day, _ in present)
        if all(day == last for day, _ in present):
            yield [rows for _, rows in present]
            present = [next(study, None) for study in studies]
        else:
            present = [it if it[0] == last else next(study, None) for it, study in zip(present, studies)]


def write_table(rows, as_csv, out=sys.stdout):
    """Writes the table, as CSV or for a reader and for a page in Markdown."""
    if as_csv:
        csv.writer(out, lineterminator="\n").writerows([COLUMNS, *rows])
        return
    texts = [[str(cell) for cell in row] for row in (COLUMNS, *rows)]
    wide = [max(len(row[at]) for row in texts) for at in range(len(COLUMNS))]
    lines = ["| " + " | ".join(cell.ljust(wide[at]) for at, cell in enumerate(row)) + " |" for row in texts]
    lines.insert(1, "|" + "|".join("-" * (width + 2) for width in wide) + "|")
    out.write("\n".join(lines) + "\n")
