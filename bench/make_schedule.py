#!/usr/bin/env python3
"""Writes a day's schedule over an airport of make_airport.py, as large as a schedule may be: make_schedule.py AIRPORT [BYTES].

Every eighth row is one that cannot be taken, for each of the reasons in turn.
"""
import datetime
import itertools
import sys
from pathlib import Path

LIMIT = 16_777_216
DAY = datetime.datetime(2026, 3, 29)


def spoilt(fields, k):
    """The fields of a row with one thing wrong: the first field, their number, a name, the time, the number, a name that
    nothing has, the kinds, the day."""
    word, flight, class_name, start, to, when, slack = fields
    return (
        ["cargo"] + fields[1:],
        fields + ["late"],
        [word, flight + "*"] + fields[2:],
        fields[:5] + [when + "Z", slack],
        fields[:6] + ["x"],
        [word, flight, "none"] + fields[3:],
        [word, flight, class_name, to, start, when, slack],
        fields[:5] + ["2031" + when[4:], slack],
    )[k % 8]


def read_names(path):
    """The names of an airport's runway nodes, stands and classes."""
    rows = [line.split(",") for line in Path(path).read_text().splitlines()]
    nodes = [[row[1] for row in rows if row[0] == "node" and row[2] == kind] for kind in ("runway", "stand")]
    return *nodes, [row[1] for row in rows if row[0] == "class"]


def fields_of(k, runways, stands, classes):
    """The fields of the K-th row, all of them right: by turns an arrival and a departure."""
    runway, stand, class_name = runways[7 * k % len(runways)], stands[11 * k % len(stands)], classes[k % len(classes)]
    when = (DAY + datetime.timedelta(seconds=97 * k % 82800)).isoformat()
    if k % 2 == 0:
        return ["arrival", f"F{k}", class_name, runway, stand, when + "+01:00", "120"]
    return ["departure", f"F{k}", class_name, stand, runway, when + "Z", "900"]


def rows(path):
    """The rows of a schedule without an end."""
    names = read_names(path)
    yield "taxi-schedule,1"
    yield f"start,{DAY.isoformat()}+01:00"
    for k in itertools.count():
        fields = fields_of(k, *names)
        yield ",".join(spoilt(fields, k // 8) if k % 8 == 7 else fields)


def main():
    """Prints as many rows as there is room for."""
    limit = int(sys.argv[2]) if len(sys.argv) > 2 else LIMIT
    size = 0
    for row in rows(sys.argv[1]):
        size += len(row) + 1
        if size > limit:
            break
        print(row)


main()
