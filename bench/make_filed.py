#!/usr/bin/env python3
"""Writes commands that file N flights one after the other over a chain of segments: make_filed.py N AIRPORT.

AIRPORT is a file of make_airport.py. Each flight crosses four segments of one row of the grid, in a slot of its own.
"""
import sys
from pathlib import Path


def read_segments(path):
    """The node at which each segment ends, by its name, and the segments that begin at each node."""
    heads, by_tail = {}, {}
    for row in (line.split(",") for line in Path(path).read_text().splitlines()):
        if row[0] == "segment":
            heads[row[1]] = row[3]
            by_tail.setdefault(row[2], []).append(row[1])
    return heads, by_tail


def walk(first, heads, by_tail):
    """Four segments one after the other, or fewer where no more follows."""
    route = [first]
    while len(route) < 4 and heads[route[-1]] in by_tail:
        route.append(by_tail[heads[route[-1]]][0])
    return route


def command(flight, route):
    """The command of the flight of a number, which takes 90 seconds for each segment."""
    begin = 400 * (flight // 8) % 600000
    words = [f"{name}+ {begin + 90 * step}" for step, name in enumerate(route, 1)]
    return f"file F{flight} C0 {begin} {' '.join(words)}"


def main():
    """Prints a command for each flight; the first segments are spread over the first half of the grid."""
    flights, (heads, by_tail) = int(sys.argv[1]), read_segments(sys.argv[2])
    starts = sorted(heads, key=lambda name: int(name[1:]))
    for flight in range(flights):
        first = starts[37 * flight % (len(starts) // 2)]
        print(command(flight, walk(first, heads, by_tail)))


main()
