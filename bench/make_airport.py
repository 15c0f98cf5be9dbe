#!/usr/bin/env python3
"""Writes an airport file as large as the limits allow: make_airport.py NODES SEGMENTS CLASSES FORBIDS SETS.

The nodes stand on a grid whose rows and columns are joined by segments; each class has seconds on each segment; turns are
forbidden and conflict sets of three neighbours are given as far as the numbers ask for them. With no numbers the file is
as large as its 4,194,304 bytes allow.
"""
import sys

LIMIT = 4_194_304


def following(node, nodes, side):
    """The nodes to which segments lead from one: to the right and below."""
    right = [node + 1] if (node + 1) % side and node + 1 < nodes else []
    return right + ([node + side] if node + side < nodes else [])


def turns_of(ends):
    """The turns from one segment onto another, both along their directions."""
    by_head = {}
    for segment, (_, head) in enumerate(ends):
        by_head.setdefault(head, []).append(segment)
    return [(before, after) for after, (tail, _) in enumerate(ends) for before in by_head.get(tail, [])]


def rows(nodes, segments, classes, forbids, sets):
    """The records of the file; more of them than fit may come."""
    side = int(nodes ** 0.5)
    ends = [(node, other) for node in range(nodes) for other in following(node, nodes, side)][:segments]
    yield from ("taxi-airport,1", "horizon,604800")
    yield from (f"node,N{node},{'runway' if node < side else 'stand' if node >= nodes - side else 'junction'}" for node in range(nodes))
    yield from (f"class,C{number}" for number in range(classes))
    yield from (f"segment,S{number},N{tail},N{head},both" for number, (tail, head) in enumerate(ends))
    yield from (f"forbid,S{before}+,S{after}+" for before, after in turns_of(ends)[:forbids])
    yield from (f"conflict,S{number},S{number + 1},S{number + 2}" for number in range(min(sets, len(ends) - 2)))
    pairs = ((segment, number) for segment in range(len(ends)) for number in range(classes))
    yield from (f"seconds,S{segment},C{number},{20 + (7 * segment + number) % 60}" for segment, number in pairs)


def main():
    """Prints the records that fit."""
    numbers = [int(word) for word in sys.argv[1:]] or [9_900, 10_000, 32, 10_000, 10_000]
    size, out = 0, []
    for row in rows(*numbers):
        size += len(row) + 1
        if size > LIMIT:
            break
        out.append(row)
    sys.stdout.write("\n".join(out) + "\n")


main()
