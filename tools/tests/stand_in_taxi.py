#!/usr/bin/env python3
"""Stands in for the router on an airport of one segment A between the runway node R and the stand S1.

Class M needs 30 seconds there, and class H 40. It answers as the router would, without labels. Its `check` accepts everything.
"""
import sys

SECONDS = {"M": 30, "H": 40}


class Router:
    """Who holds the segment, by name."""

    def __init__(self):
        self.held = {}

    def is_free(self, begin, end):
        """Whether nobody holds a second from BEGIN up to END."""
        return all(end <= other or until <= begin for other, until in self.held.values())

    def answer(self, line):
        """The reply to a line, with its line ends."""
        words = line.split(" ")
        if words[0] in ("arrival", "departure"):
            return self.route(words)
        if words[0] == "batch":
            return self.batch(words)
        if words[0] in ("file", "work"):
            return self.file(words)
        if words[0] == "cancel":
            gone = self.held.pop(words[1], None)
            return f"cancelled {words[1]}\n" if gone else "refused not-in-force\n"
        return "refused bad-line\n"

    def route(self, words):
        """The reply to a request."""
        kind, flight, class_name, _, _, time, limit = words
        if flight in self.held:
            return "refused in-force\n"
        least, time, limit = SECONDS[class_name], int(time), int(limit)
        if kind == "arrival":
            begins = range(time, time + limit + 1)
        else:
            begins = range(time - least, max(0, time - limit) - least - 1, -1)
        for begin in begins:
            if begin >= 0 and begin + least <= 3600 and self.is_free(begin, begin + least):
                self.held[flight] = (begin, begin + least)
                second, arc = (begin + least, "A+") if kind == "arrival" else (begin, "A-")
                return f"route {flight} {second} 1 0\nstep {arc} {begin} {begin + least}\n"
        return "no-route 0\n"

    def batch(self, words):
        """The reply to several requests, in the order of the line."""
        pieces = [words[at:at + 7] for at in range(1, len(words), 7)]
        entries = "".join(f"next {piece[1]}\n{self.route(piece)}" for piece in pieces)
        return f"batch {len(pieces)} 0\n{entries}"

    def file(self, words):
        """The reply to a route of one step, or to a work party."""
        begin, end = int(words[3]), int(words[-1] if words[0] == "file" else words[4])
        if not self.is_free(begin, end):
            return "refused step 1 taken 0 X\n"
        self.held[words[1]] = (begin, end)
        return f"filed {words[1]} {begin} {end}\n"


def main():
    """Does what a verb asks for."""
    verb, _, name = sys.argv[1:4]
    if verb == "check":
        print("ok 0")
        return
    with sys.stdin if name == "-" else open(name) as file:
        lines = [line.rstrip("\n") for line in file]
    if verb == "import":
        for fields in (line.split(",") for line in lines[2:]):
            hours, minutes, rest = fields[5][11:19].split(":")
            fields[5] = str(3600 * int(hours) + 60 * int(minutes) + int(rest))
            print(" ".join(fields))
        return
    router = Router()
    print("".join(map(router.answer, lines)) + f"done {len(lines)}")


if __name__ == "__main__":
    main()
