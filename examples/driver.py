"""Asks a router one command after the other: driver.py TAXI AIRPORT <COMMANDS"""

import subprocess
import sys

# How many numbers at the end of a block's first line say how many lines follow it.
COUNTS = {"route": 2, "no-route": 1, "windows": 1, "occupancy": 1, "timetable": 1}


class Router:
    """A router that runs beside this program and answers a command at a time."""

    def __init__(self, taxi, airport):
        words = [taxi, "route", airport, "-"]
        self.process = subprocess.Popen(words, stdin=subprocess.PIPE, stdout=subprocess.PIPE, text=True)

    def ask(self, command):
        """The answer's blocks: one, or one for each flight of a `batch` or a `late`. A block is its lines, each a list of words."""
        self.process.stdin.write(command + "\n")
        self.process.stdin.flush()
        first = self.line()
        count = {"batch": 1, "late": 2}.get(first[0])
        return [self.block(first)] if count is None else [self.entry() for _ in range(int(first[count]))]

    def entry(self):
        """The block of the next flight of several. Where there is no route, its first line begins with the flight's name."""
        named = self.line()
        if named[0] == "dropped":
            return [named]
        first, *rest = self.block(self.line())
        return [first if first[0] == "route" else named[1:] + first, *rest]

    def block(self, first):
        follow = sum(map(int, first[len(first) - COUNTS.get(first[0], 0) :]))
        return [first] + [self.line() for _ in range(follow)]

    def line(self):
        line = self.process.stdout.readline()
        if not line:
            raise EOFError(f"the router ended with status {self.process.wait()}")
        return line.split()


def main():
    """Asks each command of standard input."""
    if len(sys.argv) != 3:
        sys.exit("driver.py TAXI AIRPORT <COMMANDS")
    router = Router(sys.argv[1], sys.argv[2])
    for line in map(str.strip, sys.stdin):
        if line and not line.startswith("#"):
            for block in router.ask(line):
                steps = [words[1] for words in block if words[0] == "step"]
                print(f"{block[0][1]}: at {block[0][2]} by {' '.join(steps)}" if steps else " ".join(block[0]))


if __name__ == "__main__":
    main()
