"""Asks a router one command after the other, and reads its answers as JSON: objects.py TAXI-TOOLS AIRPORT <COMMANDS"""

import json
import subprocess
import sys


class Router:
    """A router that runs beside this program and answers a command at a time."""

    def __init__(self, tools, airport):
        words = [tools, "json", airport, "-"]
        self.process = subprocess.Popen(words, stdin=subprocess.PIPE, stdout=subprocess.PIPE, text=True)

    def ask(self, command):
        """The answer as a dictionary."""
        self.process.stdin.write(command + "\n")
        self.process.stdin.flush()
        line = self.process.stdout.readline()
        if not line.startswith("{"):
            raise EOFError(f"the router said {line!r} and ended with status {self.process.wait()}")
        return json.loads(line)


def said(answer):
    """What a controller is to know of an answer: a line for each of its flights."""
    if "entries" in answer:
        return [line for entry in answer["entries"] for line in said({"words": answer["words"], **entry})]
    if answer["reply"] == "route":
        return [f"{answer['flight']}: at {answer['second']} by {' '.join(step['arc'] for step in answer['steps'])}"]
    if answer["reply"] == "refused":
        return [f"{answer['words'][0]}: refused, {answer.get('cause', answer['why'])}"]
    return [f"{answer['flight']}: {answer['reply']}" if "flight" in answer else answer["reply"]]


def main():
    """Asks each command of standard input."""
    if len(sys.argv) != 3:
        sys.exit("objects.py TAXI-TOOLS AIRPORT <COMMANDS")
    router = Router(sys.argv[1], sys.argv[2])
    for line in map(str.strip, sys.stdin):
        if line and not line.startswith("#"):
            print(*said(router.ask(line)), sep="\n")


if __name__ == "__main__":
    main()
