"""The plan of a study: the lines of its command file, and the requests in them."""
import re
from dataclasses import dataclass

from day_replay.commands import ASKS_ROUTE, Request, read_commands, request_of

NAME = re.compile(r"[A-Za-z0-9_./-]{1,16}")
NUMBER = re.compile(r"[0-9]{1,7}")
# An `arrival` or a `departure` has seven words, also within a `batch`.
REQUEST_WORDS = 7


@dataclass(frozen=True)
class Ask:
    """One request of the plan; its number is its place in the file. AT is where its TIME stands among its words."""

    number: int
    words: tuple
    at: int
    request: Request

    @property
    def sources(self):
        """The node from which the flight comes."""
        return self.words[3:4]

    @property
    def targets(self):
        """The nodes to one of which it goes: several where it has a choice."""
        return self.words[4:5] if self.at == 5 else self.words[6:]

    @property
    def way(self):
        """What decides how long it takes alone: the form of its line, its class and its nodes."""
        return (self.words[0], *self.words[2:self.at], *self.words[self.at + 2:])

    def moved(self, time):
        """Its words with another TIME."""
        return (*self.words[:self.at], str(time), *self.words[self.at + 1:])

    def asked_at(self, time):
        """What it asks for where its TIME is another."""
        request = self.request
        return Request(request.flight, request.kind, request.class_name, time, request.limit)


@dataclass(frozen=True)
class Line:
    """A line of the plan: its requests, several in a `batch`, or the text of a line that is none."""

    asks: tuple
    text: str = ""


@dataclass(frozen=True)
class Plan:
    """The lines of a command file, and all requests in their order."""

    lines: tuple
    asks: tuple


def ask_of(number, words):
    """The request in the words of a line, or None where the router would call it a bad line."""
    choice = words[0].endswith("-any")
    at = 4 if choice else 5
    if words[0] not in ASKS_ROUTE or len(words) < REQUEST_WORDS or not choice and len(words) > REQUEST_WORDS:
        return None
    names = words[1:at] + words[at + 2:]
    if not all(map(NAME.fullmatch, names)) or not all(map(NUMBER.fullmatch, words[at:at + 2])):
        return None
    return Ask(number, words, at, request_of(words))


def asks_of(number, words):
    """The requests of a line, the first of them with this number; none if the line is no request."""
    if words[0] != "batch":
        return tuple(filter(None, [ask_of(number, words)]))
    pieces = [words[at:at + REQUEST_WORDS] for at in range(1, len(words), REQUEST_WORDS)]
    asks = [ask_of(number + k, piece) for k, piece in enumerate(pieces)]
    return tuple(asks) if len(asks) > 1 and all(asks) else ()


def read_plan(data):
    """The plan in a command file's bytes. Comments and blank lines are left out."""
    lines, asks = [], []
    for command in read_commands(data):
        found = asks_of(len(asks), command.words)
        asks += found
        lines.append(Line(found, "" if found else command.text))
    return Plan(tuple(lines), tuple(asks))
