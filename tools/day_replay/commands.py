"""The command file: its lines, and what each asks for."""
from dataclasses import dataclass

ASKS_ROUTE = ("arrival", "departure", "arrival-any", "departure-any")


@dataclass(frozen=True)
class Command:
    """A line that gets an answer: its number in the file, all lines counted from 1, and its words."""

    line: int
    text: str
    words: tuple


@dataclass(frozen=True)
class Request:
    """What an arrival or a departure asks for. LIMIT is its hold or its queue."""

    flight: str
    kind: str
    class_name: str
    time: int
    limit: int


def read_commands(data):
    """The commands in a file's bytes: all lines but the blank ones and the comments."""
    commands = []
    for number, line in enumerate(data.split(b"\n"), start=1):
        line = line[:-1] if line.endswith(b"\r") else line
        if not line.strip(b" \t") or line.startswith(b"#"):
            continue
        text = line.decode("utf-8", errors="replace")
        commands.append(Command(number, text, tuple(text.split(" "))))
    return commands


def request_of(words):
    """The request in the words of an `arrival`, a `departure` or a choice."""
    kind = words[0].removesuffix("-any")
    at = 4 if words[0].endswith("-any") else 5
    return Request(words[1], kind, words[2], int(words[at]), int(words[at + 1]))


def requests_of_batch(words):
    """The requests of a `batch` by their flights."""
    requests = [request_of(words[at:at + 7]) for at in range(1, len(words), 7)]
    return {request.flight: request for request in requests}


def ends_of(words):
    """The names of the nodes from and to which an `arrival` or a `departure` asks to go; None where it leaves the choice open."""
    return words[3], None if words[0].endswith("-any") else words[4]


def own_time(words):
    """The second that a command names as its own, or None. The words may be of no form."""
    try:
        if words[0] in ASKS_ROUTE:
            return request_of(words).time
        if words[0] == "batch":
            return min(request.time for request in requests_of_batch(words).values())
        if words[0] in ("file", "work"):
            return int(words[3])
        if words[0] in ("reroute", "divert", "late"):
            return int(words[2])
    except (IndexError, ValueError):
        pass
    return None


def names_in(words):
    """The flights and work parties that a command speaks of. The words may be of no form."""
    if words[0] == "batch":
        return [words[at + 1] for at in range(1, len(words) - 1, 7)]
    if words[0] in ("windows", "occupancy", "timetable"):
        return []
    return list(words[1:2])
