"""One row a flight: what it asked for, what it got, and for whom it waits."""
from dataclasses import dataclass
from typing import Optional

from day_replay.commands import ASKS_ROUTE, request_of, requests_of_batch

HEADER = (
    "flight", "kind", "class", "from", "to", "chosen", "state", "line", "asked", "limit", "begin", "end", "taxi",
    "least", "waited", "held", "held_for", "longest_wait", "wait_at", "wait_for",
)


@dataclass
class Asked:
    """A flight as the last command that could bring it into force asked for it."""

    flight: str
    kind: str
    class_name: str
    origin: str
    goal: str  # empty where the flight chooses
    line: int
    time: Optional[int] = None
    limit: Optional[int] = None
    chooses: bool = False
    state: str = ""


@dataclass
class Flight:
    """An asked flight, and the stay that it has in force in the end, or None."""

    asked: Asked
    stay: Optional[object]


def asked_by(command):
    """The flights that a command of some form asks for."""
    words = command.words
    if words[0] == "batch":
        groups = [words[at:at + 7] for at in range(1, len(words), 7)]
        return [asked_in(group, request, command.line) for group, request in zip(groups, requests_of_batch(words).values())]
    if words[0] in ASKS_ROUTE:
        return [asked_in(words, request_of(words), command.line)]
    if words[0] == "file":
        return [Asked(words[1], "filed", words[2], "", "", command.line, int(words[3]))]
    return []


def asked_in(words, request, line):
    """A flight of the words of one request."""
    chooses = words[0].endswith("-any")
    goal = "" if chooses else words[4]
    return Asked(request.flight, request.kind, request.class_name, words[3], goal, line, request.time, request.limit, chooses)


def flights_of(day):
    """The flights of a day by the lines that asked for them, and the lines that were refused while their flight was in force."""
    found, idle = {}, []
    for command, reply in zip(day.commands, day.replies):
        if reply.get("why") in ("bad-line", "in-force"):
            idle.append(command)
            continue
        for asked in asked_by(command):
            asked.state = state_after(asked, reply)
            found[asked.flight] = asked
        if reply["reply"] == "cancelled" and reply["flight"] in found:
            found[reply["flight"]].state = "cancelled"
        for entry in reply.get("entries", ()) if reply["reply"] == "late" else ():
            if entry["flight"] in found and entry["reply"] != "route":
                found[entry["flight"]].state = entry["reply"]
    return [Flight(asked, day.run.open.get(asked.flight)) for asked in found.values()], idle


def state_after(asked, reply):
    """What a flight got from the reply to the command that asked for it; nothing where it got a route."""
    told = next((entry for entry in reply.get("entries", ()) if entry["flight"] == asked.flight), reply)
    if told["reply"] == "refused":
        return "refused " + told.get("cause", told["why"])
    return "no-route" if told["reply"] == "no-route" else ""


def row_of(flight, airport, times):
    """The fields of a flight's row."""
    asked, stay = flight.asked, flight.stay
    head = [asked.flight, asked.kind, asked.class_name]
    tail = [asked.line, times.text(asked.time), "" if asked.limit is None else asked.limit]
    if stay is None:
        return [*head, asked.origin, asked.goal, "", asked.state, *tail, *[""] * 10]
    origin, goal = airport.nodes[airport.tail(stay.steps[0][0])][0], airport.head_name(stay.steps[-1][0])
    chosen = goal if asked.chooses else ""
    return [*head, origin, goal, chosen, "in force", *tail, *time_fields(stay, airport, times)]


def time_fields(stay, airport, times):
    """When a flight is under way, for how long, and what it waits for."""
    taxi, waited = stay.finish - stay.begin, sum(wait for _, wait, _ in stay.waits)
    held, held_for = stay.held or (0, None)
    fields = [times.text(stay.begin), times.text(stay.finish), taxi, taxi - waited, waited, held, held_for or ""]
    if not stay.waits:
        return [*fields, 0, "", ""]
    step, longest, holder = max(stay.waits, key=lambda wait: wait[1])
    return [*fields, longest, airport.segments[stay.steps[step][0] // 2].name, holder or ""]
