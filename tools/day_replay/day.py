"""The day as one value that can be written as JSON: what was replayed, with all names, numbers and sentences that a page shows."""
from day_replay.commands import names_in, own_time
from day_replay.replay import end_of_day, told_times
from day_replay.sentences import sentence


def stay_data(stay):
    """One stay; its steps are one list of numbers, three a step."""
    data = {
        "name": stay.name,
        "kind": stay.kind,
        "class": -1 if stay.class_number is None else stay.class_number,
        "opened": stay.opened,
        "closed": stay.closed or 0,
        "why": stay.why,
        "end": stay.end,
        "waits": stay.waits,
        "steps": [number for step in stay.steps for number in step],
    }
    if stay.held:
        data["held"] = stay.held
    if stay.request:
        data["asked"] = [stay.request.time, stay.request.limit]
    return data


def commands_data(commands, replies, run, clock):
    """Each command with what it was told, its own time and the time by which it counts as told."""
    rows = []
    for command, reply, told in zip(commands, replies, told_times(run)):
        row = {
            "line": command.line,
            "text": command.text,
            "reply": reply["reply"],
            "said": sentence(command.words, reply, clock),
            "told": told,
            "names": names_in(command.words) if reply.get("why") != "bad-line" else [],
        }
        at = own_time(command.words)
        if at is not None:
            row["at"] = at
        rows.append(row)
    return rows


def note_data(note):
    """What a command didn't get, and between which nodes."""
    data = {"command": note.command, "name": note.flight, "tone": note.tone, "at": note.at}
    if note.ends:
        data["ends"] = note.ends
    return data


def unanswered(replies):
    """What a reader must know first of a file whose every line was refused, or that has none; otherwise nothing."""
    if not replies:
        return "This command file has no command."
    if any(reply["reply"] != "refused" for reply in replies):
        return ""
    count = f"all {len(replies)} are refused" if len(replies) > 1 else "the only one is refused"
    bad = sum(reply["why"] == "bad-line" for reply in replies)
    form = " Is it a command file? No line of it has the form of a command." if bad == len(replies) else ""
    return f"No line of this command file is answered: {count}.{form}"


def runway_pieces(airport):
    """The pieces of runways, as far as the airport file tells.

    They are the segments between two runway nodes, and those that have the names that the converter gives to pieces.
    """
    runways = {number for number, (_, kind) in enumerate(airport.nodes) if kind == "runway"}
    names = {airport.nodes[number][0].rpartition(".")[0] for number in runways} - {""}
    starts = tuple(start for name in names for start in (f"{name}.", f"R-{name}-"))
    between = [{segment.tail, segment.head} <= runways for segment in airport.segments]
    return [number for number, segment in enumerate(airport.segments) if between[number] or segment.name.startswith(starts)]


def day_data(airport, commands, replies, run, clock):
    """All that the page shows, but for the map and the names of the files."""
    return {
        "horizon": airport.horizon,
        "end": end_of_day(run),
        "start": clock.data(),
        "nodes": airport.nodes,
        "classes": airport.classes,
        "clearance": [airport.clearance_of(number) for number in range(len(airport.classes))],
        "segments": [[segment.name, segment.tail, segment.head, int(segment.one_way)] for segment in airport.segments],
        "conflicts": airport.conflicts,
        "commands": commands_data(commands, replies, run, clock),
        "notes": [note_data(note) for note in run.notes],
        "unanswered": unanswered(replies),
        "runwayPieces": runway_pieces(airport),
        "stays": [stay_data(stay) for stay in run.stays],
    }


def add_map(data, airport_map):
    """Gives the day a map, or none. A map with runways knows better than the airport file which segments lie on them."""
    data["map"] = airport_map
    if airport_map and airport_map["runwayPieces"]:
        data["runwayPieces"] = airport_map["runwayPieces"]
