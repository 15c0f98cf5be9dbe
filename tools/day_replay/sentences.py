"""What a reply says, in a sentence."""

WHY = {
    "bad-line": "the line is none of the forms",
    "in-force": "{flight} is in force already",
    "unknown-class": "the airport has no such class",
    "unknown-node": "a word names no node",
    "wrong-kind": "a node is of the wrong kind",
    "unknown-segment": "a word names no segment, or a way that the segment lacks",
    "not-in-force": "nothing of this name is in force",
    "not-routed": "{flight} was filed by hand",
    "not-arrival": "{flight} is a departure",
    "already-done": "its route ends at {end}",
    "already-moving": "it has left its stand at {start}",
    "not-moving": "it begins at {start}",
    "not-late": "it leaves its segment at {leave} in any case",
    "past-end": "the day ends at {horizon}",
    "full": "4,096 flights and work parties are in force",
    "memory": "memory ran out",
}
CAUSE = {
    "class-barred": "the class may not use the segment",
    "bad-turn": "the turn is not allowed",
    "too-fast": "it is too short",
    "past-horizon": "it is past the end of the day",
    "taken": "{by} holds it at {at}",
}
SHOWN = 12
TIMES = ("start", "end", "leave", "horizon", "at")


def refusal(words, reply, clock):
    """Why a command was refused."""
    told = {key: clock.text(value) if key in TIMES else value for key, value in reply.items()}
    told["flight"] = words[1] if len(words) > 1 else ""
    if reply["why"] == "step":
        cause = CAUSE.get(reply["cause"], reply["cause"]).format(**told)
        return f"refused at step {reply['step']}{of_segment(words, reply['step'])}: {cause}"
    return "refused: " + WHY.get(reply["why"], reply["why"]).format(**told)


def of_segment(words, step):
    """The segment of a command's step, in brackets."""
    at = 2 if words[0] == "work" else 2 + 2 * step
    return f" ({words[at]})" if at < len(words) else ""


def route(reply, clock):
    """The route that was found."""
    steps = reply["steps"]
    if not steps:
        return "route"
    begin, end = clock.text(steps[0]["enter"]), clock.text(steps[-1]["leave"])
    count = "1 step" if len(steps) == 1 else f"{len(steps)} steps"
    return f"route from {begin} to {end}, {count}"


def listed(rows):
    """Some of the rows, and how many more there are."""
    more = f", and {len(rows) - SHOWN} more" if len(rows) > SHOWN else ""
    return ", ".join(rows[:SHOWN]) + more if rows else "none"


def entry(reply, clock):
    """One entry of a batch or of a late flight's reply."""
    if reply["reply"] == "route":
        return f"{reply['flight']} {route(reply, clock)}"
    return f"{reply['flight']} {reply['reply'].replace('-', ' ')}"


def held(row, clock):
    """One hold of an occupancy."""
    return f"{row['flight']} on {row['segment']} {clock.text(row['from'])} to {clock.text(row['until'])}"


def sentence(words, reply, clock):
    """What a reply says."""
    kind = reply["reply"]
    if kind == "refused":
        return refusal(words, reply, clock)
    if kind == "route":
        return route(reply, clock)
    if kind == "no-route":
        return "no route; nothing has changed"
    if kind == "filed":
        return f"in force from {clock.text(reply['start'])} to {clock.text(reply['end'])}"
    if kind == "cancelled":
        return "no longer in force"
    if kind == "windows":
        rows = [f"{clock.text(row['from'])} to {clock.text(row['until'])}" for row in reply["windows"]]
        return f"{reply['segment']} is free from " + listed(rows)
    if kind == "occupancy":
        rows = [held(row, clock) for row in reply["held"]]
        return f"held of {reply['segment']} and those in conflict: " + listed(rows)
    if kind == "timetable":
        return "flights in force: " + listed([row["flight"] for row in reply["flights"]])
    return "; ".join(entry(one, clock) for one in reply["entries"])
