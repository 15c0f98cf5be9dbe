"""The replies in a transcript, each as a dictionary.

The keys are those that one line of JSON for each command would have: `reply`, then `flight`, `second`, `steps` and so on.
Labels are counted off and left out, since nothing here needs them. A reader of such JSON can take the place of
`read_replies`: all else looks at the dictionaries alone.
"""
import io
import itertools

from day_replay.airport import BadFile

REFUSAL_KEYS = {
    "already-done": ("end",),
    "already-moving": ("start",),
    "not-moving": ("start",),
    "not-late": ("leave",),
    "past-end": ("horizon",),
}
# The keys of names; all others are those of numbers.
NAMES = ("arc", "flight", "segment", "kind", "class")


class Lines:
    """The lines of a transcript, one after the other."""

    def __init__(self, data):
        self.lines = io.BytesIO(data)
        self.at = 0

    def words(self):
        """The words of the next line."""
        line = self.lines.readline()
        if not line.endswith(b"\n"):
            raise ValueError("the transcript ends early")
        self.at += 1
        return line[:-1].decode("utf-8", errors="replace").split(" ")

    def rows(self, count, word, keys):
        """So many lines that begin with a word, each as a dictionary of the keys. Digits are numbers unless a key is a name's."""
        rows = []
        for _ in range(count):
            words = self.words()
            if words[0] != word or len(words) != len(keys) + 1:
                raise ValueError(f"a line {word} is due")
            rows.append({key: value_of(key, text) for key, text in zip(keys, words[1:])})
        return rows

    def skip(self, count):
        """Leaves out so many lines."""
        self.at += sum(1 for _ in itertools.islice(self.lines, count))


def value_of(key, text):
    """A name as it stands, all else as a number."""
    return text if key in NAMES else int(text)


def read_route(words, lines):
    """`route FLIGHT SECOND N M` and its lines."""
    steps = lines.rows(int(words[3]), "step", ("arc", "enter", "leave"))
    lines.skip(int(words[4]))
    return {"flight": words[1], "second": int(words[2]), "steps": steps}


def read_no_route(words, lines):
    """`no-route M` and its lines."""
    lines.skip(int(words[1]))
    return {}


def read_windows(words, lines):
    """`windows SEGMENT M` and its lines."""
    return {"segment": words[1], "windows": lines.rows(int(words[2]), "window", ("from", "until"))}


def read_occupancy(words, lines):
    """`occupancy SEGMENT M` and its lines."""
    return {"segment": words[1], "held": lines.rows(int(words[2]), "held", ("from", "until", "flight", "segment"))}


def read_timetable(words, lines):
    """`timetable M` and its lines."""
    return {"flights": lines.rows(int(words[1]), "flight", ("flight", "kind", "class", "start", "end"))}


def read_entries(count, lines):
    """The entries of a `batch` or a `late`: `next FLIGHT` and a block, or the one line `dropped FLIGHT`."""
    entries = []
    for _ in range(count):
        words = lines.words()
        if words[0] == "dropped":
            entries.append({"reply": "dropped", "flight": words[1]})
        elif words[0] == "next":
            entries.append({**read_block(lines.words(), lines), "flight": words[1]})
        else:
            raise ValueError("an entry is due")
    return entries


def read_batch(words, lines):
    """`batch N TOTAL` and its entries."""
    return {"total": int(words[2]), "entries": read_entries(int(words[1]), lines)}


def read_late(words, lines):
    """`late FLIGHT N` and its entries."""
    return {"flight": words[1], "entries": read_entries(int(words[2]), lines)}


def read_filed(words, _lines):
    """`filed FLIGHT START END`."""
    return {"flight": words[1], "start": int(words[2]), "end": int(words[3])}


def read_cancelled(words, _lines):
    """`cancelled FLIGHT`."""
    return {"flight": words[1]}


def read_refused(words, _lines):
    """`refused WHY`, with what the cause tells besides."""
    reply = {"why": words[1]}
    if words[1] == "step":
        reply.update(step=int(words[2]), cause=words[3])
        if words[3] == "taken":
            reply.update(at=int(words[4]), by=words[5])
    for key, text in zip(REFUSAL_KEYS.get(words[1], ()), words[2:]):
        reply[key] = int(text)
    return reply


READERS = {
    "route": read_route,
    "no-route": read_no_route,
    "windows": read_windows,
    "occupancy": read_occupancy,
    "timetable": read_timetable,
    "batch": read_batch,
    "late": read_late,
    "filed": read_filed,
    "cancelled": read_cancelled,
    "refused": read_refused,
}


def read_block(words, lines):
    """The block whose first line has these words."""
    if words[0] not in READERS:
        raise ValueError("no reply begins so")
    return {"reply": words[0], **READERS[words[0]](words, lines)}


def read_replies(data):
    """The replies in a transcript's bytes, in order. A transcript that doesn't close with `done N` is a `BadFile`."""
    lines, replies = Lines(data), []
    try:
        words = lines.words()
        while words[0] != "done":
            replies.append(read_block(words, lines))
            words = lines.words()
        if int(words[1]) != len(replies):
            raise ValueError("the last line counts other replies")
    except (ValueError, IndexError) as fault:
        raise BadFile(f"transcript: near line {max(1, lines.at)}: {fault}") from fault
    return replies
