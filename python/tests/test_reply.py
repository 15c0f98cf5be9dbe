"""Tests of what is read from the texts of replies. The objects are those of the page docs/TOOLS.md, and some worked by hand."""

import copy
import json
import pickle
import unittest
from pathlib import Path

from rusboqan import AirportRefused, Asked, Comment, FlightRow, Held, Label, Reply, Step, Window
from rusboqan.asked import Heads

ROUTE = b"route F1 150 2 1\nstep A+ 100 130\nstep B+ 130 150\nlabel A+ 0 3600 130\n"
BATCH = b"batch 2 1000050\nnext F2\nno-route 1\nlabel A+ 0 100 30\nnext F1\nroute F1 150 2 0\nstep A+ 100 130\nstep B+ 130 150\n"
LATE = b"late F1 2\nnext F1\nroute F1 320 1 0\nstep A+ 100 320\ndropped X1\n"
EXAMPLES = Path(__file__).parents[2] / "examples"


class TestReply(unittest.TestCase):
    def test_route(self):
        reply = Reply(ROUTE)
        self.assertEqual((reply.kind, reply.flight, reply.second, reply.start, reply.end), ("route", "F1", 150, 100, 150))
        self.assertEqual(reply.steps, [Step("A+", 100, 130), Step("B+", 130, 150)])
        self.assertEqual(reply.labels, [Label("A+", 0, 3600, 130)])
        self.assertIsNone(reply.node)

    def test_batch(self):
        reply = Reply(BATCH)
        self.assertEqual((reply.kind, reply.total, reply.flight, reply.steps, reply.labels), ("batch", 1000050, None, [], []))
        (one, none), (other, route) = reply.entries
        self.assertEqual((one, none.kind, none.labels), ("F2", "no-route", [Label("A+", 0, 100, 30)]))
        self.assertEqual((other, route.second, route.steps), ("F1", 150, [Step("A+", 100, 130), Step("B+", 130, 150)]))

    def test_late(self):
        reply = Reply(LATE)
        self.assertEqual((reply.kind, reply.flight, reply.total), ("late", "F1", None))
        told = [(flight, entry.kind, entry.flight) for flight, entry in reply.entries]
        self.assertEqual(told, [("F1", "route", "F1"), ("X1", "dropped", "X1")])

    def test_filed(self):
        reply = Reply(b"filed X1 150 600\n")
        self.assertEqual((reply.flight, reply.start, reply.end, reply.second), ("X1", 150, 600, None))

    def test_reports(self):
        windows = Reply(b"windows A 2\nwindow 0 100\nwindow 130 3600\n")
        self.assertEqual((windows.segment, windows.windows, windows.entries), ("A", [Window(0, 100), Window(130, 3600)], []))
        occupancy = Reply(b"occupancy C 1\nheld 0 30 X1 A\n")
        self.assertEqual((occupancy.segment, occupancy.held), ("C", [Held(0, 30, "X1", "A")]))
        timetable = Reply(b"timetable 1\nflight F1 arrival M 100 150\n")
        self.assertEqual(timetable.flights, [FlightRow("F1", "arrival", "M", 100, 150)])
        self.assertEqual((timetable.windows, timetable.held, timetable.segment, timetable.start), ([], [], None, None))

    def test_a_comment_is_false(self):
        comment = Comment(b"")
        self.assertFalse(comment)
        self.assertTrue(Reply(ROUTE))
        self.assertEqual((comment.kind, comment.flight, comment.why, comment.rows, comment.as_dict()), ("comment", None, None, [], {}))


class TestObjects(unittest.TestCase):
    def test_a_late_flight(self):
        # The objects of examples/late/objects.txt, made again from the replies that they tell.
        for line in (EXAMPLES / "late" / "objects.txt").read_text(encoding="utf-8").splitlines()[:-1]:
            wanted = json.loads(line)
            asked = Asked(" ".join(wanted["words"]).encode(), wanted["line"], wanted["command"])
            told = Reply(text_of(wanted), asked).as_dict()
            self.assertEqual(json.dumps(told, separators=(",", ":")), line)

    def test_refusals(self):
        for text, wanted in (
            (b"refused bad-line\n", {"reply": "refused", "why": "bad-line"}),
            (b"refused already-done 320\n", {"end": 320, "reply": "refused", "why": "already-done"}),
            (b"refused already-moving 70\n", {"reply": "refused", "start": 70, "why": "already-moving"}),
            (b"refused step 1 too-fast\n", {"cause": "too-fast", "reply": "refused", "step": 1, "why": "step"}),
            (b"refused step 2 taken 145 F3\n", {"at": 145, "by": "F3", "cause": "taken", "reply": "refused", "step": 2, "why": "step"}),
        ):
            self.assertEqual(list(Reply(text).as_dict().items()), list(wanted.items()))

    def test_a_batch(self):
        told = Reply(BATCH).as_dict()
        first = {"flight": "F2", "labels": [{"arc": "A+", "from": 0, "until": 100, "value": 30}], "reply": "no-route"}
        steps = [{"arc": "A+", "enter": 100, "leave": 130}, {"arc": "B+", "enter": 130, "leave": 150}]
        second = {"flight": "F1", "labels": [], "reply": "route", "second": 150, "steps": steps}
        self.assertEqual(json.dumps(told), json.dumps({"entries": [first, second], "reply": "batch", "total": 1000050}))

    def test_occupancy_and_a_cancelled_flight(self):
        held = [{"flight": "X1", "from": 0, "segment": "A", "until": 30}]
        self.assertEqual(Reply(b"occupancy C 1\nheld 0 30 X1 A\n").as_dict(), {"held": held, "reply": "occupancy", "segment": "C"})
        self.assertEqual(Reply(b"cancelled X1\n").as_dict(), {"flight": "X1", "reply": "cancelled"})

    def test_a_line_that_is_no_text(self):
        told = Reply(b"refused bad-line\n", Asked("é\"\t".encode(), 6, 6)).as_dict()
        self.assertEqual(told["words"], ["\u00c3\u00a9\"\t"])


# The keys of each list of an object, in the order in which the reply has them, and the word before each row.
ROWS = {
    "steps": ("step", "arc", "enter", "leave"),
    "labels": ("label", "arc", "from", "until", "value"),
    "flights": ("flight", "flight", "kind", "class", "start", "end"),
}


def rows_of(told, key):
    """The lines of a list of an object."""
    word, *keys = ROWS[key]
    return [" ".join([word, *(str(row[it]) for it in keys)]) for row in told[key]]


def text_of(told):
    """The text of a reply, written from its object."""
    kind, parts = told["reply"], []
    if kind == "filed":
        first = f"filed {told['flight']} {told['start']} {told['end']}"
    elif kind == "refused":
        first = " ".join(map(str, ["refused", told["why"], *(told[key] for key in ("start", "leave", "horizon") if key in told)]))
    elif kind == "timetable":
        first, parts = f"timetable {len(told['flights'])}", rows_of(told, "flights")
    elif kind == "route":
        first = f"route {told['flight']} {told['second']} {len(told['steps'])} {len(told['labels'])}"
        parts = rows_of(told, "steps") + rows_of(told, "labels")
    else:
        first = f"late {told['flight']} {len(told['entries'])}"
        parts = [entry_of(it) for it in told["entries"]]
    return "\n".join([first, *parts, ""]).encode()


def entry_of(told):
    """The lines of an entry of a late reply."""
    if told["reply"] == "dropped":
        return f"dropped {told['flight']}"
    return f"next {told['flight']}\n{text_of(told).decode().rstrip()}"


class TestNodesAndCopies(unittest.TestCase):
    def setUp(self):
        heads = Heads(b'taxi-airport,1\nsegment,A,R,J,both\r\nsegment,"B",J,S1,one\n')
        self.reply = Reply(ROUTE, Asked(b"arrival-any F1 M R 100 0 S1 S2", 1, 1, heads))

    def test_the_chosen_node(self):
        self.assertEqual(self.reply.node, "S1")
        self.assertEqual(Reply(b"route G1 100 1 0\nstep A- 100 130\n", self.reply.asked).node, "R")
        self.assertIsNone(Reply(b"no-route 0\n", self.reply.asked).node)

    def test_a_reply_is_pickled_without_its_airport(self):
        again = pickle.loads(pickle.dumps(self.reply))
        self.assertEqual((again, again.node, again.as_dict()), (self.reply, "S1", self.reply.as_dict()))
        self.assertNotIn(b"segment", pickle.dumps(self.reply))
        late = pickle.loads(pickle.dumps(Reply(LATE, self.reply.asked)))
        self.assertEqual([entry.node for _, entry in late.entries], ["J", None])
        self.assertEqual(copy.deepcopy(self.reply), self.reply)
        self.assertFalse(pickle.loads(pickle.dumps(Comment(b"", self.reply.asked))))

    def test_errors_are_pickled(self):
        for error, text in (
            (AirportRefused(2), "record 2 breaks a rule"),
            (AirportRefused(16, "no-horizon"), "record 16 breaks a rule: no-horizon"),
            (AirportRefused(None), "more than 4,194,304 bytes"),
        ):
            again = pickle.loads(pickle.dumps(error))
            self.assertEqual((type(again), again.record, again.rule, str(again)), (AirportRefused, error.record, error.rule, text))


if __name__ == "__main__":
    unittest.main()
