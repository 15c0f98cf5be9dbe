"""Tests of engines over the shared library that RUSBOQAN_LIBRARY names. They are skipped where it names none."""

import json
import os
import unittest

from rusboqan import AirportRefused, Engine, FlightRow, Held, Label, PlanRow, Step, Wait, Window, version
from rusboqan.library import library

AIRPORT = b"""taxi-airport,1
horizon,3600
node,R,runway
node,J,junction
node,S,stand
class,M
segment,A,R,J,both
segment,B,J,S,both
seconds,A,M,30
seconds,B,M,20
"""


def has_all_calls():
    """Whether the library has the calls that came with 1.3.0."""
    return "RUSBOQAN_LIBRARY" in os.environ and hasattr(library(), "rusboqan_plan")


@unittest.skipUnless("RUSBOQAN_LIBRARY" in os.environ, "RUSBOQAN_LIBRARY names no library")
class TestEngine(unittest.TestCase):
    def test_route(self):
        with Engine(AIRPORT) as engine:
            reply = engine.answer("arrival F1 M R S 100 0\n")
        self.assertEqual((reply.kind, reply.flight, reply.second), ("route", "F1", 150))
        self.assertEqual(reply.steps, [Step("A+", 100, 130), Step("B+", 130, 150)])
        self.assertEqual(reply.labels, [Label("A+", 0, 3600, 130)])

    def test_refusal_and_comment(self):
        with Engine(AIRPORT) as engine:
            self.assertEqual(engine.answer("cancel F1").why, "not-in-force")
            self.assertFalse(engine.answer("# a comment"))
            self.assertEqual(engine.answer_bytes(b""), b"")

    def test_reports(self):
        with Engine(AIRPORT) as engine:
            engine.answer("file F1 M 0 A+ 30")
            self.assertEqual(engine.answer("windows A").windows, [Window(30, 3600)])
            self.assertEqual(engine.answer("occupancy A").held, [Held(0, 30, "F1", "A")])
            self.assertEqual(engine.answer("timetable").flights, [FlightRow("F1", "filed", "M", 0, 30)])

    def test_a_choice(self):
        with Engine(AIRPORT) as engine:
            self.assertEqual(engine.answer("arrival-any F1 M R 100 0 S").node, "S")

    def test_a_fork(self):
        with Engine(AIRPORT) as engine:
            engine.answer("arrival F1 M R S 100 0")
            with engine.fork() as second:
                second.answer("cancel F1")
                self.assertEqual(second.answer("timetable").flights, [])
            self.assertEqual(engine.answer("timetable").flights, [FlightRow("F1", "arrival", "M", 100, 150)])

    @unittest.skipUnless(has_all_calls(), "the library has not got the calls")
    def test_what_follows_from_a_run(self):
        with Engine(AIRPORT) as engine:
            engine.answer("arrival F1 M R S 100 0")
            first = PlanRow("F1", "arrival", "M", "R", "S", 1, "A", "forward", "R", "J", 100, 130, 130, 30, 0, 3470)
            second = PlanRow("F1", "arrival", "M", "R", "S", 2, "B", "forward", "J", "S", 130, 150, 150, 20, 0, 3450)
            self.assertEqual(engine.plan(), [first, second])
            self.assertIn(b",2024-02-29T00:00:10-00:30,", engine.plan_csv("2024-02-28T23:58:30-00:30"))
            self.assertEqual((engine.figures()["reply route"], engine.figures()["taxied arrival M"]), (1, 50))
            self.assertEqual(engine.checkpoint(), b"# arrival F1 M R S 100 0\nfile F1 M 100 A+ 130 B+ 150\n")
            found = engine.explain("arrival F2 M R S 100 60")
            self.assertEqual((found.answer, found.alone, found.without, found.waits), (180, 150, {"F1": 150}, [Wait("hold", 30, "F1")]))
            self.assertEqual(engine.answer("timetable").flights, [FlightRow("F1", "arrival", "M", 100, 150)])

    @unittest.skipUnless(has_all_calls(), "the library has not got the calls")
    def test_objects(self):
        with Engine(AIRPORT) as engine:
            for line in ("arrival F1 M R S 100 0", "# a comment", "arrival-any F1 M R 0 0 S", "occupancy A", "file X1 M 100 A+ 140"):
                reply = engine.answer(line)
                if reply:
                    self.assertEqual(json.dumps(reply.as_dict(), separators=(",", ":")) + "\n", engine.json())

    def test_two_engines_are_apart(self):
        with Engine(AIRPORT) as one, Engine(AIRPORT) as other:
            one.answer("file F1 M 0 A+ 30")
            self.assertEqual(other.answer("timetable").text, b"timetable 0\n")

    def test_refused_airport(self):
        with self.assertRaises(AirportRefused) as caught:
            Engine(b"taxi-airport,1\nhorizon,0\n")
        self.assertEqual((caught.exception.record, caught.exception.rule), (2, "bad-number" if has_all_calls() else None))
        with self.assertRaises(AirportRefused) as caught:
            Engine(b"\n" * 4_194_305)
        self.assertIsNone(caught.exception.record)

    def test_closed(self):
        engine = Engine(AIRPORT)
        engine.close()
        engine.close()
        with self.assertRaises(ValueError):
            engine.answer("timetable")

    def test_one_line_at_a_time(self):
        with Engine(AIRPORT) as engine, self.assertRaises(ValueError):
            engine.answer("timetable\ntimetable")

    def test_version(self):
        self.assertRegex(version(), r"^\d+\.\d+\.\d+$")


if __name__ == "__main__":
    unittest.main()
