"""Tests of what follows from a run: plan, figures, explanation, checkpoint, object. The library is a stand-in with fixed texts."""

import unittest

from rusboqan import AirportRefused, Engine, Explanation, Held, PlanRow, Wait

from stand_in import AIRPORT, StandInCase, library


class TestTexts(StandInCase):
    def setUp(self):
        super().setUp()
        self.engine = Engine(AIRPORT, self.library)

    def tearDown(self):
        self.engine.close()
        super().tearDown()

    def test_a_plan(self):
        flight = PlanRow("F2", "arrival", "M", "R", "S1", 1, "A", "forward", "R", "J", 130, 160, 160, 30, 0, 340)
        party = PlanRow("W1", "work", "", "J", "K", 1, "C", "", "J", "K", 500, 560, 560, 60, 0, 3040)
        self.assertEqual(self.engine.plan(), [flight, party])
        self.assertEqual(self.engine.plan_csv().count(b"\n"), 3)
        self.assertIn(b",2024-02-29T00:00:10Z,", self.engine.plan_csv("2024-02-28T23:58:30Z"))
        with self.assertRaisesRegex(ValueError, "no civil time"):
            self.engine.plan_csv("now")
        with self.assertRaisesRegex(TypeError, "a start is str, not NoneType"):
            self.engine.plan_csv(None)

    def test_figures(self):
        self.assertEqual(list(self.engine.figures().items()), [("commands", 3), ("reply no-route", 0), ("flights arrival M", 2)])

    def test_a_checkpoint(self):
        self.assertEqual(self.engine.checkpoint(), b"")
        self.engine.answer("file F1 M 100 A+ 130 B+ 150")
        self.assertEqual(self.engine.checkpoint(), b"# arrival F1 M R S1 100 0\nfile F1 M 100 A+ 130 B+ 150\n")

    def test_an_object(self):
        self.assertEqual(self.engine.json(), "")
        for line in ("# a comment", "cancel F9", "# a comment"):
            self.engine.answer(line)
        self.assertEqual((self.engine.json(), self.engine.json(70)), ('{"command":1,"line":2}\n', '{"command":1,"line":70}\n'))

        with self.assertRaises(TypeError):
            self.engine.json("70")

    def test_explanations(self):
        late = self.engine.explain("arrival F1 M R S1 100 200\n")
        self.assertEqual((bool(late), late.answer, late.alone, late.without, late.longer), (True, 320, 150, {"X2": 150}, None))
        self.assertEqual(late.waits, [Wait("hold", 130, "X1"), Wait("wait", 40, "X2", 1, "A+"), Wait("wait", 15, None, 2, "C+")])
        none = self.engine.explain(b"arrival F2 M R S1 100 0")
        self.assertEqual((none.answer, none.alone, none.without, none.longer, none.why), (None, 150, {"F1": 150}, (130, 180), None))
        refused = self.engine.explain("file X1 M 90 C- 110")
        self.assertEqual((refused.why, refused.held), ("step 1 taken 150 W1", [Held(150, 160, "W1", "C")]))
        self.assertFalse(self.engine.explain("# a comment"))
        self.assertEqual(Explanation(b"answer 250\nalone 280\nqueue 30 X2\n").waits, [Wait("queue", 30, "X2")])

    def test_nothing_is_asked_by_them(self):
        self.engine.explain("file X1 M 90 C- 110")
        self.assertEqual((self.engine.log, self.engine.answer("timetable").flights), ((), []))

    def test_memory_ran_out_for_a_command_before(self):
        self.engine.answer("memory")
        for ask in (self.engine.json, self.engine.figures, lambda: self.engine.explain("cancel F1")):
            with self.assertRaisesRegex(MemoryError, "for a command before"):
                ask()

    def test_a_closed_engine(self):
        self.engine.close()
        others = (self.engine.json, self.engine.plan, self.engine.figures, self.engine.checkpoint)
        for ask in (*others, lambda: self.engine.explain("cancel F1")):
            with self.assertRaisesRegex(ValueError, "closed"):
                ask()


class TestOlderLibrary(StandInCase):
    def test_what_it_has_not_got_is_said_when_it_is_asked_for(self):
        with Engine(AIRPORT, library("old", "-DSTAND_IN_VERSION=10202", "-DSTAND_IN_IS_OLD")) as engine:
            self.assertEqual(engine.answer("cancel F1").why, "not-in-force")
            with self.assertRaisesRegex(NotImplementedError, "of version 1.2.2, which has no call rusboqan_plan"):
                engine.plan()
        with self.assertRaises(AirportRefused) as caught:
            Engine(b"no airport", library("old"))
        self.assertEqual(str(caught.exception), "record 2 breaks a rule")


if __name__ == "__main__":
    unittest.main()
