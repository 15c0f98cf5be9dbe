"""Tests of tools/compare_studies, tools/double_segment and examples/own_router.py. Expected values are worked by hand.

The airport and the plan are those of test_day_study.py. With all ten seconds later F2 is held for 20 seconds behind F1, and with F2
asked first F1 is held for 40: it asks for 110, and F2 has the segment from 120 to 150.
"""
import subprocess
import sys
import unittest
from pathlib import Path

sys.path.insert(0, str(Path(__file__).resolve().parent))

from test_day_study import AIRPORT, PLAN, StudyTest, TOOLS
from day_replay.airport import read_airport
from day_study.comparing import compared, interval, same_days
from day_study.doubling import doubled, name_beside
from day_study.problem import Refused

OWN = TOOLS.parent / "examples" / "own_router.py"
COLUMNS = "study,with a route,taxi,wait,held,delay,95 %,steady,less delay a day"
# The segment A doubled: turns from one of the two onto the other are forbidden.
DOUBLED = """taxi-airport,2
horizon,3600
node,R,runway
node,S1,stand
class,M
class,H
segment,A,R,S1,both
segment,A_2,R,S1,both
seconds,A,M,30
seconds,A_2,M,30
seconds,A,H,40
seconds,A_2,H,40
forbid,A+,A_2-
forbid,A-,A_2+
forbid,A_2+,A-
forbid,A_2-,A+
"""
# Two ways from R to S1: A and B take 50 seconds, D and E 60. Turning from A to B may be forbidden.
FORK = """taxi-airport,2
horizon,3600
node,R,runway
node,J,junction
node,K,junction
node,S1,stand
class,M
segment,A,R,J,both
segment,B,J,S1,one
segment,D,R,K,both
segment,E,K,S1,both
seconds,A,M,20
seconds,B,M,30
seconds,D,M,30
seconds,E,M,30
clearance,M,5
conflict,A,D
"""


class ScriptTest(StudyTest):
    """Calls the scripts in a folder of its own."""

    LATER = ("--days", "2", "--delay", "uniform:10,10")

    def script(self, name, *words):
        """The status of a script, its output, and what it says on standard error."""
        ran = subprocess.run([str(TOOLS / name), *words], capture_output=True, text=True, check=False)
        return ran.returncode, ran.stdout, [line for line in ran.stderr.splitlines() if " a second, " not in line]


class Compared(ScriptTest):
    """Studies side by side."""

    def own(self, text):
        """A program that stands for a router of one's own."""
        path = self.place / "own"
        path.write_text("#!/bin/sh\n" + text)
        path.chmod(0o755)
        return "own"

    def test_another_order(self):
        self.made(*self.LATER, out="planned")
        self.made(*self.LATER, "--own", self.own("sort -r $2\n"), out="turned")
        status, text, said = self.script("compare_studies", "--csv", "planned", "turned")
        self.assertEqual((status, said), (0, []))
        # Taxi times are 30, 30 and 40 seconds. One flight of three is held, for 20 or for 40 seconds.
        self.assertEqual(text.splitlines(), [
            COLUMNS,
            "planned,100.00 %,33.3,0.0,6.7,6.7,20,100.00 %,",
            "turned,100.00 %,33.3,0.0,13.3,13.3,40,100.00 %,-20 ± 0",
            "each flight alone,,33.3,0.0,0.0,0.0,0,,20 ± 0",
        ])

    def test_flights_that_have_a_route_in_both(self):
        (self.place / "close.csv").write_text("A,90,150\n")
        self.made("--days", "1", out="open")
        self.made("--days", "1", "--close", "close.csv", out="closed")
        # F2 has no route, and F1 begins at 150 and not at 100. The knock-on of 50 seconds is within the limit.
        _, text, _ = self.script("compare_studies", "--csv", "open", "closed")
        self.assertEqual(text.splitlines()[1:], [
            "open,100.00 %,35.0,0.0,0.0,0.0,0,100.00 %,",
            "closed,66.67 %,35.0,0.0,25.0,25.0,50,100.00 %,-50",
            "each flight alone,,35.0,0.0,0.0,0.0,0,,0",
        ])

    def test_a_table_for_a_page(self):
        self.made("--days", "1", out="one")
        _, text, _ = self.script("compare_studies", "one")
        lines = text.splitlines()
        self.assertEqual({len(line) for line in lines}, {len(lines[0])})
        self.assertEqual([cell.strip() for cell in lines[0].strip("|").split("|")], COLUMNS.split(","))
        self.assertEqual(set(lines[1]), {"|", "-"})

    def test_refusals(self):
        self.made("--days", "1", out="one")
        self.made("--days", "1", "--seed", "2", out="two")
        (self.place / "plan.txt").write_text(PLAN.replace("F2", "F3"))
        self.made("--days", "1", out="other")
        for folder, status, said in (
            ("two", 1, "the studies have not the same seed, so their days differ"),
            ("other", 1, "the studies are of other plans, or of other days"),
            ("none", 3, "none has no study"),
        ):
            self.assertEqual(self.script("compare_studies", "one", folder), (status, "", [f"compare_studies: {said}"]))

    def test_the_mean_and_how_far_it_is_off(self):
        # The deviation of 0, 200 and 400 is 200; over the root of 3 and times 1.96 that is 226.3.
        self.assertEqual(interval([0, 200, 400]), "200 ± 226")
        self.assertEqual((interval([7]), interval([])), ("7", "0"))

    def test_days_that_only_one_has(self):
        days = [iter([(1, "a"), (2, "b"), (4, "d")]), iter([(2, "B"), (3, "C"), (4, "D")])]
        self.assertEqual(list(same_days(days)), [["b", "B"], ["d", "D"]])


class Doubled(ScriptTest):
    """An airport with two segments in place of one."""

    def test_the_airport(self):
        self.assertEqual(doubled(AIRPORT.encode(), "A"), (DOUBLED.encode(), "A_2"))

    def test_conflicts_turns_and_one_way(self):
        text = FORK + "forbid,A+,B+\n"
        lines = doubled(text.encode(), "B")[0].decode().splitlines()
        self.assertEqual([line for line in lines if "B_2" in line], ["segment,B_2,J,S1,one", "seconds,B_2,M,30", "forbid,A+,B_2+"])
        # D meets A at R, and E meets it nowhere.
        lines = doubled((FORK + "conflict,D,A,E\n").encode(), "A")[0].decode().splitlines()
        self.assertEqual([line for line in lines if line.startswith("conflict")], ["conflict,D,E", "conflict,A,E", "conflict,A_2,E"])

    def test_names(self):
        self.assertEqual(name_beside("A", {"A", "A_2"}), "A_3")
        self.assertEqual(name_beside("A23456789012345.x", {}), "A2345678901234_2")

    def test_what_cannot_be_doubled(self):
        with self.assertRaises(Refused):
            doubled(AIRPORT.encode(), "B")
        with self.assertRaises(Refused):
            doubled(AIRPORT.replace("A,R,S1", "A,S1,S1").encode(), "A")

    def test_the_script(self):
        words = ["airport.csv", "plan.txt", "--out", "both", "--csv", *self.LATER, "--program", str(self.stand_in), "--engine", "no"]
        status, text, said = self.script("double_segment", *words)
        self.assertEqual((status, said), (0, ["double_segment: both/as-it-is", "double_segment: both/two-A"]))
        # The router that stands in knows the segment A alone, so nothing is better.
        self.assertEqual([line.split(",")[0] for line in text.splitlines()], ["study", "as-it-is", "two-A", "each flight alone"])
        self.assertEqual(text.splitlines()[2].split(",")[-1], "0 ± 0")
        self.assertEqual((self.place / "both/two-A/airport.csv").read_text(), DOUBLED)

    def test_the_script_says_no(self):
        words = ["airport.csv", "plan.txt", "--out", "both"]
        said = ["double_segment: the airport has no segment B"]
        self.assertEqual(self.script("double_segment", *words, "--segments", "A,B"), (1, "", said))
        status, _, said = self.script("double_segment", *words, "--part", "1/2")
        self.assertEqual((status, said[-1]), (1, "double_segment: --part is for tools/many_days alone"))
        status, _, said = self.script("double_segment", *words, "--program", "/no/program")
        self.assertEqual((status, said[-1]), (1, "double_segment: the study in both/as-it-is did not end well"))


class OwnRouter(StudyTest):
    """The small router of the examples."""

    def filed(self, airport, plan):
        """Its lines."""
        (self.place / "airport.csv").write_text(airport)
        (self.place / "plan.txt").write_text(plan)
        ran = subprocess.run([str(OWN), "airport.csv", "plan.txt"], capture_output=True, text=True, check=True)
        return ran.stdout.splitlines()

    def test_routes(self):
        self.assertEqual(self.filed(AIRPORT, PLAN), ["file F1 M 100 A+ 130", "file F2 M 130 A+ 160", "file G1 H 260 A- 300"])

    def test_the_quickest_way_and_clearance(self):
        # Class M keeps a segment shut for 5 seconds more. So F2 may enter B at 155, and A at 135. G1 has to go by E and D, since B is one-way.
        # D is shut with A from 100 to 125 and from 135 to 160. So G1 leaves it by 95.
        lines = self.filed(FORK, "arrival F1 M R S1 100 60\narrival F2 M R S1 110 60\ndeparture G1 M S1 R 160 100\n")
        self.assertEqual(lines, ["file F1 M 100 A+ 120 B+ 150", "file F2 M 135 A+ 155 B+ 185", "file G1 M 35 E- 65 D- 95"])

    def test_a_turn_that_is_forbidden_and_a_work_party(self):
        lines = self.filed(FORK + "forbid,A+,B+\n", "work W1 E 100 200\narrival F1 M R S1 100 100\narrival F2 M R S1 100 60\n")
        # By D and E, and E is shut up to 200. F2 would have to wait longer than it may.
        self.assertEqual(lines, ["work W1 E 100 200", "file F1 M 170 D+ 200 E+ 230"])


if __name__ == "__main__":
    unittest.main()
