"""Explanations of each kind of line, worked by hand."""

import unittest

import programs
from programs import Status
from router import FIRST_VERSION, SECOND_VERSION, SECOND_RUNWAY, SMALL, TWO_STANDS

WITH_CLEARANCE = SECOND_VERSION + TWO_STANDS + b"clearance,M,10\n"
NOTHING = b"nothing to explain\n"


class Explanations(programs.ProgramTest):
    """The last of some commands is explained."""

    crate = "taxi_tools"

    def explains(self, airport, commands, text):
        files = {"airport.csv": airport, "commands.txt": commands}
        self.expect("explain airport.csv commands.txt %d" % len(commands.splitlines()), files, Status.DONE, text)

    def test_lines_with_nothing_to_explain(self):
        front = b"arrival F1 M R S1 100 0\n"
        for line in [
            b"cancel  F1",
            b"cancel F1",
            b"timetable",
            b"windows A",
            b"occupancy A",
            b"late F1 110 200",
            b"reroute F9 1",
            b"work W1 C 150 160",
            b"workdone W1",
            b"arrival F1 M R S1 100 0",
            b"file X1 M 0 A+ 29",
            b"batch arrival F2 M R S1 100 60 arrival F3 M R S1 100 0",
        ]:
            with self.subTest(line=line):
                self.explains(SMALL, front + line + b"\n", NOTHING)

    def test_a_route_like_the_one_alone(self):
        self.explains(SMALL, b"arrival F1 M R S1 100 0\n", b"answer 150\nalone 150\n")

    def test_an_arrival(self):
        # X1 keeps the runway's segment until 230, and X2 the one behind it until 300.
        commands = b"file X1 M 200 A+ 230\nfile X2 M 0 B+ 300\narrival F1 M R S1 100 200\n"
        self.explains(SMALL, commands, b"answer 320\nalone 150\nwithout X2 150\nhold 130 X1\nwait 1 A+ 40 X2\n")

    def test_an_arrival_without_a_route(self):
        commands = b"arrival F1 M R S1 100 0\narrival F2 M R S1 100 0\n"
        self.explains(SMALL, commands, b"answer none\nalone 150\nwithout F1 150\nlater 130 180\n")

    def test_departures(self):
        commands = b"file X1 M 100 D+ 200\ndeparture G1 M S2 R 185 0\nfile X2 M 300 A+ 340\ndeparture G2 M S1 R 330 60\n"
        commands += b"departure G3 M S1 R 150 0\n"
        lines = commands.splitlines(keepends=True)
        for count, text in [
            (2, b"answer 85\nalone 115\nwithout X1 115\nwait 2 C- 30 X1\n"),
            (4, b"answer 250\nalone 280\nwithout X2 280\nqueue 30 X2\n"),
            (5, b"answer none\nalone 100\nwithout G1 100\nsooner 50 100\n"),
        ]:
            self.explains(SMALL, b"".join(lines[:count]), text)

    def test_choices(self):
        commands = b"work W1 B 0 3000\nfile F3 M 100 A+ 130 C+ 155 D+ 400\narrival-any F1 M R 100 100 S2 S1\n"
        text = b"answer 425\nalone 150\nwithout F3 170\nwithout W1 215\nhold 65 F3\nwait 2 C+ 190 F3\n"
        self.explains(WITH_CLEARANCE, commands, text)
        commands = b"file X1 M 100 E+ 250\ndeparture-any G1 M S2 200 0 R R2\n"
        self.explains(SMALL + SECOND_RUNWAY, commands, b"answer 130\nalone 145\nwithout X1 145\n")

    def test_flights_that_are_led_on(self):
        commands = b"file X1 M 0 D+ 200\narrival F1 M R S1 100 0\ndivert F1 110 S2\ncancel X1\nreroute F1 170\n"
        lines = commands.splitlines(keepends=True)
        self.explains(SMALL, b"".join(lines[:3]), b"answer 215\nalone 170\nwithout X1 170\nwait 2 C+ 45 X1\n")
        self.explains(SMALL, commands, b"answer 185\nalone 185\nwait 2 C+ 15\n")
        commands = b"file X1 M 150 A- 400\ndeparture G1 M S2 R 400 300\nfile X2 M 0 B+ 100\nreroute G1 10\n"
        self.explains(SMALL, commands, b"answer 80\nalone 330\nwithout X1 330\nqueue 250 X1\n")

    def test_filed_by_hand_and_refused(self):
        commands = b"arrival F1 M R S1 100 0\nwork W1 C 150 160\nfile X1 M 90 B- 110 A- 175\n"
        self.explains(WITH_CLEARANCE, commands, b"refused step 2 taken 110 F1\nheld 100 140 F1 A\nheld 150 160 W1 C\n")

    def test_a_work_party_that_is_refused(self):
        commands = b"file X1 M 100 A+ 130\nwork W1 C 120 160\n"
        self.explains(SMALL, commands, b"refused step 1 taken 120 X1\nheld 100 130 X1 A\n")


if __name__ == "__main__":
    unittest.main()
