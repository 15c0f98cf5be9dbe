"""Tests of the scripts for planners: flights, compare_plans, stands and order_day. Expected values are worked out by hand."""
import contextlib
import json
import os
import subprocess
import sys
import tempfile
import unittest
from pathlib import Path

sys.dont_write_bytecode = True
TOOLS = Path(__file__).resolve().parent.parent
sys.path.insert(0, str(TOOLS))

from day_replay.airport import read_airport  # noqa: E402
from planning.orders import orders, read_parts  # noqa: E402
from planning.stand_use import Movement, gaps_of, visits_of  # noqa: E402
from planning.tables import taken_for, warning  # noqa: E402

AIRPORT = """taxi-airport,1
horizon,3600
node,R,runway
node,J,junction
node,S1,stand
node,S2,stand
class,M
class,H
segment,A,R,J,both
segment,B,J,S1,both
segment,C,J,S2,both
seconds,A,M,30
seconds,B,M,20
seconds,C,M,25
seconds,A,H,40
seconds,C,H,30
"""
# F2 comes to R at 100 as F1 does, so it waits until F1 has left A. F3 chooses S2, and F4 has no way.
COMMANDS = """# a day
arrival F1 M R S1 100 0
arrival F2 M R S1 100 60

arrival-any F3 M R 300 0 S1 S2
departure F4 H S1 R 900 60
departure G1 M S1 R 1000 60
arrival F1 M R S1 100 0
nonsense
"""


def step(arc, enter, leave):
    """A step as an object has it."""
    return {"arc": arc, "enter": enter, "leave": leave}


def route(flight, second, *steps):
    """A reply with a route."""
    return {"reply": "route", "flight": flight, "second": second, "steps": [step(*one) for one in steps], "labels": []}


REPLIES = [
    route("F1", 150, ("A+", 100, 130), ("B+", 130, 150)),
    route("F2", 180, ("A+", 130, 160), ("B+", 160, 180)),
    route("F3", 375, ("A+", 300, 330), ("C+", 330, 375)),
    {"reply": "no-route", "labels": []},
    route("G1", 950, ("B-", 950, 970), ("A-", 970, 1000)),
    {"reply": "refused", "why": "in-force"},
    {"reply": "refused", "why": "bad-line"},
]
# Answers `json` with the K-th object for the K-th command, and the other verbs with a text, both from a file.
PROGRAM = """#!{python}
import sys
told = open({told!r}).read()
if sys.argv[1] != "json":
    print(told, end="")
    sys.exit({status})
stream = sys.stdin if sys.argv[3] == "-" else open(sys.argv[3])
commands = (line for line in iter(stream.readline, "") if line.strip() and not line.startswith("#"))
for answer, command in zip(told.splitlines(), commands):
    print(answer, flush=True)
print('{{"done":1}}')
"""


def objects(commands, replies):
    """The lines of `taxi-tools json` for commands with their replies."""
    lines = [(number, line) for number, line in enumerate(commands.splitlines(), 1) if line.strip() and not line.startswith("#")]
    return "".join(
        json.dumps({"command": k, "line": number, "words": line.split(" "), **reply}) + "\n"
        for k, ((number, line), reply) in enumerate(zip(lines, replies), 1)
    )


@contextlib.contextmanager
def folder_of(told, commands=COMMANDS, status=0, **files):
    """A folder with an airport, commands, a program that answers with a text, and further files."""
    with tempfile.TemporaryDirectory() as name:
        folder = Path(name)
        program = PROGRAM.format(python=sys.executable, told=str(folder / "told"), status=status)
        for file, text in {"airport.csv": AIRPORT, "day.txt": commands, "told": told, "program": program, **files}.items():
            (folder / file).write_text(text, encoding="utf-8")
        (folder / "program").chmod(0o700)
        yield folder


def run(script, folder, *words):
    """The status, the output and the messages of a script in a folder."""
    ran = subprocess.run(
        [sys.executable, TOOLS / script, *words, "--program", folder / "program"], cwd=folder, capture_output=True, check=False,
    )
    return ran.returncode, ran.stdout.decode(), ran.stderr.decode()


class Flights(unittest.TestCase):
    def test_rows(self):
        with folder_of(objects(COMMANDS, REPLIES)) as folder:
            status, out, told = run("flights", folder, "airport.csv", "day.txt")
        self.assertEqual(status, 0)
        self.assertEqual(out.splitlines()[1:], [
            "F1,arrival,M,R,S1,,in force,2,100,0,100,150,50,50,0,0,,0,,",
            "F2,arrival,M,R,S1,,in force,3,100,60,130,180,50,50,0,30,F1,0,,",
            "F3,arrival,M,R,S2,S2,in force,5,300,0,300,375,75,55,20,0,,20,C,",
            "F4,departure,H,S1,R,,no-route,6,900,60,,,,,,,,,,",
            "G1,departure,M,S1,R,,in force,7,1000,60,950,1000,50,50,0,0,,0,,",
        ])
        self.assertEqual(told, "flights: 2 lines were refused and have no row, the first is line 8: arrival F1 M R S1 100 0\n")

    def test_times_a_separator_and_a_mark(self):
        with folder_of(objects(COMMANDS, REPLIES)) as folder:
            words = ("airport.csv", "day.txt", "2026-03-02T06:00:00+02:00", "--separator", ";", "--mark")
            _, out, _ = run("flights", folder, *words)
        lines = out.splitlines()
        self.assertTrue(lines[0].startswith("\ufeffflight;kind;class;"))
        self.assertEqual(
            lines[2], "F2;arrival;M;R;S1;;in force;3;2026-03-02 06:01:40;60;2026-03-02 06:02:10;2026-03-02 06:03:00;50;50;0;30;F1;0;;"
        )

    def test_names_that_programs_change(self):
        changed = ["007", "1E5", "1-2", "07/25", "MAR12", "12DEC", "-A", "NA", "NaN", "true", "inf", "1.5"]
        self.assertEqual([name for name in changed if not taken_for(name)], [])
        kept = ["SWR101", "K1-4", "07/25.1", "G1", "RW09", "MARS12A", "NATO", "E5", "1A"]
        self.assertEqual([name for name in kept if taken_for(name)], [])
        self.assertIsNone(warning(kept))
        self.assertIn("007 (a number), NA (a missing value)", warning(["007", "A", "NA", "007"]))

    def test_a_flight_that_is_cancelled(self):
        commands = "file X1 M 100 A+ 130\nfile X2 M 300 A+ 330\ncancel X2\n"
        filed = [{"reply": "filed", "flight": name, "start": start, "end": start + 30} for name, start in (("X1", 100), ("X2", 300))]
        replies = [*filed, {"reply": "cancelled", "flight": "X2"}]
        with folder_of(objects(commands, replies), commands) as folder:
            _, out, _ = run("flights", folder, "airport.csv", "day.txt")
        self.assertEqual([row.split(",")[6] for row in out.splitlines()[1:]], ["in force", "cancelled"])


class Endings(unittest.TestCase):
    def test_a_run_that_ends_badly(self):
        with folder_of("airport refused at record 1: first-row\n", status=2) as folder:
            status, out, told = run("compare_plans", folder, "day.txt", "day.txt", "--airport", "airport.csv")
        self.assertEqual((status, out), (2, ""))
        self.assertEqual(told, "compare_plans: program plan ended with status 2: airport refused at record 1: first-row\n")

    def test_files_that_are_missing(self):
        with folder_of("") as folder:
            self.assertEqual(run("flights", folder, "no.csv", "day.txt")[::2], (3, "flights: no.csv: No such file or directory\n"))
            status, _, told = run("flights", folder, "airport.csv", "day.txt", "today")
            self.assertEqual((status, told), (1, "flights: start: today is not of the form 2026-03-29T00:00:00+01:00\n"))

    def test_a_full_disk_and_a_closed_pipe(self):
        with folder_of(objects(COMMANDS, REPLIES)) as folder:
            words = [sys.executable, str(TOOLS / "flights"), "airport.csv", "day.txt", "--program", "./program"]
            with open("/dev/full", "w") as full:
                ran = subprocess.run(words, cwd=folder, stdout=full, stderr=subprocess.PIPE, check=False)
            self.assertEqual((ran.returncode, ran.stderr), (4, b"flights: the output can't be written: the disk is full\n"))
            reader, writer = os.pipe()
            os.close(reader)
            ran = subprocess.run(words, cwd=folder, stdout=writer, stderr=subprocess.PIPE, check=False)
            os.close(writer)
            self.assertEqual((ran.returncode, ran.stderr), (4, b""))

    def test_help(self):
        for script in ("flights", "compare_plans", "stands", "order_day"):
            ran = subprocess.run([sys.executable, TOOLS / script, "--help"], capture_output=True, text=True, check=True)
            self.assertTrue(ran.stdout.startswith(f"usage: {script} "))


PLAN = "name,kind,class,from,to,step,segment,direction,tail,head,enter,leave,until,least,wait,slack\n"
F1 = "F1,arrival,M,R,S1,1,A,forward,R,J,%s,130,130,30,0,5\nF1,arrival,M,R,S1,2,B,forward,J,S1,130,%s,150,20,%s,5\n"
F2 = "F2,arrival,M,R,S2,1,A,forward,R,J,200,230,230,30,0,5\n"


class ComparedPlans(unittest.TestCase):
    def test_what_changed(self):
        with folder_of("", a=PLAN + F1 % (100, 150, 0) + F2, b=PLAN + F1 % (100, 160, 10)) as folder:
            status, out, _ = run("compare_plans", folder, "a", "b")
            self.assertEqual(status, 0)
            self.assertEqual(out.splitlines(), [
                "F1 end 150 -> 160; waited 0 -> 10", "F2 gone: arrival R to S2, 200 to 230",
                "1 changed, 0 new, 1 gone, 0 as before; waiting 0 -> 10 s",
            ])
            self.assertEqual(run("compare_plans", folder, "a", "b", "--table")[1].splitlines()[1:3], ["F1,end,150,160", "F1,waited,0,10"])

    def test_civil_times_of_one_date(self):
        times = "2026-03-02T06:01:40+02:00", "2026-03-02T06:02:00+02:00"
        with folder_of(PLAN + F1 % (times[0], 150, 0), a=PLAN + F1 % (times[1], 150, 0)) as folder:
            _, out, _ = run("compare_plans", folder, "a", "day.txt", "--airport", "airport.csv", "--start", "2026-03-02T06:00:00+02:00")
            self.assertEqual(out.splitlines()[0], "F1 begin 06:02:00 -> 06:01:40")
            self.assertEqual(run("compare_plans", folder, "a", "day.txt")[0], 1)


def arrival(name, stand, finish):
    """An arrival that ends at a second."""
    return Movement(name, "M", None, stand, finish - 50, finish)


def departure(name, stand, begin):
    """A departure that begins at a second."""
    return Movement(name, "M", stand, None, begin, begin + 50)


class StandUse(unittest.TestCase):
    def visits(self, *movements, registrations=None):
        visits, moved = visits_of(sorted(movements, key=lambda one: one.begin), registrations or {}, 3600)
        return [(one.name, one.begin, one.until, one.note, [other.name for other in one.overlaps]) for one in visits], moved

    def test_first_come_first_gone(self):
        visits, _ = self.visits(arrival("A1", "S1", 150), arrival("A2", "S1", 300), departure("D1", "S1", 500))
        self.assertEqual(visits, [("A1", 150, 500, "", ["A2"]), ("A2", 300, 3600, "until unknown", ["A1"])])

    def test_registrations(self):
        told = {"A1": "D-AIBC", "A2": "HB-IJK", "D1": "HB-IJK", "D2": "D-AIBC"}
        movements = arrival("A1", "S1", 150), arrival("A2", "S2", 300), departure("D1", "S2", 500), departure("D2", "S2", 900)
        visits, moved = self.visits(*movements, registrations=told)
        self.assertEqual([row[:4] for row in visits], [
            ("A1", 150, 3600, "until unknown"), ("A2", 300, 500, ""), ("D2", 500, 900, "since unknown"),
        ])
        self.assertEqual([(one.arrival.name, one.departure.name) for one in moved], [("A1", "D2")])

    def test_gaps(self):
        visits, _ = visits_of([arrival("A1", "S1", 150), departure("D1", "S1", 500), arrival("A2", "S1", 700)], {}, 3600)
        self.assertEqual((gaps_of(visits, "S1", 3600), gaps_of(visits, "S2", 3600)), ([(0, 150), (500, 700)], [(0, 3600)]))

    def test_tables(self):
        with folder_of(objects(COMMANDS, REPLIES)) as folder:
            _, use, told = run("stands", folder, "airport.csv", "day.txt")
            overlaps = run("stands", folder, "airport.csv", "day.txt", "--show", "overlaps")[1]
            gaps = run("stands", folder, "airport.csv", "day.txt", "--show", "gaps", "--at-least", "300")[1]
        self.assertEqual(use.splitlines()[1:], [
            "S1,F1,G1,M,150,950,800,,F2", "S1,F2,,M,180,3600,3420,until unknown,F1", "S2,F3,,M,375,3600,3225,until unknown,",
        ])
        self.assertEqual(overlaps.splitlines()[1:], ["S1,180,950,770,F1,F2"])
        self.assertEqual(gaps.splitlines()[1:], ["S2,0,375,375"])
        self.assertEqual(told, "stands: 3 visits at 2 stands, 1 overlap\n")

    def test_a_day_with_held_stands(self):
        commands = "arrival F1 M R S1 100 0\ndeparture G1 M S1 R 1000 60\n"
        filed = {"reply": "filed", "flight": "AT-F1", "start": 150, "end": 1000}
        done = {"reply": "cancelled", "flight": "AT-F1"}
        sent = commands.replace("departure", "work\nworkdone\ndeparture") + "work\n"
        replies = [REPLIES[0], filed, done, REPLIES[4], filed]
        with folder_of(objects(sent, replies), commands) as folder:
            status, out, told = run("stands", folder, "airport.csv", "day.txt", "--hold")
        self.assertEqual((status, told), (0, ""))
        self.assertEqual(out.splitlines(), [
            "arrival F1 M R S1 100 0", "work AT-F1 B 150 1000", "workdone AT-F1", "departure G1 M S1 R 1000 60", "work AT-F1 B 150 950",
        ])

    def test_a_late_flight_can_not_be_followed(self):
        with folder_of("", "late F1 100 200\n") as folder:
            status, out, told = run("stands", folder, "airport.csv", "day.txt", "--hold")
        self.assertEqual((status, out), (1, ""))
        self.assertIn("line 1: a late flight moves others", told)


class Orders(unittest.TestCase):
    LINES = ["arrival F1 M R S1 300 0", "departure G1 H S1 R 200 60", "arrival F2 H R S1 100 0"]

    def test_orders(self):
        parts = read_parts("\n".join(["# a day", "work W A 0 9", *self.LINES]).encode())
        self.assertEqual((parts.comments, parts.fixed, parts.requests), (["# a day"], ["work W A 0 9"], self.LINES))
        found = {name: [line.split()[1] for line in lines] for name, lines in orders(parts, read_airport(AIRPORT.encode()).classes, 2, 7)}
        self.assertEqual(found["by time"], ["F2", "G1", "F1"])
        self.assertEqual(found["by class, then by time"], ["F1", "F2", "G1"])
        self.assertEqual(found["departures first, then by time"], ["G1", "F2", "F1"])
        self.assertEqual(sorted(found["random 2 of seed 7"]), ["F1", "F2", "G1"])

    def test_the_best_is_written_with_its_figures(self):
        figures = "reply no-route 1\nwaited arrival M 30\nwaited departure M 10\nheld arrival M 5\nearly departure M 2\n"
        with folder_of(figures, "\n".join(self.LINES)) as folder:
            status, out, told = run("order_day", folder, "airport.csv", "day.txt", "--tries", "1")
        self.assertEqual(status, 0)
        self.assertEqual(out.splitlines(), ["# as given: 1 without a route, waited 40 s, held or early 7 s", *self.LINES])
        self.assertEqual(told.splitlines()[1].split(), ["as", "given", "1", "40", "7", "47"])

    def test_commands_whose_place_has_a_meaning(self):
        with folder_of("", "arrival F1 M R S1 300 0\nreroute F1 310\n") as folder:
            status, out, told = run("order_day", folder, "airport.csv", "day.txt")
        self.assertEqual((status, out), (1, ""))
        self.assertIn("line 2 begins with 'reroute'", told)


if __name__ == "__main__":
    unittest.main()
