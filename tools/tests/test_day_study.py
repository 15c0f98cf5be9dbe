"""Tests of tools/many_days with a router that stands in. Expected values are worked by hand.

In the plan F1 has the segment A from 100 to 130. F2 asks for 110, is held for 20 seconds and has it from 130 to 160. G1 leaves its
stand at 260 and is at the runway node at 300.
"""
import contextlib
import io
import os
import pickle
import signal
import subprocess
import sys
import tempfile
import time
import unittest
import zipfile
from collections import Counter
from html.parser import HTMLParser
from pathlib import Path

TOOLS = Path(__file__).resolve().parent.parent
sys.path.insert(0, str(TOOLS))

from day_replay.airport import read_airport
from day_study.dask_workers import packages, packed, unpack
from day_study.delays import read_rule, rule_for
from day_study.drawing import Closure, day_of, text_of
from day_study.main import main
from day_study.plan import read_plan
from day_study.plots import bins_of, ticks
from day_study.problem import Refused
from day_study.routing import Router
from day_study.study import Study
from day_study.sums import quantile
from day_study.writing import cut_after, days_of

STAND_IN = Path(__file__).resolve().parent / "stand_in_taxi.py"
AIRPORT = """taxi-airport,2
horizon,3600
node,R,runway
node,S1,stand
class,M
class,H
segment,A,R,S1,both
seconds,A,M,30
seconds,A,H,40
"""
PLAN = """# a comment
arrival F1 M R S1 100 60
arrival F2 M R S1 110 60
departure G1 H S1 R 300 50
"""
FLIGHTS = "day,flight,kind,class,from,to,time,offset,answer,begin,end,taxi,wait,held,delay,shift,knock_on"
DAYS = "day,outcome,flights,served,no_route,refused,other,taxi,wait,held,delay,longest_delay,kept,steady,closed"
ROWS = ("flights.csv", "segments.csv", "days.csv")


def study_of(plan=PLAN, **words):
    """A study of the plan."""
    given = {"days": 5, "seed": 1, "limit": 120, "order": "file", "router": Router("none"), **words}
    return Study(AIRPORT.encode(), plan.encode(), **given)


class StudyTest(unittest.TestCase):
    """Runs the script in a folder of its own."""

    def setUp(self):
        place = tempfile.TemporaryDirectory()
        self.addCleanup(place.cleanup)
        self.place = Path(place.name)
        self.addCleanup(os.chdir, os.getcwd())
        os.chdir(self.place)
        # Python begins sooner without its site's packages.
        self.stand_in = self.place / "stand_in"
        self.stand_in.write_text(f"#!{sys.executable} -SE\n" + STAND_IN.read_text())
        self.stand_in.chmod(0o755)
        (self.place / "airport.csv").write_text(AIRPORT)
        (self.place / "plan.txt").write_text(PLAN)

    def words(self, *words, out="out", program=None, jobs=2, engine="no"):
        """The words of a call."""
        given = ["--out", out, "--jobs", str(jobs), "--engine", engine, "--worst", "0"]
        return [sys.executable, str(TOOLS / "many_days"), "airport.csv", "plan.txt", *given, "--program", str(program or self.stand_in), *words]

    def call(self, *words, **more):
        """The status of a call in this process, and the lines that it says on standard error, without progress."""
        with contextlib.redirect_stderr(io.StringIO()) as said:
            status = main(self.words(*words, **more)[2:])
        return status, [line for line in said.getvalue().splitlines() if " a second, " not in line]

    def made(self, *words, **more):
        """A call that ends well."""
        self.assertEqual(self.call(*words, **more), (0, []))

    def lines(self, name, out="out"):
        """The lines of a file of the folder."""
        return (self.place / out / name).read_text().splitlines()

    def rows(self, out="out"):
        """The bytes of the files of rows."""
        return [(self.place / out / name).read_bytes() for name in ROWS]

    def program(self, text):
        """A program of one's own; TAXI in it stands for the stand-in."""
        path = self.place / "program"
        path.write_text("#!/bin/sh\n" + text.replace("TAXI", str(self.stand_in)))
        path.chmod(0o755)
        return path


class Rows(StudyTest):
    """What is written of flights, segments and days."""

    def test_all_ten_seconds_later(self):
        self.made("--days", "1", "--delay", "uniform:10,10", "--check")
        self.assertEqual(self.lines("flights.csv"), [
            FLIGHTS,
            "1,F1,arrival,M,R,S1,110,10,route,110,140,30,0,0,0,10,0",
            "1,F2,arrival,M,R,S1,120,10,route,140,170,30,0,20,20,10,0",
            "1,G1,departure,H,S1,R,310,10,route,270,310,40,0,0,0,10,0",
        ])
        self.assertEqual(self.lines("segments.csv"), ["day,segment,passes,seconds,wait,waited_for,waiting", "1,A,3,100,0,20,1"])
        self.assertEqual(self.lines("days.csv"), [DAYS, "1,done,3,3,0,0,0,100,0,20,20,20,3,3,0"])

    def test_offsets_of_a_kind_and_a_class(self):
        (self.place / "seen.csv").write_text("# seen\narrival,5\nH,-20\n")
        self.made("--days", "1", "--delay", "from:seen.csv", "--limit", "10")
        self.assertEqual(self.lines("flights.csv")[1:], [
            "1,F1,arrival,M,R,S1,105,5,route,105,135,30,0,0,0,5,0",
            "1,F2,arrival,M,R,S1,115,5,route,135,165,30,0,20,20,5,0",
            "1,G1,departure,H,S1,R,280,-20,route,240,280,40,0,0,0,-20,0",
        ])
        # G1 is 20 seconds early, and the limit is 10.
        self.assertEqual(self.lines("days.csv")[1], "1,done,3,3,0,0,0,100,0,20,20,20,2,3,0")

    def test_a_closed_segment(self):
        (self.place / "close.csv").write_text("A,90,150\nA,500,600,0\n")
        self.made("--days", "1", "--close", "close.csv")
        # F1 waits up to 150. F2 would have to wait up to 180, and may up to 170.
        self.assertEqual(self.lines("flights.csv")[1:], [
            "1,F1,arrival,M,R,S1,100,0,route,150,180,30,0,50,50,50,50",
            "1,F2,arrival,M,R,S1,110,0,no-route,,,,,,,,",
            "1,G1,departure,H,S1,R,300,0,route,260,300,40,0,0,0,0,0",
        ])
        self.assertEqual(self.lines("days.csv")[1], "1,done,3,2,1,0,0,70,0,50,50,50,2,2,1")

    def test_a_schedule(self):
        text = "taxi-schedule,1\nstart,2026-01-01T00:00:00Z\narrival,F1,M,R,S1,2026-01-01T00:01:40Z,60\n"
        (self.place / "plan.txt").write_text(text)
        self.made("--days", "1")
        self.assertEqual(self.lines("plan.txt"), ["arrival F1 M R S1 100 60"])
        self.assertEqual(self.lines("flights.csv")[1], "1,F1,arrival,M,R,S1,100,0,route,100,130,30,0,0,0,0,0")

    def test_a_router_of_ones_own(self):
        own = self.place / "own"
        lines = ["file F1 M 120 A+ 150", "file F2 M 180 A+ 210", "file G1 H 260 A- 300"]
        own.write_text("#!/bin/sh\n" + "".join(f"echo {line}\n" for line in lines))
        own.chmod(0o755)
        self.made("--days", "1", "--own", "own")
        # F1 might begin up to 160; F2 up to 170, so 180 is not what it asked for.
        self.assertEqual(self.lines("flights.csv")[1:], [
            "1,F1,arrival,M,R,S1,100,0,filed,120,150,30,0,20,20,0,0",
            "1,F2,arrival,M,R,S1,110,0,not-as-asked,,,,,,,,",
            "1,G1,departure,H,S1,R,300,0,filed,260,300,40,0,0,0,0,0",
        ])
        self.assertEqual(self.lines("days.csv")[1], "1,done,3,2,0,0,1,70,0,20,20,20,2,2,0")


class Parts(HTMLParser):
    """The tags of a page, and where its links lead."""

    def __init__(self, text):
        super().__init__()
        self.open, self.tags, self.links = [], Counter(), []
        self.feed(text)

    def handle_starttag(self, tag, attrs):
        self.tags[tag] += 1
        self.links += [value for name, value in attrs if name in ("href", "src")]
        if tag not in ("meta", "rect", "line", "polyline"):
            self.open.append(tag)

    def handle_startendtag(self, tag, attrs):
        self.tags[tag] += 1

    def handle_endtag(self, tag):
        if tag != "rect":
            assert self.open.pop() == tag, tag


class SumsOfRows(StudyTest):
    """What the rows come to, and the page."""

    def test_sums(self):
        self.made("--days", "2", "--delay", "uniform:10,10")
        sums = self.lines("sums.csv")
        self.assertEqual(sums[0], "group,name,measure,count,sum,mean,least,q05,q25,q50,q75,q95,q99,most")
        # Taxi times are four times 30 and twice 40; delays are four times 0 and twice 20.
        self.assertEqual(sums[1], "all,all,taxi,6,200,33.33,30,30,30,30,40,40,40,40")
        self.assertEqual(sums[4], "all,all,delay,6,40,6.67,0,0,0,0,20,20,20,20")
        self.assertIn("kind,departure,taxi,2,80,40.00,40,40,40,40,40,40,40,40", sums)
        self.assertIn("class,M,delay,4,40,10.00,0,0,0,0,20,20,20,20", sums)
        self.assertIn("stand,S1,delay,6,40,6.67,0,0,0,0,20,20,20,20", sums)
        self.assertIn("segment,A,seconds,2,200,100.00,100,100,100,100,100,100,100,100", sums)
        self.assertIn("day,all,delay,2,40,20.00,20,20,20,20,20,20,20,20", sums)
        self.assertEqual(self.lines("by_flight.csv")[2], "F2,arrival,M,S1,2,2,0,0,0,2,2,0.0000,1.0000,1.0000,20.00,20")
        self.assertEqual(self.lines("by_segment.csv")[1], "A,2,1.0000,6,200,0,40,2,20.00,20,20,20,20,20,20,20")

    def test_a_flight_without_a_route(self):
        (self.place / "close.csv").write_text("A,90,150\n")
        self.made("--days", "3", "--close", "close.csv")
        self.assertEqual(self.lines("by_flight.csv")[2], "F2,arrival,M,S1,3,0,3,0,0,0,0,1.0000,0.0000,0.0000,0.00,0")
        page = (self.place / "out" / "page.html").read_text()
        self.assertIn("<title>F2: 100 %</title>", page)

    def test_quantiles(self):
        counts = Counter({0: 90, 7: 9, 1000: 1})
        self.assertEqual([quantile(counts, 100, share) for share in (5, 90, 91, 99, 100)], [0, 0, 7, 7, 1000])

    def test_the_page(self):
        self.made("--days", "4", "--delay", "uniform:-20,20", "--worst", "2")
        page = (self.place / "out" / "page.html").read_text()
        parts = Parts(page)
        self.assertEqual((parts.open, parts.tags["script"]), ([], 0))
        self.assertEqual(len(parts.links), 2)
        days = [row.split(",") for row in self.lines("days.csv")[1:]]
        worst = sorted(days, key=lambda row: (int(row[3]) - int(row[2]), -int(row[10]), int(row[0])))
        self.assertEqual(parts.links, [f"worst/day-{row[0]}.html" for row in worst[:2]])
        for link in parts.links:
            self.assertIn("<title>", (self.place / "out" / link).read_text())
        self.assertIn("default-src 'none'", page)

    def test_ticks(self):
        self.assertEqual(ticks(100), [0, 20, 40, 60, 80, 100])
        self.assertEqual(ticks(7), [0, 2, 4, 6, 8])
        self.assertEqual(bins_of(Counter({0: 1, 9: 2, 10: 3}))[0], [(k, {0: 1, 9: 2, 10: 3}.get(k, 0)) for k in range(11)])


class SameBytes(StudyTest):
    """The same seed gives the same bytes."""

    SPREAD = ("--days", "12", "--delay", "normal:0,60", "--seed", "7")

    def test_any_number_of_workers(self):
        self.made(*self.SPREAD, jobs=1)
        self.made(*self.SPREAD, jobs=3, out="other")
        self.assertEqual(self.rows(), self.rows("other"))
        self.made(*self.SPREAD[:4], "--seed", "8", out="another")
        self.assertNotEqual(self.rows(), self.rows("another"))

    def test_resume_after_a_cut(self):
        self.made(*self.SPREAD)
        whole = self.rows()
        for name, kept in zip(ROWS, (800, 400, 250)):
            os.truncate(self.place / "out" / name, kept)
        self.made(*self.SPREAD, "--resume")
        self.assertEqual(self.rows(), whole)

    def test_more_days(self):
        self.made(*self.SPREAD)
        self.made("--days", "5", *self.SPREAD[2:], out="grown")
        self.made(*self.SPREAD, "--resume", out="grown")
        self.assertEqual(self.rows("grown"), self.rows())

    def test_parts_that_are_merged(self):
        self.made(*self.SPREAD)
        for part in ("1/3", "3/3"):
            self.made(*self.SPREAD, "--part", part, out="merged")
        self.assertEqual(
            self.call(*self.SPREAD, "--merge", out="merged"), (1, ["many_days: merged has the parts 1/3 3/3, not all of 3"])
        )
        self.made(*self.SPREAD, "--part", "2/3", out="merged")
        row = (self.place / "merged/parts/2-of-3/days.csv").read_bytes()
        (self.place / "merged/parts/2-of-3/days.csv").write_bytes(row[:-5])
        said = "many_days: merged/parts/2-of-3 ends with day 7 and not 8; --resume goes on with it"
        self.assertEqual(self.call(*self.SPREAD, "--merge", out="merged"), (1, [said]))
        self.made(*self.SPREAD, "--part", "2/3", "--resume", out="merged")
        self.made(*self.SPREAD, "--merge", out="merged")
        self.assertEqual(self.rows(), self.rows("merged"))
        for name in ("sums.csv", "by_flight.csv", "by_segment.csv", "page.html", "study.json"):
            self.assertEqual(self.lines(name), self.lines(name, "merged"))

    def started(self, *words):
        """A run of slow days that has begun to write them."""
        slow = self.program("sleep 0.1\nexec TAXI \"$@\"\n")
        run = subprocess.Popen(self.words(*words, program=slow), cwd=self.place, stderr=subprocess.PIPE, text=True)
        days = self.place / "out" / "days.csv"
        until = time.monotonic() + 20
        while time.monotonic() < until and not (days.exists() and days.read_text().count("\n") > 2):
            time.sleep(0.02)
        return run

    def test_stopped_and_resumed(self):
        run = self.started(*self.SPREAD)
        run.send_signal(signal.SIGINT)
        said = run.communicate(timeout=20)[1].splitlines()
        self.assertEqual(run.returncode, 130)
        self.assertRegex(said[-1], r"^many_days: stopped; the days up to \d+ are there, --resume goes on$")
        self.made(*self.SPREAD, "--resume")
        self.made(*self.SPREAD, out="whole")
        self.assertEqual(self.rows(), self.rows("whole"))

    def test_a_worker_that_is_lost(self):
        run = self.started(*self.SPREAD)
        children = Path(f"/proc/{run.pid}/task/{run.pid}/children").read_text().split()
        os.kill(int(children[0]), signal.SIGKILL)
        run.communicate(timeout=30)
        self.assertEqual(run.returncode, 0)
        self.made(*self.SPREAD, out="whole")
        self.assertEqual(self.rows(), self.rows("whole"))

    def test_the_engine_in_process(self):
        module = self.place / "rusboqan.py"
        module.write_text(
            f"import sys\nsys.path.insert(0, {str(STAND_IN.parent)!r})\nfrom stand_in_taxi import Router\n\n\n"
            "def version():\n    return '0.0.0'\n\n\n"
            "class Engine:\n    def __init__(self, airport):\n        self.router = Router()\n\n"
            "    def __enter__(self):\n        return self\n\n    def __exit__(self, *why):\n        pass\n\n"
            "    def answer_bytes(self, line):\n        return self.router.answer(line.decode()).encode() if line else b''\n"
        )
        self.made(*self.SPREAD)
        words = self.words(*self.SPREAD, out="engine", program="/no/program", engine="yes")
        ran = subprocess.run(words, cwd=self.place, env={**os.environ, "PYTHONPATH": str(self.place)}, stderr=subprocess.PIPE, check=False)
        self.assertEqual(ran.returncode, 0, ran.stderr)
        self.assertEqual(self.rows(), self.rows("engine"))


class Failures(StudyTest):
    """Days that fail, and what is refused."""

    def test_a_day_that_fails(self):
        self.made("--days", "6", "--delay", "uniform:1,9", out="good")
        row = self.lines("flights.csv", "good")[4].split(",")
        self.assertEqual(row[:2], ["2", "F1"])
        same = [it.split(",")[0] for it in self.lines("flights.csv", "good") if it.split(",")[1] == "F1" and it.split(",")[6] == row[6]]
        program = self.program(
            f"test $1 = route || exec TAXI \"$@\"\nlines=$(cat)\n"
            f"case $lines in *'F1 M R S1 {row[6]} '*) echo no memory; exit 5;; esac\necho \"$lines\" | TAXI \"$@\"\n"
        )
        status, said = self.call("--days", "6", "--delay", "uniform:1,9", program=program)
        self.assertEqual(status, 7)
        whys = [f"many_days: day {day} failed: the router ended with status 5: no memory; see out/failed/day-{day}" for day in same]
        self.assertEqual(said, whys + [f"many_days: {len(same)} of 6 days failed"])
        self.assertEqual(self.lines("days.csv")[2], "2,failed,3,,,,,,,,,,,,0")
        self.assertIn(f"arrival F1 M R S1 {row[6]} 60", self.lines("failed/day-2/commands.txt"))
        self.assertEqual(self.lines("failed/day-2/transcript.txt"), ["no memory"])
        good = [line for line in self.lines("flights.csv", "good") if line.split(",")[0] not in same]
        self.assertEqual(self.lines("flights.csv"), good)

    def test_the_checker_says_no(self):
        program = self.program("test $1 = check && echo wrong 1 walk && exit 7\nexec TAXI \"$@\"\n")
        status, said = self.call("--check", program=program)
        self.assertEqual((status, said), (7, ["many_days: the plan itself: the checker ended with status 7: wrong 1 walk"]))

    def test_refusals(self):
        self.made("--days", "1")
        (self.place / "none.txt").write_text("timetable\n")
        (self.place / "close.csv").write_text("B,1,2\n")
        for words, status, said in (
            (["--days", "1"], 1, "out has a study already; --resume goes on with it"),
            (["--days", "1", "--resume", "--seed", "2"], 1, "out has a study with another seed: 1 and not 2"),
            (["--delay", "gamma:1,2"], 1, "--delay gamma:1,2: none of normal:MEAN,DEVIATION, uniform:LEAST,MOST and from:FILE"),
            (["--delay", "X=normal:0,1"], 1, "--delay X=normal:0,1: the airport has no class X"),
            (["--delay", "from:no.csv"], 3, "--delay from:no.csv: the file cannot be read (No such file or directory)"),
            (["--close", "close.csv"], 1, "--close close.csv: line 1: the airport has no segment B"),
        ):
            self.assertEqual(self.call(*words), (status, [f"many_days: {said}"]))
        said = "many_days: --dask sends the program to the workers, so --program has to name the built one"
        with contextlib.redirect_stderr(io.StringIO()) as told:
            self.assertEqual(main(["airport.csv", "plan.txt", "--out", "new", "--dask", "tcp://127.0.0.1:1"]), 1)
        self.assertEqual(told.getvalue().splitlines(), [said])
        status, said = self.call(program="/no/such/program", out="other")
        self.assertEqual((status, said), (1, ["many_days: /no/such/program cannot be run (No such file or directory)"]))

    def test_a_full_disk(self):
        words = " ".join(f"'{word}'" for word in self.words("--days", "20", "--delay", "normal:0,9"))
        ran = subprocess.run(["bash", "-c", f"ulimit -f 1; exec {words}"], cwd=self.place, capture_output=True, text=True, check=False)
        self.assertEqual(ran.returncode, 4)
        last = ran.stderr.splitlines()[-1]
        self.assertEqual(last, "many_days: out: File too large; what is written stays, --resume goes on")
        self.made("--days", "20", "--delay", "normal:0,9", "--resume")
        self.made("--days", "20", "--delay", "normal:0,9", out="whole")
        self.assertEqual(self.rows(), self.rows("whole"))

    def test_help(self):
        ran = subprocess.run([str(TOOLS / "many_days"), "--help"], capture_output=True, text=True, check=False)
        self.assertEqual((ran.returncode, ran.stdout[:16]), (0, "usage: many_days"))


class SentToWorkers(StudyTest):
    """What a worker of Dask gets."""

    def test_the_programs_are_written_anew(self):
        study = study_of(router=Router(str(self.stand_in)))
        sent = pickle.loads(packed(study, "[[], []]", "key"))
        (self.place / "worker").mkdir()
        there = unpack(sent, self.place / "worker")
        self.assertEqual(there.router.program, str(self.place / "worker" / "program"))
        ran = subprocess.run([there.router.program, "check", "A", "B"], capture_output=True, text=True, check=False)
        self.assertEqual(ran.stdout, "ok 0\n")
        self.assertEqual(there.day(1), study.day(1))

    def test_the_modules(self):
        with zipfile.ZipFile(packages(self.place)) as archive:
            self.assertLess({"day_study/study.py", "day_study/page.css", "day_replay/replay.py"}, set(archive.namelist()))


class Draws(unittest.TestCase):
    """Offsets, orders and parts."""

    def test_rules(self):
        # 97.5 % of a normal distribution lie below 1.96 deviations.
        self.assertEqual(read_rule("normal:10,100").law.offset(0.975, None), 206)
        self.assertEqual(read_rule("normal:7,0").law.offset(0.1, None), 7)
        law = read_rule("uniform:-600,600").law
        self.assertEqual([law.offset(share, None) for share in (0.0, 0.5, 0.9999)], [-600, 0, 600])
        for text in ("normal:1", "normal:0,-1", "uniform:2,1", "uniform:1,x", "normal:nan,1", "8"):
            with self.assertRaises(Refused):
                read_rule(text)

    def test_the_class_comes_before_the_kind(self):
        rules = tuple(map(read_rule, ("uniform:1,1", "arrival=uniform:2,2", "H=uniform:3,3")))
        asks = read_plan(b"arrival A M R S 1 1\narrival B H R S 1 1\ndeparture C M S R 1 1\n").asks
        self.assertEqual([rule_for(rules, ask.request).least for ask in asks], [2, 3, 1])

    def test_times_stay_in_the_day(self):
        study = study_of(delays=(read_rule("arrival=uniform:-200,-200"), read_rule("departure=uniform:4000,4000")))
        self.assertEqual(study.day(1).times, (0, 0, 3600))

    def test_orders(self):
        plan = "arrival B M R S1 50 0\narrival A M R S1 40 0\ntimetable\n" + "".join(
            f"arrival C{k} M R S1 {100 - k} 0\n" for k in range(8)
        )
        names = [" ".join(word for word in line.split() if word[0] in "ABC") for line in self.lines(plan, "time")]
        self.assertEqual(names, ["A", "B", "", "C7", "C6", "C5", "C4", "C3", "C2", "C1", "C0"])
        lines = self.lines(plan, "batch")
        self.assertEqual(lines[0], "batch arrival A M R S1 40 0 arrival B M R S1 50 0")
        self.assertEqual([len(line.split()) for line in lines[1:]], [1, 43, 15])
        mixed = self.lines(plan, "random")
        self.assertEqual(sorted(mixed[:2]), ["arrival A M R S1 40 0", "arrival B M R S1 50 0"])
        self.assertEqual(sorted(mixed[3:]), sorted(plan.splitlines()[3:]))

    def lines(self, plan, order):
        """The lines of the first day in an order."""
        return study_of(plan, order=order).day(1).text.decode().splitlines()

    def test_a_choice_has_its_time_elsewhere(self):
        plan = read_plan(b"departure-any F M S1 300 9 R Q\nbatch arrival A M R S1 1 2 arrival B M R S1 3 4\narrival X M R S1 5\n")
        self.assertEqual([ask.request.time for ask in plan.asks], [300, 1, 3])
        self.assertEqual(plan.asks[0].targets, ("R", "Q"))
        self.assertEqual(text_of(plan.asks[1:], (0, 7, 8)), "batch arrival A M R S1 7 2 arrival B M R S1 8 4")
        self.assertEqual(plan.lines[2].text, "arrival X M R S1 5")

    def test_a_name_that_the_plan_uses(self):
        airport = read_airport(AIRPORT.encode())
        study = study_of("arrival CLOSED1 M R S1 9 9\n", closures=(Closure("A", 5, 6, 1.0),))
        self.assertEqual(day_of(study.plan, study, 1, airport.horizon).text, b"work CLOSED2 A 5 6\narrival CLOSED1 M R S1 9 9\n")

    def test_parts(self):
        self.assertEqual([days_of(10, (k, 3)) for k in (1, 2, 3)], [(1, 4), (4, 7), (7, 11)])

    def test_a_file_is_cut(self):
        with tempfile.NamedTemporaryFile() as file:
            for text, day, kept in ((b"h\n1,a\n2,b\n2,c\n3", 2, b"h\n1,a\n"), (b"h\n1,a\n2,", 3, b"h\n1,a\n"), (b"h\n", 1, b"h\n")):
                Path(file.name).write_bytes(text)
                cut_after(file.name, day)
                self.assertEqual(Path(file.name).read_bytes(), kept)


if __name__ == "__main__":
    unittest.main()
