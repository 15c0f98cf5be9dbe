"""Tests of the page of a day that need no browser; expected values stand in the examples' transcripts or are worked out by hand."""
import json
import re
import subprocess
import sys
import tempfile
import unittest
from pathlib import Path

TOOLS = Path(__file__).resolve().parent.parent
sys.path.insert(0, str(TOOLS))

from day_replay.airport import BadFile, read_airport
from day_replay.civil import Clock
from day_replay.commands import names_in, own_time, read_commands
from day_replay.day import runway_pieces, unanswered
from day_replay.geojson_map import read_map
from day_replay.page import as_script_text, digest, page
from day_replay.replay import replay, told_times
from day_replay.sentences import sentence
from day_replay.transcript import read_replies

EXAMPLES = TOOLS.parent / "examples"
SMALL = b"""taxi-airport,1
horizon,3600
node,R,runway
node,J,junction
node,K,junction
node,S1,stand
node,S2,stand
class,M
segment,A,R,J,both
segment,B,J,S1,both
segment,C,J,K,both
segment,D,K,S2,both
seconds,A,M,30
seconds,B,M,20
seconds,C,M,25
seconds,D,M,15
conflict,A,C
"""


def run_of(airport, commands, transcript):
    """The replay of a day that is given as texts."""
    airport = read_airport(airport)
    return replay(airport, read_commands(commands.encode()), read_replies(transcript.encode()))


def steps_of(run, name):
    """The steps of a holder in force, with the words of their arcs."""
    return [(run.airport.arc_word(arc), enter, leave) for arc, enter, leave in run.open[name].steps]


def example(name):
    """The airport of an example, its commands and the replies to them."""
    folder = EXAMPLES / name
    airport = read_airport((folder / "airport.csv").read_bytes())
    commands = read_commands((folder / "commands.txt").read_bytes())
    replies = read_replies((folder / "transcript.txt").read_bytes())
    return airport, commands, replies


class Reading(unittest.TestCase):
    def test_lines_are_counted_and_comments_left_out(self):
        commands = read_commands(b"# a\n\nwindows A\r\n \t\n cancel  F\n#\ntimetable")
        self.assertEqual([(one.line, one.words) for one in commands], [(3, ("windows", "A")), (5, ("", "cancel", "", "F")), (7, ("timetable",))])

    def test_a_name_may_end_with_a_sign(self):
        airport = read_airport(SMALL.replace(b"segment,B,", b"segment,B-,").replace(b"seconds,B,", b"seconds,B-,"))
        self.assertEqual((airport.arc("B-+"), airport.arc("B--")), (2, 3))

    def test_a_hold_shuts_what_is_in_conflict_and_itself(self):
        self.assertEqual(read_airport(SMALL).in_conflict(), [{0, 2}, {1}, {0, 2}, {3}])

    def test_a_file_that_is_no_airport(self):
        for data in (b"", b"node,A,stand\n", b"taxi-airport,1\nnode,A,stand\n", b"taxi-airport,1\nhorizon,9\nsegment,A,B,C,both\n"):
            with self.assertRaises(BadFile):
                read_airport(data)

    def test_blocks(self):
        text = "route F 9 1 2\nstep A+ 1 9\nlabel A+ 0 9 1\nlabel A- 0 9 1\nno-route 1\nlabel A+ 0 9 1\nrefused step 2 taken 7 X\nrefused past-end 9\ntimetable 1\nflight 12 filed M 1 9\ndone 5\n"
        self.assertEqual(
            read_replies(text.encode()),
            [
                {"reply": "route", "flight": "F", "second": 9, "steps": [{"arc": "A+", "enter": 1, "leave": 9}]},
                {"reply": "no-route"},
                {"reply": "refused", "why": "step", "step": 2, "cause": "taken", "at": 7, "by": "X"},
                {"reply": "refused", "why": "past-end", "horizon": 9},
                {"reply": "timetable", "flights": [{"flight": "12", "kind": "filed", "class": "M", "start": 1, "end": 9}]},
            ],
        )

    def test_a_transcript_that_is_cut_or_of_other_words(self):
        for text in ("", "filed F 1 2\n", "route F 9 1 0\ndone 1\n", "what 1\ndone 1\n", "filed F 1 2\ndone 2\n", "read fault\n"):
            with self.assertRaises(BadFile):
                read_replies(text.encode())

    def test_own_times_and_names(self):
        self.assertEqual(own_time("arrival-any F M R 100 5 S1 S2".split()), 100)
        self.assertEqual(own_time("batch arrival F2 M R S1 130 60 departure G M S1 R 100 9".split()), 100)
        self.assertIsNone(own_time(["arrival", "F"]))
        self.assertEqual(names_in("batch arrival F2 M R S1 130 60 departure G M S1 R 100 9".split()), ["F2", "G"])


class Replays(unittest.TestCase):
    def test_timetables_and_occupancies_are_those_of_the_replay(self):
        tried = 0
        for folder in filter(Path.is_dir, EXAMPLES.iterdir()):
            airport, commands, replies = example(folder.name)
            for k, reply in enumerate(replies, start=1):
                run = replay(airport, commands[:k], replies[:k])
                if reply["reply"] == "timetable":
                    told = [(row["flight"], row["kind"], row["start"], row["end"]) for row in reply["flights"]]
                    ours = [(stay.name, stay.kind, stay.begin, stay.finish) for stay in run.open.values() if stay.kind != "work"]
                    self.assertEqual(told, sorted(ours))
                    tried += 1
                if reply["reply"] == "occupancy":
                    shut = run.reservations.shut[airport.segment_number[reply["segment"]]]
                    told = sorted((row["from"], row["until"], row["flight"]) for row in reply["held"])
                    self.assertEqual(told, sorted(row for segment in shut for row in run.reservations.by_segment[segment]))
                    tried += 1
        self.assertGreaterEqual(tried, 2)

    def test_a_diversion_takes_the_place_of_the_route(self):
        airport, commands, replies = example("choice")
        run = replay(airport, commands, replies)
        versions = [(stay.opened, stay.closed, stay.why, stay.end) for stay in run.stays if stay.name == "F2"]
        self.assertEqual(versions, [(3, 4, "arrival-any", "reroute"), (4, 10, "reroute", "divert"), (10, None, "divert", "")])
        self.assertEqual(run.open["F2"].waits, [(0, 370, "X1")])

    def test_how_stays_end(self):
        run = replay(*example("work"))
        self.assertEqual([(stay.name, stay.closed, stay.end) for stay in run.stays], [("CRANE1", 8, "done"), ("F1", None, "")])
        run = replay(*example("lakeside"))
        self.assertEqual([(stay.name, stay.end) for stay in run.stays if stay.closed], [("SWR103", "cancelled")])

    def test_the_least_name_of_two_in_the_way(self):
        commands = "file X2 M 0 A+ 130\nwork W1 C 110 130\narrival F1 M R S1 100 60\n"
        text = "filed X2 0 130\nfiled W1 110 130\nroute F1 180 2 0\nstep A+ 130 160\nstep B+ 160 180\ndone 3\n"
        self.assertEqual(run_of(SMALL, commands, text).open["F1"].held, (30, "W1"))

    def test_who_held_an_arrival(self):
        text = "route F1 150 2 0\nstep A+ 100 130\nstep B+ 130 150\nroute F2 180 2 0\nstep A+ 130 160\nstep B+ 160 180\ndone 2\n"
        run = run_of(SMALL, "arrival F1 M R S1 100 0\narrival F2 M R S1 100 60\n", text)
        self.assertEqual(run.open["F2"].held, (30, "F1"))

    def test_whom_steps_wait_for(self):
        commands = "file X1 M 200 A+ 230\nfile X2 M 0 B+ 300\narrival F1 M R S1 100 200\n"
        text = "filed X1 200 230\nfiled X2 0 300\nroute F1 320 2 0\nstep A+ 230 300\nstep B+ 300 320\ndone 3\n"
        run = run_of(SMALL, commands, text)
        self.assertEqual((run.open["F1"].held, run.open["F1"].waits), ((130, "X1"), [(0, 40, "X2")]))

    def test_a_departure_waits_for_what_is_behind_it(self):
        commands = "file X1 M 100 D+ 200\ndeparture G1 M S2 R 185 0\n"
        text = "filed X1 100 200\nroute G1 85 3 0\nstep D- 85 100\nstep C- 100 155\nstep A- 155 185\ndone 2\n"
        run = run_of(SMALL, commands, text)
        self.assertEqual((run.open["G1"].held, run.open["G1"].waits), (None, [(1, 30, "X1")]))

    def test_the_clearance_counts_in_the_way(self):
        commands = "arrival F1 M R S1 100 0\narrival F2 M R S1 100 60\n"
        text = "route F1 150 2 0\nstep A+ 100 130\nstep B+ 130 150\nroute F2 190 2 0\nstep A+ 140 170\nstep B+ 170 190\ndone 2\n"
        run = run_of(SMALL.replace(b"airport,1", b"airport,2") + b"clearance,M,10\n", commands, text)
        self.assertEqual(run.open["F2"].held, (40, "F1"))

    def test_commands_are_told_as_late_as_can_be(self):
        commands = "arrival F1 M R S1 100 0\nfile X1 M 400 D+ 500\ncancel X1\nreroute F1 110\ncancel F1\n"
        route = "route F1 150 2 0\nstep A+ 100 130\nstep B+ 130 150\n"
        run = run_of(SMALL, commands, f"{route}filed X1 400 500\ncancelled X1\n{route}cancelled F1\ndone 5\n")
        self.assertEqual(told_times(run), [100, 110, 110, 110, 500])

    def test_what_was_not_got_says_between_which_nodes(self):
        commands = "arrival F1 M R S1 100 0\ndeparture-any F2 M S1 100 0 R\ncancel F3\narrival F4\n"
        run = run_of(SMALL, commands, "no-route 0\nno-route 0\nrefused not-in-force\nrefused bad-line\ndone 4\n")
        self.assertEqual([note.ends for note in run.notes], [("R", "S1"), ("S1", None), None, None])

    def test_replies_to_other_commands_are_told_of(self):
        for commands, text in (
            ("windows A\n", "done 0\n"),
            ("cancel F\n", "cancelled F\ndone 1\n"),
            ("windows A\n", "route F 2 1 0\nstep A+ 1 2\ndone 1\n"),
            ("arrival F M R S1 1 0\n", "route F 2 1 0\nstep Z+ 1 2\ndone 1\n"),
        ):
            with self.assertRaises(BadFile):
                run_of(SMALL, commands, text)


class BatchesAndLateFlights(unittest.TestCase):
    COMMANDS = "arrival F1 M R S1 100 0\narrival F2 M R S1 100 100\nlate F1 110 200\n"
    BEFORE = "route F1 150 2 1\nstep A+ 100 130\nstep B+ 130 150\nlabel A+ 0 3600 130\nroute F2 180 2 1\nstep A+ 130 160\nstep B+ 160 180\nlabel A+ 130 3600 160\n"
    LATE = "next F1\nroute F1 220 2 1\nstep A+ 100 200\nstep B+ 200 220\nlabel A+ 0 3600 200\n"

    def test_a_batch_is_served_in_its_own_order(self):
        text = "batch 2 130\nnext F1\nroute F1 150 2 1\nstep A+ 100 130\nstep B+ 130 150\nlabel A+ 0 3600 130\nnext F2\nroute F2 180 2 1\nstep A+ 130 160\nstep B+ 160 180\nlabel A+ 130 3600 160\ndone 1\n"
        run = run_of(SMALL, "batch arrival F2 M R S1 100 60 arrival F1 M R S1 100 0\n", text)
        self.assertEqual([(stay.name, stay.held) for stay in run.stays], [("F1", None), ("F2", (30, "F1"))])
        self.assertEqual(run.stays[1].request.limit, 60)

    def test_a_batch_may_leave_one_out(self):
        text = "batch 2 1000070\nnext F2\nno-route 1\nlabel A+ 0 3600 1\nnext G1\nroute G1 330 3 0\nstep D- 330 345\nstep C- 345 370\nstep A- 370 400\ndone 1\n"
        run = run_of(SMALL, "batch arrival F2 M R S1 100 0 departure G1 M S2 R 400 0\n", text)
        self.assertEqual((list(run.open), run.open["G1"].kind), (["G1"], "departure"))
        self.assertEqual([(note.flight, note.tone, note.at) for note in run.notes], [("F2", "no-route", 100)])

    def test_a_late_flight_moves_the_one_behind(self):
        text = self.BEFORE + "late F1 2\n" + self.LATE + "next F2\nroute F2 250 2 1\nstep A+ 200 230\nstep B+ 230 250\nlabel A+ 200 3600 230\ndone 3\n"
        run = run_of(SMALL, self.COMMANDS, text)
        self.assertEqual(steps_of(run, "F1"), [("A+", 100, 200), ("B+", 200, 220)])
        self.assertEqual((steps_of(run, "F2"), run.open["F2"].why), ([("A+", 200, 230), ("B+", 230, 250)], "moved for F1"))
        self.assertEqual(run.open["F2"].held, (100, "F1"))

    def test_one_that_has_not_begun_and_finds_no_way_is_out(self):
        run = run_of(SMALL, self.COMMANDS, self.BEFORE + "late F1 2\n" + self.LATE + "next F2\nno-route 0\ndone 3\n")
        self.assertEqual(list(run.open), ["F1"])
        self.assertEqual([(stay.closed, stay.end) for stay in run.stays if stay.name == "F2"], [(3, "no-route")])

    def test_a_late_flight_without_a_way_keeps_what_it_has_entered(self):
        commands = "arrival F1 M R S1 100 0\nfile X1 M 200 B+ 3600\nlate F1 110 200\ntimetable\n"
        text = "route F1 150 2 0\nstep A+ 100 130\nstep B+ 130 150\nfiled X1 200 3600\nlate F1 1\nnext F1\nno-route 1\nlabel A+ 0 3600 200\ntimetable 2\nflight F1 filed M 100 200\nflight X1 filed M 200 3600\ndone 4\n"
        run = run_of(SMALL, commands, text)
        self.assertEqual((run.open["F1"].kind, steps_of(run, "F1")), ("filed", [("A+", 100, 200)]))

    def test_dropped_ones_are_out_but_for_what_they_had_entered(self):
        commands = "arrival F1 M R S1 100 0\nfile X1 M 90 D- 105 C- 140 B+ 200\nwork W1 C 150 160\nlate F1 110 190\n"
        text = "route F1 150 2 0\nstep A+ 100 130\nstep B+ 130 150\nfiled X1 90 200\nfiled W1 150 160\nlate F1 3\nnext F1\nroute F1 210 2 0\nstep A+ 100 190\nstep B+ 190 210\ndropped X1\ndropped W1\ndone 4\n"
        run = run_of(SMALL, commands, text)
        self.assertEqual(sorted(run.open), ["F1", "X1"])
        self.assertEqual(steps_of(run, "X1"), [("D-", 90, 105), ("C-", 105, 130)])

    def test_a_departure_that_has_begun_is_filed_from_then_on(self):
        commands = "departure G1 M S2 R 600 0\nlate G1 535 700\n"
        text = "route G1 530 3 0\nstep D- 530 545\nstep C- 545 570\nstep A- 570 600\nlate G1 1\nnext G1\nroute G1 755 3 0\nstep D- 530 700\nstep C- 700 725\nstep A- 725 755\ndone 2\n"
        run = run_of(SMALL, commands, text)
        self.assertEqual((run.open["G1"].kind, run.open["G1"].held), ("filed", None))


class Maps(unittest.TestCase):
    def setUp(self):
        self.airport = read_airport(SMALL)

    def read(self, *features):
        return read_map(json.dumps({"type": "FeatureCollection", "features": list(features)}).encode(), self.airport)

    @staticmethod
    def feature(name, kind, coordinates):
        return {"type": "Feature", "properties": {"name": name}, "geometry": {"type": kind, "coordinates": coordinates}}

    def test_metres_and_the_way_of_a_segment(self):
        # A thousandth of a degree is 111.2 metres of a meridian, and half of that along the 60th parallel.
        shapes = [self.feature("J", "Point", [8.001, 60.0]), self.feature("R", "Point", [8.0, 60.0]), self.feature("A", "LineString", [[8.001, 60.0], [8.0, 60.001], [8.0, 60.0]])]
        found = self.read(*shapes)
        self.assertEqual(found["lines"], [[0, [-55.6, 0, -55.6, 111.2, 0.0, 0.0]]])
        self.assertEqual((found["missing"], found["other"]), (3, 0))

    def test_runways_their_pieces_and_names_of_taxiways(self):
        # The first position is the origin; two hundredths of a degree of a meridian are 2,223.9 metres.
        runway = self.feature("A", "LineString", [[8.0, 60.0], [8.0, 60.02]])
        runway["properties"].update(kind="runway", width=30, segments=["B", "nowhere", 7])
        piece, taxiway = (self.feature(name, "LineString", [[8.0, 60.0], [8.0, 60.01]]) for name in "CD")
        piece["properties"]["runway"] = "A"
        taxiway["properties"]["taxiway"] = "T"
        found = self.read(runway, piece, taxiway)
        self.assertEqual(found["runways"], [{"name": "A", "width": 30, "line": [0.0, 0.0, 0.0, 2223.9]}])
        self.assertEqual((found["runwayPieces"], found["taxiways"], found["missing"], found["other"]), ([1, 2], [(3, "T")], 2, 0))

    def test_a_runway_without_a_width_has_a_usual_one(self):
        for width in (None, "45", 0, -3, 1e9):
            runway = self.feature("09/27", "LineString", [[8.0, 60.0], [8.0, 60.01]])
            runway["properties"].update(kind="runway", width=width)
            found = self.read(runway, self.feature("A", "LineString", [[8, 60], [8.001, 60]]))
            self.assertEqual((found["runways"][0]["width"], found["runwayPieces"]), (45, []))

    def test_what_is_of_no_use_is_counted(self):
        line = self.feature("A", "LineString", [[8, 47], [8.001, 47]])
        others = [self.feature("Z", "LineString", [[8, 47], [8.001, 47]]), self.feature("R", "Point", ["x", 1]), {"type": "Feature"}, 7, self.feature("R", "Polygon", [[[1, 2]]])]
        self.assertEqual(self.read(line, *others)["other"], 5)

    def test_what_is_no_map(self):
        for data in (b"", b"{", b"[]", b'{"features": 3}', b'{"features": []}', b"\xff", b"[" * 100_000):
            with self.assertRaises(BadFile):
                read_map(data, self.airport)


class Words(unittest.TestCase):
    def test_civil_times_keep_the_offset_of_the_start(self):
        clock = Clock("2024-02-28T23:58:30-00:30")
        self.assertEqual((clock.text(80), clock.text(100)), ("23:59:50", "2024-02-29 00:00:10"))
        self.assertEqual(Clock().text(80), "80")

    def test_starts_that_are_none(self):
        for text in ("2025-02-29T00:00:00Z", "2025-01-01", "2025-01-01T24:00:00Z", "2999-01-01T00:00:00Z", "2025-01-01T00:00:00+15:00", "2025-01-01t00:00:00Z"):
            with self.assertRaises(BadFile):
                Clock(text)

    def test_every_refusal_has_its_words(self):
        words = "file F M 1 A+ 2 B+ 3".split()
        for line in ("step 2 taken 7 X", "step 1 too-fast", "already-done 9", "already-moving 9", "not-moving 9", "not-late 9", "past-end 9", "full", "in-force", "bad-line", "memory"):
            reply = read_replies(f"refused {line}\ndone 1\n".encode())[0]
            self.assertRegex(sentence(words, reply, Clock()), r"^refused.*: .*[a-z0-9X]$")
        reply = read_replies(b"refused step 2 taken 7 X\ndone 1\n")[0]
        self.assertEqual(sentence(words, reply, Clock()), "refused at step 2 (B+): X holds it at 7")


class Warnings(unittest.TestCase):
    BAD, OTHER, ROUTE = {"reply": "refused", "why": "bad-line"}, {"reply": "refused", "why": "in-force"}, {"reply": "cancelled"}

    def test_files_of_which_nothing_is_answered(self):
        self.assertEqual(unanswered([]), "This command file has no command.")
        self.assertRegex(unanswered([self.BAD] * 3), "^No line of this command file is answered: all 3 are refused. Is it a command file")
        self.assertEqual(unanswered([self.OTHER]), "No line of this command file is answered: the only one is refused.")
        self.assertEqual(unanswered([self.BAD, self.ROUTE]), "")

    def test_segments_between_runway_nodes_and_with_names_of_pieces_are_those_of_a_runway(self):
        self.assertEqual(runway_pieces(read_airport(SMALL)), [])
        self.assertEqual(runway_pieces(read_airport(SMALL.replace(b"node,J,junction", b"node,J,runway"))), [0])
        named = SMALL.replace(b"node,R,", b"node,09/27.1,").replace(b",R,J", b",09/27.1,J")
        for old, new in ((b"B", b"09/27.12"), (b"C", b"R-09/27-3"), (b"D", b"09/27")):
            named = named.replace(b"segment,%b," % old, b"segment,%b," % new).replace(b"seconds,%b," % old, b"seconds,%b," % new)
        self.assertEqual(runway_pieces(read_airport(named.replace(b"conflict,A,C\n", b""))), [1, 2])


class Pages(unittest.TestCase):
    ODD = '</script><!--<script>alert(1)</script>&amp;\u2028\u2029"'

    def test_data_of_any_text_is_only_data(self):
        text = as_script_text({"name": self.ODD})
        self.assertTrue(text.isascii())
        self.assertNotRegex(text, "[<>&]")
        self.assertEqual(json.loads(text), {"name": self.ODD})

    def test_a_title_of_any_text_is_only_text(self):
        text = page({"title": self.ODD})
        self.assertNotIn("<script>alert", text)
        self.assertEqual(text.count("<script"), 2)

    def test_the_page_runs_its_own_script_alone_and_fetches_nothing(self):
        text = page({"title": "a day"})
        policy = re.search(r'http-equiv="Content-Security-Policy" content="([^"]*)"', text).group(1)
        script = re.search(r"<script>(.*?)</script>", text, re.S).group(1)
        style = re.search(r"<style>(.*?)</style>", text, re.S).group(1)
        self.assertIn("default-src 'none'", policy)
        self.assertIn(f"script-src {digest(script)};", policy)
        self.assertIn(f"style-src {digest(style)};", policy)
        self.assertNotRegex(text, r"<(link|img|iframe)|\bsrc=|@import|fetch\(|XMLHttpRequest|innerHTML|insertAdjacentHTML|document\.write|\beval\(")
        self.assertEqual(set(re.findall(r"https?://[^\"'` ]*", text)), {"http://www.w3.org/2000/svg"})


class Script(unittest.TestCase):
    """The script, with a program of a few lines in the router's place."""

    def setUp(self):
        self.folder = tempfile.TemporaryDirectory()
        self.addCleanup(self.folder.cleanup)

    def program(self, route, check):
        """A program that does so for `route` and for `check`."""
        path = Path(self.folder.name, "program")
        path.write_text(f"#!/bin/sh\ncase $1 in\nroute) {route} ;;\ncheck) {check} ;;\nesac\n")
        path.chmod(0o755)
        return ["--program", str(path)]

    def run_on(self, name, *more, commands=None):
        folder = EXAMPLES / name
        words = [sys.executable, TOOLS / "day_page", folder / "airport.csv", commands or folder / "commands.txt", *more]
        return subprocess.run(list(map(str, words)), capture_output=True, check=False)

    def data(self, output):
        return json.loads(re.search(r'<script type="application/json" id="day">(.*?)</script>', output.decode(), re.S).group(1))

    def test_the_same_bytes_with_what_the_checker_says(self):
        program = self.program(f"cat {EXAMPLES}/choice/transcript.txt", "cmp -s $4 " + str(EXAMPLES / "choice/transcript.txt") + " && echo ok 11")
        first, second = self.run_on("choice", *program), self.run_on("choice", *program)
        self.assertEqual((first.returncode, first.stdout), (0, second.stdout))
        self.assertEqual(self.data(first.stdout)["check"], {"state": "accepted", "text": "ok 11"})

    def test_a_transcript_that_the_checker_refuses_is_shown_as_refused(self):
        program = self.program("exit 9", "echo wrong 3 walk; exit 7")
        made = self.run_on("choice", *program, "--transcript", EXAMPLES / "choice/transcript.txt")
        self.assertEqual((made.returncode, self.data(made.stdout)["check"]), (0, {"state": "wrong", "text": "wrong 3 walk"}))

    def test_what_the_router_refuses_is_said_and_makes_no_page(self):
        made = self.run_on("choice", *self.program("echo airport refused at record 3: bad-name; exit 2", "exit 9"))
        self.assertEqual((made.returncode, made.stdout), (2, b""))
        self.assertIn(b"airport refused at record 3: bad-name", made.stderr)

    def test_a_file_of_which_no_line_is_answered_is_said_on_the_page_and_beside_it(self):
        made = self.run_on("choice", *self.program("echo refused bad-line; echo done 1", "echo ok 1"), "--no-check", commands=EXAMPLES / "schedule/schedule.csv")
        self.assertEqual(made.returncode, 1)  # a reply for one line of many
        lines = len(read_commands((EXAMPLES / "schedule/schedule.csv").read_bytes()))
        refusals = f"for k in $(seq {lines}); do echo refused bad-line; done; echo done {lines}"
        made = self.run_on("choice", *self.program(refusals, f"echo ok {lines}"), commands=EXAMPLES / "schedule/schedule.csv")
        said = f"No line of this command file is answered: all {lines} are refused. Is it a command file? No line of it has the form of a command."
        self.assertEqual((made.returncode, made.stderr.decode()), (0, f"day_page: {said}\n"))
        self.assertEqual(self.data(made.stdout)["unanswered"], said)

    def test_a_full_disk_and_a_closed_pipe_end_with_one_line_or_none(self):
        words = [sys.executable, TOOLS / "day_page", EXAMPLES / "choice/airport.csv", EXAMPLES / "choice/commands.txt", "--no-check", "--transcript", EXAMPLES / "choice/transcript.txt"]
        with open("/dev/full", "wb") as full:
            made = subprocess.run(words, stdout=full, stderr=subprocess.PIPE, check=False)
        self.assertEqual((made.returncode, made.stderr), (4, b"day_page: the page cannot be written (No space left on device)\n"))
        with subprocess.Popen(words, stdout=subprocess.PIPE, stderr=subprocess.PIPE) as made:
            made.stdout.close()
            self.assertEqual((made.stderr.read(), made.wait()), (b"", 4))

    def test_what_cannot_be_read_is_said(self):
        for more in (["--map", "/nowhere"], ["--transcript", "/nowhere"], ["--start", "noon"], ["--program", "/nowhere"]):
            made = self.run_on("choice", "--no-check", *more)
            self.assertEqual((made.returncode, made.stdout), (1, b""))
            self.assertRegex(made.stderr, rb"^day_page: [^\n]+\n$")

    def test_examples_with_their_maps(self):
        for folder in sorted(filter(Path.is_dir, EXAMPLES.iterdir())):
            maps = [word for path in sorted(folder.glob("*.geojson")) for word in ("--map", path)][:2]
            made = self.run_on(folder.name, "--no-check", "--transcript", folder / "transcript.txt", *maps)
            self.assertEqual((made.returncode, made.stderr), (0, b""))
            self.assertLess(len(made.stdout), 5_000_000)
            data = self.data(made.stdout)
            self.assertEqual(bool(data["map"]), bool(maps))
            if maps:
                self.assertEqual((data["map"]["missing"], data["map"]["other"]), (0, 0))


if __name__ == "__main__":
    unittest.main()
