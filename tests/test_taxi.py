"""Calls of the router, with what they write found by hand."""

import itertools
import resource
import signal
import socket
import subprocess
import tempfile
import unittest

from programs import Status
from router import CHECK, FIRST_VERSION, ONE_STAND, SMALL, TWO_STANDS, RouterTest

USAGE_LINE = (
    b"usage: taxi route AIRPORT COMMANDS; taxi check AIRPORT COMMANDS TRANSCRIPT; taxi generate NUMBER SIDE FLIGHTS; "
    b"taxi migrate AIRPORT; taxi import AIRPORT SCHEDULE\n"
)

# Aircraft that wait for each other.
WORKED = b"""arrival F1 M R S1 100 0
arrival F2 M R S1 100 0
arrival F2 M R S1 100 60
departure G1 M S2 R 400 0
"""
# The same commands among lines that hold none, the last without its line feed.
AMONG_OTHERS = b"""
# a line
 \t
arrival F1 M R S1 100 0\r
\r
#
arrival F2 M R S1 100 0
arrival F2 M R S1 100 60\r

departure G1 M S2 R 400 0"""
# The block of each command in turn, and the last line.
PIECES = [
    b"route F1 150 2 1\nstep A+ 100 130\nstep B+ 130 150\nlabel A+ 0 3600 130\n",
    b"no-route 0\n",
    b"route F2 180 2 1\nstep A+ 130 160\nstep B+ 160 180\nlabel A+ 130 3600 160\n",
    b"route G1 330 3 3\nstep D- 330 345\nstep C- 345 370\nstep A- 370 400\n"
    b"label A- 160 3600 370\nlabel B- 180 3600 350\nlabel C- 160 3600 345\n",
    b"done 4\n",
]
TRANSCRIPT = b"".join(PIECES)


def changed_at(number, other):
    """The transcript with other bytes in place of the piece of this number, which is counted from 0."""
    return b"".join(PIECES[:number]) + other + b"".join(PIECES[number + 1 :])


class Calls(RouterTest):
    """Each way in which a call ends."""

    airport = FIRST_VERSION + ONE_STAND

    def test_words_of_no_form(self):
        for words in [
            "",
            "route airport.csv",
            "check airport.csv commands.txt",
            "route airport.csv commands.txt more",
            "migrate airport.csv commands.txt",
            "migrate",
            "generate 7 41 1",
            "generate 7 2 2001",
        ]:
            self.expect(words, {"airport.csv": self.airport, "commands.txt": b""}, Status.USAGE, USAGE_LINE)

    def test_calls_that_do_nothing(self):
        # A file that is not there, and two folders.
        for words in ["route airport.cs commands.txt", "route . commands.txt", "route airport.csv ."]:
            self.expect(words, {"airport.csv": self.airport, "commands.txt": WORKED}, Status.READ_FAULT, b"read fault\n")
        self.route(b"taxi-airport,3\n", WORKED, b"airport refused at record 1: first-row\n", Status.AIRPORT_REFUSED)

    def test_files_of_the_largest_size_and_one_byte_longer(self):
        for airport, line, status in [
            (b"x" * 4_194_304, b"airport refused at record 1: first-row\n", Status.AIRPORT_REFUSED),
            (b"x" * 4_194_305, b"too large\n", Status.TOO_LARGE),
        ]:
            self.route(airport, WORKED, line, status)
        commands = b"cancel F1\n#" + b"x" * (16_777_216 - 11)
        self.route(self.airport, commands, b"refused not-in-force\ndone 1\n")
        self.route(self.airport, commands + b"x", b"refused not-in-force\ntoo large\n", Status.TOO_LARGE)

    def test_runs(self):
        self.route(self.airport, b"", b"done 0\n")
        # Two commands among lines that hold none, the last without a line feed.
        commands = b"# morning\r\n\nfile X1 M 0 A+ 30 B+ 50\r\n \t\nfile X2 M 20 A+ 50"
        self.route(self.airport, commands, b"filed X1 0 50\nrefused step 1 taken 20 X1\ndone 2\n")

    def test_made_traffic(self):
        self.expect("generate 7 2 0", {}, Status.DONE, b"nodes 4\nsegments 4\ncommands 0\nroutes 0\nno-route 0\nseconds 0\n")
        # Worked out by a program in another language.
        self.expect("generate 7 12 120", {}, Status.DONE, b"nodes 144\nsegments 264\ncommands 120\nroutes 120\nno-route 0\nseconds 71863\n")
        # Worked by hand: two departures of 32 seconds each, and an arrival of 49 and 32.
        self.expect("generate 7 2 3", {}, Status.DONE, b"nodes 4\nsegments 4\ncommands 3\nroutes 3\nno-route 0\nseconds 145\n")


class Runs(RouterTest):
    """Runs over a small airport, written whole."""

    def test_a_cancel_that_makes_three_windows(self):
        commands = b"""file Y M 0 B+ 240
file X1 M 100 C+ 130
file X2 M 200 C+ 230
windows A
cancel Y
windows A
"""
        text = b"""filed Y 0 240
filed X1 100 130
filed X2 200 230
windows A 1
window 240 3600
cancelled Y
windows A 3
window 0 100
window 130 200
window 230 3600
done 6
"""
        self.route(SMALL + b"conflict,A,B\n", commands, text)

    def test_a_cancel_beside_another_flight(self):
        commands = b"file Y M 0 B+ 240\nfile X1 M 240 A+ 280\ncancel Y\nwindows A\n"
        text = b"filed Y 0 240\nfiled X1 240 280\ncancelled Y\nwindows A 2\nwindow 0 240\nwindow 280 3600\ndone 4\n"
        self.route(SMALL + b"conflict,A,B\n", commands, text)

    def test_refusals_in_their_order(self):
        told = [
            (b"file F1 M 100 A+ 130 B+ 150", b"filed F1 100 150"),
            (b"cancel F1", b"cancelled F1"),
            (b"cancel F1", b"refused not-in-force"),
            (b"file F1 M 100 A+ 130 B+ 150", b"filed F1 100 150"),
            (b"arrive F9", b"refused bad-line"),
            (b"file X9 M 0 A* 30", b"refused bad-line"),
            (b"cancel  F1", b"refused bad-line"),
            (b"file X9 Q 0 A+ 30", b"refused unknown-class"),
            (b"file X9 M 0 Z+ 30", b"refused unknown-segment"),
            (b"windows Z", b"refused unknown-segment"),
            (b"file F1 Q 0 Z+ 30", b"refused in-force"),
            (b"file X9 H 0 A+ 30", b"refused step 1 class-barred"),
            (b"file X2 M 0 A+ 29", b"refused step 1 too-fast"),
            (b"file X2 M 90 A+ 125", b"refused step 1 taken 100 F1"),
            (b"file X2 M 90 C+ 120", b"refused step 1 taken 100 F1"),
            (b"file X2 M 3575 A+ 3605", b"refused step 1 past-horizon"),
            (b"file X2 M 0 A+ 30 A- 60", b"refused step 2 bad-turn"),
            (b"file X2 M 130 C+ 155 D+ 170", b"filed X2 130 170"),
        ]
        commands, replies = (b"".join(it + b"\n" for it in column) for column in zip(*told))
        self.route(SMALL + b"class,H\n", commands, replies + b"done 18\n")

    def test_routes_that_are_refused(self):
        commands = b"""arrival F1 M R S1 100 0
arrival F1 Q R S1 100 0
arrival F9 Q R X 1 1
arrival F9 M R X 1 1
arrival F9 M S1 R 1 1
departure G2 M S2 R 184 0
departure G1 M S2 R 185 0
"""
        text = b"""route F1 150 2 1
step A+ 100 130
step B+ 130 150
label A+ 0 3600 130
refused in-force
refused unknown-class
refused unknown-node
refused wrong-kind
no-route 2
label A- 130 3600 154
label B- 0 130 110
route G1 115 3 2
step D- 115 130
step C- 130 155
step A- 155 185
label A- 130 3600 155
label C- 130 3600 130
done 7
"""
        self.route(SMALL, commands, text)

    def test_as_many_flights_as_may_be_in_force(self):
        # Each on the same segment after the one before. A batch of two is one too many. The last flight is routed anew twice, and then
        # one more of each kind asks.
        commands = b"".join(b"file F%d M %d A+ %d\n" % (k, 30 * k, 30 * k + 30) for k in range(4095))
        commands += b"batch arrival Z M R S1 200000 3600 departure G M S2 R 300000 0\n"
        commands += b"arrival Z M R S1 200000 3600\nreroute Z 100000\ndivert Z 100000 S2\nfile G M 300000 A+ 300030\n"
        commands += b"work G A 300000 300030\ndeparture G M S2 R 300000 0\narrival-any G M R 300000 0 S1 S2\n"
        text = b"".join(b"filed F%d %d %d\n" % (k, 30 * k, 30 * k + 30) for k in range(4095))
        to_the_stand = b"route Z 200050 2 1\nstep A+ 200000 200030\nstep B+ 200030 200050\nlabel A+ 122850 604800 200030\n"
        text += b"refused full\n" + 2 * to_the_stand
        text += b"""route Z 200070 3 3
step A+ 200000 200030
step C+ 200030 200055
step D+ 200055 200070
label A+ 122850 604800 200030
label B+ 0 604800 200050
label C+ 122850 604800 200055
refused full
refused full
refused full
refused full
done 4103
"""
        self.route(b"taxi-airport,1\nhorizon,604800\n" + TWO_STANDS, commands, text)


class Transcripts(RouterTest):
    """The worked run, and its check with one change of the transcript."""

    def check(self, transcript, status, line):
        files = {"airport.csv": SMALL, "commands.txt": WORKED, "transcript.txt": transcript}
        self.expect(CHECK, files, status, line)

    def test_the_worked_run(self):
        self.route(SMALL, WORKED, TRANSCRIPT)
        self.route(SMALL, AMONG_OTHERS, TRANSCRIPT)
        self.check(TRANSCRIPT, Status.DONE, b"ok 4\n")

    def test_changed_pieces(self):
        without_its_last_row = PIECES[3].replace(b" 3 3\n", b" 3 2\n").replace(b"label C- 160 3600 345\n", b"")
        for number, other, status, line in [
            (3, without_its_last_row, Status.WRONG, b"wrong 4 step\n"),
            (1, b"refused memory\n", Status.DONE, b"ok 4\n"),
            (0, b"refused memory\n", Status.WRONG, b"wrong 2 start\n"),
            (0, PIECES[0].replace(b"A+ 100", b"A+ 0100"), Status.WRONG, b"wrong 1 form\n"),
            (4, b"done 4\ndone 4\n", Status.WRONG, b"wrong 5 form\n"),
            (4, b"", Status.WRONG, b"wrong 5 form\n"),
        ]:
            self.check(changed_at(number, other), status, line)
        self.check(TRANSCRIPT.replace(b"\n", b"\r\n"), Status.WRONG, b"wrong 1 form\n")

    def test_first_blocks_with_one_change(self):
        steps = b"step A+ 100 130\nstep B+ 130 150\n"
        for block, line in [
            (b"route F1 150 2 1\n" + steps + b"label A+ 0 3600 131\n", b"wrong 1 start\n"),
            (b"route F1 151 2 1\n" + steps + b"label A+ 0 3600 130\n", b"wrong 1 walk\n"),
            (b"route F1 150 2 2\n" + steps + b"label A+ 0 3600 130\nlabel B+ 0 3600 150\n", b"wrong 1 target\n"),
            (b"no-route 1\nlabel A+ 0 3600 130\n", b"wrong 1 step\n"),
            (b"no-route 1\nlabel A+ 0 3599 130\n", b"wrong 1 rows\n"),
            (b"cancelled F1\n", b"wrong 1 reply\n"),
        ]:
            self.check(changed_at(0, block), Status.WRONG, line)
        self.check(b"route F1 150 2 1\nstep A+ 100", Status.WRONG, b"wrong 1 form\n")


class Devices(RouterTest):
    """Reads that bring few bytes or fail, and output that takes no more."""

    def folder(self):
        """A folder with the airport, until the test is over."""
        made = tempfile.TemporaryDirectory()
        self.addCleanup(made.cleanup)
        with open(f"{made.name}/airport.csv", "wb") as out:
            out.write(SMALL)
        return made.name

    def start(self, program, **how):
        return subprocess.Popen([program, "route", "airport.csv", "-"], cwd=self.folder(), **how)

    def test_pieces_of_any_size(self):
        for program, size in itertools.product(self.programs, [1, 2, 50]):
            with self.subTest(program=program, size=size), self.start(program, stdin=subprocess.PIPE, stdout=subprocess.PIPE) as run:
                for at in range(0, len(AMONG_OTHERS), size):
                    run.stdin.write(AMONG_OTHERS[at : at + size])
                    run.stdin.flush()
                run.stdin.close()
                self.assertEqual(run.stdout.read(), TRANSCRIPT)

    def test_each_read_failing_in_turn(self):
        # A connection that breaks once so many commands are answered, in the middle of the line after them.
        lines = WORKED.splitlines(keepends=True)
        for program, answered in itertools.product(self.programs, range(5)):
            ours, theirs = connection()
            with self.subTest(program=program, answered=answered), self.start(program, stdin=theirs, stdout=subprocess.PIPE) as run:
                theirs.close()
                text = b""
                for line, piece in zip(lines[:answered], PIECES):
                    ours.sendall(line)
                    text += run.stdout.read(len(piece))
                ours.sendall(b"arrival F")
                ours.close()
                self.assertEqual(text + run.stdout.read(), b"".join(PIECES[:answered]) + b"read fault\n")
                self.assertEqual(run.wait(), Status.READ_FAULT)

    def test_each_write_failing_in_turn(self):
        # A pipe that is closed once so many blocks are read.
        lines = WORKED.splitlines(keepends=True)
        for program, written in itertools.product(self.programs, range(5)):
            with self.subTest(program=program, written=written), self.start(program, stdin=subprocess.PIPE, stdout=subprocess.PIPE) as run:
                for line, piece in zip(lines[:written], PIECES):
                    run.stdin.write(line)
                    run.stdin.flush()
                    self.assertEqual(run.stdout.read(len(piece)), piece)
                run.stdout.close()
                run.stdin.write(b"".join(lines[written:]))
                run.stdin.close()
                self.assertEqual(run.wait(), Status.WRITE_FAULT)

    def test_output_that_ends_within_a_block(self):
        for program in self.programs:
            folder = self.folder()
            with self.subTest(program=program), open(f"{folder}/out", "wb") as out:
                with self.start(program, stdin=subprocess.PIPE, stdout=out, preexec_fn=let_files_have_14_bytes) as run:
                    run.communicate(WORKED)
                self.assertEqual(run.returncode, Status.WRITE_FAULT)
                with open(f"{folder}/out", "rb") as it:
                    self.assertEqual(it.read(), b"route F1 150 2")

    def test_an_airport_whose_read_fails(self):
        for program in self.programs:
            ours, theirs = connection()
            words = [program, "route", "-", "airport.csv"]
            with self.subTest(program=program), subprocess.Popen(words, cwd=self.folder(), stdin=theirs, stdout=subprocess.PIPE) as run:
                theirs.close()
                ours.sendall(SMALL)
                ours.close()
                self.assertEqual((run.stdout.read(), run.wait()), (b"read fault\n", Status.READ_FAULT))


def connection():
    """Two ends of a connection. A read at the second fails once the first is closed, since bytes that came to that are unread then."""
    ours, theirs = socket.socketpair()
    theirs.sendall(b"unread")
    return ours, theirs


def let_files_have_14_bytes():
    signal.signal(signal.SIGXFSZ, signal.SIG_IGN)
    resource.setrlimit(resource.RLIMIT_FSIZE, (14, 14))


if __name__ == "__main__":
    unittest.main()
