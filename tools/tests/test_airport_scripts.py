"""Tests of tools/check_airport, with a program that answers as the router would, of tools/make_day, and of the walks that it asks for."""
import os
import subprocess
import sys
import tempfile
import unittest

sys.dont_write_bytecode = True
TOOLS = os.path.dirname(os.path.dirname(os.path.abspath(__file__)))
sys.path.insert(0, TOOLS)

from day_replay.airport import read_airport  # noqa: E402
from day_replay.walks import classes_at, reached  # noqa: E402


class Days(unittest.TestCase):
    def test_a_day(self):
        airport = os.path.join(os.path.dirname(TOOLS), "examples", "meadow", "airport.csv")
        words = [sys.executable, os.path.join(TOOLS, "make_day"), airport, "--flights", "40", "--start", "2026-03-01T00:00:00+01:00"]
        day, again = (subprocess.run(words, capture_output=True, text=True, check=True).stdout for _ in range(2))
        self.assertEqual(day, again)
        rows = [line.split(",") for line in day.splitlines()]
        self.assertEqual(rows[:2], [["taxi-schedule", "1"], ["start", "2026-03-01T00:00:00+01:00"]])
        self.assertEqual(len(rows), 42)
        self.assertEqual(rows[2][0], "arrival")
        self.assertEqual(rows[2][5], "2026-03-01T06:00:00+01:00")
        self.assertEqual(sorted(row[5] for row in rows[2:]), [row[5] for row in rows[2:]])
        # A departure goes from the stand to which its arrival came.
        stands = {row[1][3:]: row[4] for row in rows[2:] if row[0] == "arrival"}
        self.assertTrue(all(stands[row[1][3:]] == row[3] for row in rows[2:] if row[0] == "departure"))

    def test_departures_with_pushback(self):
        """An airport with the class M-PUSH: arrivals have M, and departures M-PUSH."""
        airport = PARTED.replace(b"class,L", b"class,M-PUSH").replace(b"seconds,A,L", b"seconds,A,M-PUSH") + b"seconds,B,M-PUSH,90\n"
        with tempfile.NamedTemporaryFile() as file:
            file.write(airport.replace(b"horizon,100", b"horizon,40000"))
            file.flush()
            words = [sys.executable, os.path.join(TOOLS, "make_day"), file.name, "--flights", "6"]
            rows = subprocess.run(words, capture_output=True, text=True, check=True).stdout.splitlines()[2:]
        self.assertEqual({tuple(row.split(",")[0:3:2]) for row in rows}, {("arrival", "M"), ("departure", "M-PUSH")})

    def test_words_that_make_no_day(self):
        for words, told in ((["--flights", "-5"], "--flights -5 is below 0"), (["--from", "40000", "--until", "30000"], "is not after --from")):
            ran = subprocess.run([sys.executable, os.path.join(TOOLS, "make_day"), __file__, *words], capture_output=True, text=True)
            self.assertEqual((ran.returncode, ran.stdout), (2, ""))
            self.assertIn(told, ran.stderr)

    def test_a_full_disk_and_a_closed_pipe(self):
        words = [sys.executable, os.path.join(TOOLS, "make_day"), os.path.join(os.path.dirname(TOOLS), "examples", "meadow", "airport.csv")]
        with open("/dev/full", "w") as full:
            ran = subprocess.run(words, stdout=full, stderr=subprocess.PIPE, check=False)
        self.assertEqual((ran.returncode, ran.stderr), (4, b"make_day: the output can't be written: the disk is full\n"))
        reader, writer = os.pipe()
        os.close(reader)
        ran = subprocess.run(words, stdout=writer, stderr=subprocess.PIPE, check=False)
        os.close(writer)
        self.assertEqual((ran.returncode, ran.stderr), (4, b""))

    def test_a_file_that_is_no_airport(self):
        ran = subprocess.run([sys.executable, os.path.join(TOOLS, "make_day"), __file__], capture_output=True, text=True)
        self.assertEqual((ran.returncode, ran.stdout), (2, ""))
        self.assertIn("the first record is not taxi-airport", ran.stderr)


# From R one comes by J to the stand S. L may not go onto B, and nobody comes back from K.
PARTED = b"""taxi-airport,1
horizon,100
node,R,runway
node,J,junction
node,K,junction
node,S,stand
class,M
class,L
segment,A,R,J,both
segment,B,J,S,both
segment,C,J,K,one
seconds,A,M,30
seconds,A,L,30
seconds,B,M,30
seconds,C,M,30
"""


class Walks(unittest.TestCase):
    def test_classes_and_directions(self):
        airport = read_airport(PARTED)
        self.assertEqual(classes_at(airport, "S"), ["M"])
        self.assertEqual(reached(airport, "M", "R"), {"J", "K", "S"})
        self.assertEqual(reached(airport, "L", "R"), {"J"})
        self.assertEqual(reached(airport, "M", "S"), {"J", "K", "R"})
        self.assertEqual(reached(airport, "M", "K"), set())

    def test_a_turn_that_is_forbidden(self):
        self.assertEqual(reached(read_airport(PARTED + b"forbid,A+,B+\n"), "M", "R"), {"J", "K"})

    def test_a_byte_order_mark(self):
        self.assertEqual(read_airport(b"\xef\xbb\xbf" + PARTED), read_airport(PARTED))


# Answers as the program does: stands whose name begins with N are not reached.
PROGRAM = """#!/usr/bin/env python3
import sys
if sys.argv[1] == "migrate":
    if "node" not in open(sys.argv[2]).read():
        sys.exit(print("airport refused at record 2: no-horizon") or 2)
    sys.exit(0)
for line in sys.stdin:
    words = line.split()
    if words[0] == "cancel":
        print("cancelled", words[1], flush=True)
    elif words[4 if words[0] == "arrival" else 3].startswith("N") or "Q" in words and words[0] == "departure":
        print("no-route 1\\nlabel T+ 0 100 5", flush=True)
    elif words[0] == "arrival":
        print("route A 30 1 1\\nstep T+ 0 30\\nlabel T+ 0 100 30", flush=True)
    else:
        print("route D", int(words[5]) - 20, "1 0\\nstep T- 10 30", flush=True)
print("done 1")
"""
ASKED = """taxi-airport,1
horizon,100
node,R,runway
node,Q,runway
node,S,stand
%s
class,M
class,H
segment,T,R,S,both
segment,U,S,%s,both
seconds,T,M,30
seconds,U,M,30
"""


class CheckAirport(unittest.TestCase):
    def check(self, airport):
        with tempfile.TemporaryDirectory() as folder:
            for name, text in (("program", PROGRAM), ("airport.csv", airport)):
                with open(os.path.join(folder, name), "w") as stream:
                    stream.write(text)
            os.chmod(os.path.join(folder, "program"), 0o700)
            words = [os.path.join(TOOLS, "check_airport"), os.path.join(folder, "airport.csv"), "--program", os.path.join(folder, "program")]
            ran = subprocess.run([sys.executable, *words], capture_output=True, text=True)
            return ran.returncode, ran.stdout.splitlines() + ran.stderr.splitlines()

    def test_stands(self):
        """Nobody gets from a stand to Q. Two runway nodes are reached in 30 s, so the first by name is named."""
        there, head = ["S M: from Q 30 s, to R 20 s"], ["", "class M, seconds there/out:", ""]
        table = ["stand      R     Q", "S      30/20  30/-", ""]
        last = "1 of 1 stands have a way there and out"
        self.assertEqual(self.check(ASKED % ("node,J,junction", "J")), (0, there + head + table + [last]))
        cut_off = ["N1 M: from nowhere, to nowhere"]
        table.insert(2, "N1       -/-   -/-")
        last = "1 of 2 stands have a way there and out, not N1"
        self.assertEqual(self.check(ASKED % ("node,N1,stand", "N1")), (1, there + cut_off + head + table + [last]))

    def test_an_airport_that_is_refused(self):
        status, lines = self.check("taxi-airport,1\n")
        self.assertEqual(status, 2)
        self.assertRegex(lines[0], r"^check_airport: .*/airport.csv: airport refused at record 2: no-horizon$")

    def test_help(self):
        ran = subprocess.run([sys.executable, os.path.join(TOOLS, "check_airport"), "--help"], capture_output=True, text=True)
        self.assertEqual((ran.returncode, ran.stderr), (0, ""))


if __name__ == "__main__":
    unittest.main()
