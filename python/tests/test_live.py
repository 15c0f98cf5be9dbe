"""Tests of examples/live.py and examples/live.cpp over the stand-in: what was answered is known again after whatever end."""

import os
import resource
import shutil
import signal
import subprocess
import sys
import tempfile
import unittest
from pathlib import Path

from stand_in import AIRPORT, COMPILER, HERE, INCLUDE, library

EXAMPLES = HERE.parents[1] / "examples"
FILE_BOTH = b"file F1 M 0 A+ 30\n# a comment\r\nfile F2 M 0 B+ 30\r\n"
BOTH = b"timetable 2\nflight F1 filed M 0 30\nflight F2 filed M 0 30\n"


class LiveCase:
    """What each driver does. `words` starts it."""

    def setUp(self):
        folder = tempfile.TemporaryDirectory()
        self.addCleanup(folder.cleanup)
        self.airport, self.log = Path(folder.name) / "airport.csv", Path(folder.name) / "log.txt"
        self.airport.write_bytes(AIRPORT)

    def start(self, **settings):
        environment = {**os.environ, "RUSBOQAN_LIBRARY": library(), "PYTHONPATH": os.pathsep.join(sys.path)}
        words = [*self.words, str(self.airport), str(self.log)]
        return subprocess.Popen(words, env=environment, stdin=subprocess.PIPE, stdout=subprocess.PIPE, stderr=subprocess.PIPE, **settings)

    def ran(self, commands):
        """What is written, and the status."""
        with self.start() as process:
            written, said = process.communicate(commands, timeout=60)
        return written + said, process.returncode

    def test_a_log_is_kept(self):
        self.assertEqual(self.ran(FILE_BOTH), (b"filed F1 0 30\nfiled F2 0 30\n", 0))
        self.assertEqual(self.log.read_bytes(), b"file F1 M 0 A+ 30\nfile F2 M 0 B+ 30\n")
        self.assertEqual(self.ran(b"timetable\n"), (BOTH, 0))

    def test_killed_in_the_middle(self):
        with self.start() as process:
            process.stdin.write(FILE_BOTH)
            process.stdin.flush()
            self.assertEqual([process.stdout.readline() for _ in range(2)], [b"filed F1 0 30\n", b"filed F2 0 30\n"])
            process.kill()
        self.assertEqual(self.ran(b"timetable\n"), (BOTH, 0))

    def test_a_torn_line_is_cut_off(self):
        self.ran(FILE_BOTH)
        with self.log.open("ab") as log:
            log.write(b"cancel F1")
        self.assertEqual(self.ran(b"timetable\n"), (BOTH, 0))
        self.assertEqual(self.log.read_bytes(), b"file F1 M 0 A+ 30\nfile F2 M 0 B+ 30\ntimetable\n")
        self.log.write_bytes(b"file F1 M")
        self.assertEqual(self.ran(b"timetable\n"), (b"timetable 0\n", 0))

    def test_what_was_refused_for_want_of_memory_is_not_kept(self):
        self.assertEqual(self.ran(b"memory\ncancel F1\n"), (b"refused memory\nrefused not-in-force\n", 0))
        self.assertEqual(self.log.read_bytes(), b"cancel F1\n")

    def test_no_airport(self):
        self.airport.write_bytes(b"no airport")
        said, status = self.ran(b"timetable\n")
        self.assertEqual((status, said.count(b"\n")), (1, 1))
        self.assertIn(b"record 2 breaks a rule", said)

    def test_a_log_that_cannot_be_written(self):
        # As on a full disk, a part of the line is written.
        with self.start(preexec_fn=ten_bytes_are_written, restore_signals=False) as process:
            written, said = process.communicate(b"file F1 M 0 A+ 30\n", timeout=60)
        self.assertEqual((written, said.count(b"\n"), process.returncode > 0), (b"", 1, True))
        self.assertEqual(self.log.read_bytes(), b"file F1 M ")
        self.assertEqual(self.ran(b"timetable\n"), (b"timetable 0\n", 0))


def ten_bytes_are_written():
    """Makes each write fail behind the tenth byte of a file."""
    signal.signal(signal.SIGXFSZ, signal.SIG_IGN)
    resource.setrlimit(resource.RLIMIT_FSIZE, (10, 10))


@unittest.skipUnless(COMPILER, "there is no C compiler")
class TestPython(LiveCase, unittest.TestCase):
    words = (sys.executable, str(EXAMPLES / "live.py"))


@unittest.skipUnless(COMPILER and shutil.which("c++"), "there is no C++ compiler")
class TestCpp(LiveCase, unittest.TestCase):
    @classmethod
    def setUpClass(cls):
        cls.folder = tempfile.TemporaryDirectory()
        cls.addClassCleanup(cls.folder.cleanup)
        cls.words = (str(Path(cls.folder.name) / "live"),)
        flags = ["-std=c++17", "-O1", "-Wall", "-Wextra", "-Wpedantic", "-Werror", f"-I{INCLUDE}"]
        subprocess.run(["c++", *flags, str(EXAMPLES / "live.cpp"), library(), "-o", *cls.words], check=True)


if __name__ == "__main__":
    unittest.main()
