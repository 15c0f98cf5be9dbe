"""Tests of one engine that threads and signal handlers ask, over a stand-in for the library: each gets its own reply."""

import os
import signal
import subprocess
import sys
import threading
import unittest
from pathlib import Path

from rusboqan import Engine

from stand_in import AIRPORT, COMPILER, StandInCase

# How many replies each of the two tests takes.
REPLIES = int(os.environ.get("RUSBOQAN_TEST_REPLIES", "200000"))


class TestThreads(StandInCase):
    def setUp(self):
        super().setUp()
        interval = sys.getswitchinterval()
        sys.setswitchinterval(1e-5)
        self.addCleanup(sys.setswitchinterval, interval)

    def test_eight_threads(self):
        wrong = []

        def ask(thread):
            for number in range(REPLIES // 16):
                flight = f"T{thread}-{number}".encode()
                filed, cancelled = engine.answer_bytes(b"file %s M 0 A+ 30" % flight), engine.answer_bytes(b"cancel %s" % flight)
                if (filed, cancelled) != (b"filed %s 0 30\n" % flight, b"cancelled %s\n" % flight):
                    wrong.append((filed, cancelled))

        with Engine(AIRPORT, self.library) as engine:
            threads = [threading.Thread(target=ask, args=(thread,)) for thread in range(8)]
            for thread in threads:
                thread.start()
            for thread in threads:
                thread.join()
            self.assertEqual(wrong, [])
            self.assertEqual(len(engine.log), REPLIES // 16 * 16)
            self.assertEqual(engine.answer("timetable").text, b"timetable 0\n")

    @unittest.skipUnless(hasattr(signal, "setitimer"), "the system has no timer")
    def test_a_signal_handler(self):
        said = {"replies": 0, "refused": 0, "wrong": 0}

        def asks_too(_number, _frame):
            try:
                said["wrong"] += engine.answer_bytes(b"cancel HANDLER") != b"refused not-in-force\n"
                said["replies"] += 1
            except RuntimeError:
                said["refused"] += 1

        with Engine(AIRPORT, self.library) as engine:
            before = signal.signal(signal.SIGALRM, asks_too)
            signal.setitimer(signal.ITIMER_REAL, 0.0002, 0.0002)
            try:
                for number in range(REPLIES):
                    flight = b"F%d" % number
                    said["wrong"] += engine.answer_bytes(b"arrival %s" % flight).split(b" ", 2)[1] != flight
            finally:
                signal.setitimer(signal.ITIMER_REAL, 0)
                signal.signal(signal.SIGALRM, before)
        self.assertEqual(said["wrong"], 0)
        self.assertGreater(said["refused"], 0, "the handler never came in the middle of a call")


@unittest.skipUnless(COMPILER, "there is no C compiler")
class TestSanitizer(unittest.TestCase):
    def test_under_the_address_sanitizer(self):
        found = subprocess.run([COMPILER, "-print-file-name=libasan.so"], capture_output=True, text=True, check=True).stdout.strip()
        if not os.path.isabs(found) or "STAND_IN_FLAGS" in os.environ:
            self.skipTest("there is no address sanitizer, or this is the run with it")
        # What the interpreter itself never frees is no fault of the package.
        given = {"STAND_IN_FLAGS": "-fsanitize=address", "LD_PRELOAD": found}
        given.update(ASAN_OPTIONS="detect_leaks=0", RUSBOQAN_TEST_REPLIES="8000")
        tests = ["test_threads", "test_tables", "test_engine.TestAnswers"]
        words = [sys.executable, "-X", "dev", "-W", "error", "-m", "unittest", "-q", *tests]
        environment = {**os.environ, **given, "PYTHONPATH": os.pathsep.join(sys.path)}
        ran = subprocess.run(words, cwd=Path(__file__).parent, env=environment, capture_output=True, text=True, timeout=300, check=False)
        self.assertEqual(ran.returncode, 0, ran.stdout + ran.stderr)


if __name__ == "__main__":
    unittest.main()
