"""Tests of engines over a stand-in for the library, whose replies have fixed texts."""

import copy
import multiprocessing
import os
import pickle
import re
import signal
import threading
import time
import unittest
import warnings
from pathlib import Path

import rusboqan
from rusboqan import AirportRefused, Comment, Engine
from rusboqan.library import library as loaded

from stand_in import AIRPORT, StandInCase, library

PROJECT = Path(__file__).parents[1] / "pyproject.toml"


def free_memory():
    """How many bytes of memory are free, as far as the system tells."""
    try:
        return int(re.search(r"MemAvailable: +(\d+) kB", Path("/proc/meminfo").read_text(encoding="ascii")).group(1)) * 1024
    except (OSError, AttributeError):
        return 0


class TestAnswers(StandInCase):
    def setUp(self):
        super().setUp()
        self.engine = Engine(AIRPORT, self.library)
        self.addCleanup(StandInCase.tearDown, self)
        self.addCleanup(self.engine.close)

    def tearDown(self):
        """The engine is closed first, and then the calls are counted."""

    def test_lines(self):
        for line in ("file F1 M 0 A+ 30", b"file F2 M 0 A+ 30\n", "file F3 M 0 A+ 30\r\n"):
            self.assertEqual(self.engine.answer(line).kind, "filed")
        self.assertEqual([row.flight for row in self.engine.answer("timetable").flights], ["F1", "F2", "F3"])
        self.assertEqual(self.engine.answer_bytes(b"cancel F2"), b"cancelled F2\n")

    def test_comments(self):
        for line in ("# a comment", "", b"\n", " \r\n"):
            self.assertIs(type(self.engine.answer(line)), Comment)
        self.assertEqual(self.engine.answer_bytes(b"# a comment"), b"")

    def test_what_was_asked(self):
        self.engine.answer("# a comment")
        reply = self.engine.answer("arrival-any F1 M R 100 0 S1 S2\n")
        self.assertEqual((reply.asked.line, reply.asked.number, reply.asked.command), (b"arrival-any F1 M R 100 0 S1 S2", 2, 1))
        self.assertEqual(reply.node, "S1")
        self.assertEqual([reply.as_dict()[key] for key in ("command", "line", "words")], [1, 2, "arrival-any F1 M R 100 0 S1 S2".split()])

    def test_what_is_no_line(self):
        for line in (bytearray(b"timetable"), memoryview(b"timetable"), None, 7, Path("timetable")):
            with self.assertRaisesRegex(TypeError, f"a command is str or bytes, not {type(line).__name__}"):
                self.engine.answer(line)
        for line in ("timetable", bytearray(b"timetable")):
            with self.assertRaises(TypeError):
                self.engine.answer_bytes(line)
        with self.assertRaisesRegex(ValueError, "one line"):
            self.engine.answer("timetable\ntimetable")

    def test_copies(self):
        for make in (copy.copy, copy.deepcopy, pickle.dumps):
            with self.assertRaisesRegex(TypeError, "can't be copied"):
                make(self.engine)

    def test_the_log_and_a_fork(self):
        for line in ("file F1 M 0 A+ 30", "# a comment", "memory", "cancel F9", b"file F2 M 0 A+ 30\r\n"):
            self.engine.answer(line)
        self.assertEqual(self.engine.log, (b"file F1 M 0 A+ 30", b"cancel F9", b"file F2 M 0 A+ 30"))
        with self.engine.fork() as second:
            self.assertEqual(second.answer("timetable").text, b"timetable 2\nflight F1 filed M 0 30\nflight F2 filed M 0 30\n")
            second.answer("cancel F1")
        self.assertEqual(self.engine.answer("timetable").text, b"timetable 2\nflight F1 filed M 0 30\nflight F2 filed M 0 30\n")

    @unittest.skipUnless(hasattr(signal, "setitimer"), "the system has no timer")
    def test_a_signal_handler_that_raises(self):
        def interrupts(_number, _frame):
            raise KeyboardInterrupt

        before = signal.signal(signal.SIGALRM, interrupts)
        self.addCleanup(signal.signal, signal.SIGALRM, before)
        signal.setitimer(signal.ITIMER_REAL, 0.05)
        with self.assertRaises(KeyboardInterrupt):
            self.engine.answer("slow")
        # The library had the command, and the engine can be asked again.
        self.assertEqual(self.engine.log, (b"slow",))
        self.assertEqual(self.engine.answer("cancel F1").as_dict()["command"], 2)

    def test_no_log(self):
        with Engine(AIRPORT, self.library, keep_log=False) as engine:
            self.assertEqual(engine.answer("memory").why, "memory")
            for ask in (lambda: engine.log, engine.fork):
                with self.assertRaisesRegex(ValueError, "keeps no log"):
                    ask()

    @unittest.skipUnless(free_memory() > 5 << 30 and "STAND_IN_FLAGS" not in os.environ, "it takes much memory")
    def test_a_reply_of_more_than_two_gigabytes(self):
        text = self.engine.answer_bytes(b"huge")
        self.assertEqual((len(text), text[:2], text[-2:]), ((1 << 31) + 5, b"a\0", b"\0\n"))

    def test_closing_waits_for_a_call(self):
        replies = []
        asks = threading.Thread(target=lambda: replies.append(self.engine.answer_bytes(b"slow")))
        asks.start()
        time.sleep(0.05)
        self.engine.close()
        self.assertEqual(replies, [b"cancelled SLOW\n"])
        asks.join()
        self.engine.close()
        for ask in (lambda: self.engine.answer("timetable"), lambda: self.engine.answer_bytes(b"timetable")):
            with self.assertRaisesRegex(ValueError, "closed"):
                ask()


class TestOpening(StandInCase):
    def test_refused_airports(self):
        with self.assertRaises(AirportRefused) as caught:
            Engine(b"no airport", self.library)
        self.assertEqual((caught.exception.record, caught.exception.rule), (2, "no-horizon"))
        with self.assertRaises(AirportRefused) as caught:
            Engine(b"\n" * 4_194_305, self.library)
        self.assertIsNone(caught.exception.record)
        with self.assertRaises(MemoryError):
            Engine(b"memory", self.library)

    def test_what_is_no_airport(self):
        for airport in (bytearray(AIRPORT), AIRPORT.decode(), Path("airport.csv"), None):
            with self.assertRaisesRegex(TypeError, f"not as {type(airport).__name__}"):
                Engine(airport, self.library)

    def test_an_engine_that_is_let_go_is_closed(self):
        Engine(AIRPORT, self.library)

    def test_libraries(self):
        with self.assertRaisesRegex(OSError, "RUSBOQAN_LIBRARY may say where"):
            Engine(AIRPORT, "/nowhere/librusboqan.so")
        with self.assertRaisesRegex(OSError, "is of version 2.0.0, and this package is of version 1"):
            Engine(AIRPORT, library("second", "-DSTAND_IN_VERSION=20000"))
        with self.assertRaisesRegex(OSError, "no library of Rusboqan"):
            loaded("libc.so.6")

    def test_version(self):
        self.assertEqual(re.search(r'^version = "(.*)"$', PROJECT.read_text(encoding="utf-8"), re.M).group(1), rusboqan.__version__)


@unittest.skipUnless(hasattr(os, "fork"), "the system has no fork")
class TestProcesses(StandInCase):
    def test_a_forked_process_has_no_engine_but_may_make_one(self):
        with Engine(AIRPORT, self.library) as engine:
            engine.answer("file F1 M 0 A+ 30")
            ours, theirs = multiprocessing.Pipe()
            child = multiprocessing.get_context("fork").Process(target=in_the_child, args=(engine, theirs))
            child.start()
            self.assertTrue(ours.poll(20), "the child said nothing")
            self.assertEqual(ours.recv(), ("RuntimeError", b"timetable 1\nflight F1 filed M 0 30\n"))
            child.join()
            self.assertEqual(child.exitcode, 0)
            self.assertEqual(engine.answer("cancel F1").kind, "cancelled")

    def test_a_fork_while_a_thread_is_inside(self):
        with Engine(AIRPORT, self.library) as engine:
            asks = threading.Thread(target=engine.answer_bytes, args=(b"slow",))
            asks.start()
            time.sleep(0.05)
            with warnings.catch_warnings():
                # Python 3.12 warns of a fork beside threads, which is what is tried here.
                warnings.simplefilter("ignore", DeprecationWarning)
                child = os.fork()
            if not child:
                engine.close()
                os._exit(len(engine.log))
            self.assertIn(os.waitstatus_to_exitcode(os.waitpid(child, 0)[1]), (0, 1))
            asks.join()


def in_the_child(engine, pipe):
    """Tells what a call of the parent's engine raises, and what an engine of this process answers."""
    try:
        engine.answer("timetable")
        said = "nothing"
    except RuntimeError as error:
        said = type(error).__name__
    with engine.fork() as mine:
        pipe.send((said, mine.answer("timetable").text))
    engine.close()


if __name__ == "__main__":
    unittest.main()
