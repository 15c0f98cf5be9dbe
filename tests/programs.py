"""Calls of the built programs over small files, for the tests beside this file."""

import os
import subprocess
import sys
import tempfile
import unittest

TOP = os.path.dirname(os.path.dirname(os.path.realpath(__file__)))
sys.path.insert(0, f"{TOP}/tools")

# (the tests take it from here)
from day_replay.statuses import Status  # noqa: E402, F401

# How the names of the two compilers' builds of a program end.
BUILDS = ("", ".by-rattle")


def builds_of(crate):
    """The builds of a program that there are, one of each compiler where the gate made them."""
    made = [f"{TOP}/crates/{crate}/out/{crate}{it}" for it in BUILDS]
    return [it for it in made if os.path.exists(it)]


class ProgramTest(unittest.TestCase):
    """Tests of a program, whose crate a class under this one names."""

    crate = ""

    def setUp(self):
        self.programs = builds_of(self.crate)
        self.assertTrue(self.programs, f"{self.crate} is not built: rt ci builds it")

    def runs(self, words, files, **how):
        """A call over these files, each by its name, by each build: the build's name, and what has come of it."""
        with tempfile.TemporaryDirectory() as folder:
            for name, content in files.items():
                with open(f"{folder}/{name}", "wb") as out:
                    out.write(content)
            for program in self.programs:
                ran = subprocess.run([program, *words.split()], cwd=folder, capture_output=True, timeout=60, check=False, **how)
                yield os.path.basename(program), ran

    def expect(self, words, files, status, text, **how):
        """A call over these files ends with this status and has written this text, by each build."""
        for program, ran in self.runs(words, files, **how):
            with self.subTest(program=program, words=words):
                self.assertEqual(ran.stdout, text)
                self.assertEqual(ran.returncode, status)
