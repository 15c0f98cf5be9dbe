"""Tests of the C++ wrapper over the stand-in, with the address sanitizer. They are skipped where there is no C++ compiler."""

import shutil
import signal
import subprocess
import tempfile
import unittest
from pathlib import Path

from stand_in import HERE, INCLUDE, library

COMPILER = shutil.which("c++")


@unittest.skipUnless(COMPILER, "there is no C++ compiler")
class TestWrapper(unittest.TestCase):
    @classmethod
    def setUpClass(cls):
        cls.folder = tempfile.TemporaryDirectory()
        cls.addClassCleanup(cls.folder.cleanup)
        cls.program = str(Path(cls.folder.name) / "wrapper")
        flags = ["-std=c++17", "-Wall", "-Wextra", "-Wpedantic", "-Werror", "-g", "-fsanitize=address,undefined", f"-I{INCLUDE}"]
        made = library("sanitized", "-fsanitize=address,undefined")
        subprocess.run([COMPILER, *flags, str(HERE / "wrapper.cpp"), made, "-o", cls.program], check=True)

    def run_with(self, what):
        return subprocess.run([self.program, what], capture_output=True, text=True, timeout=60, check=False)

    def test_engines(self):
        for what in ("opens", "why", "moves", "run"):
            ran = self.run_with(what)
            self.assertEqual((ran.returncode, ran.stderr), (0, ""), what)

    def test_an_engine_that_was_moved_from(self):
        ran = self.run_with("asks a moved one")
        self.assertEqual(ran.returncode, -signal.SIGABRT)
        self.assertIn("this RusboqanEngine was moved from", ran.stderr)


if __name__ == "__main__":
    unittest.main()
