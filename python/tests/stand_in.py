"""The library that stand_in.c is, compiled for these tests. STAND_IN_FLAGS has further words for the C compiler."""

import atexit
import ctypes
import os
import shlex
import shutil
import subprocess
import tempfile
import unittest
from pathlib import Path

HERE = Path(__file__).parent
INCLUDE = HERE.parents[1] / "include"
COMPILER = shutil.which("cc")
# An airport as far as the stand-in looks, in which S1 is reached by A and B.
AIRPORT = b"""taxi-airport,1
horizon,3600
node,R,runway
node,J,junction
node,S1,stand
class,M
segment,A,R,J,both
segment,B,J,S1,both
seconds,A,M,30
seconds,B,M,20
"""

_folder = tempfile.TemporaryDirectory()
atexit.register(_folder.cleanup)


def library(name="stand_in", *flags):
    """The path of the stand-in, compiled with these flags if it wasn't yet."""
    path = Path(_folder.name) / f"{name}.so"
    if not path.exists():
        words = [COMPILER, "-std=c11", "-D_GNU_SOURCE", "-O1", "-g", "-shared", "-fPIC", f"-I{INCLUDE}"]
        more = shlex.split(os.environ.get("STAND_IN_FLAGS", ""))
        subprocess.run([*words, *more, *flags, str(HERE / "stand_in.c"), "-o", str(path)], check=True)
    return str(path)


@unittest.skipUnless(COMPILER, "there is no C compiler")
class StandInCase(unittest.TestCase):
    """A test over the stand-in. After it no call was made that a caller may not make, and each engine is closed."""

    def setUp(self):
        self.library = library()
        self.calls = ctypes.CDLL(self.library)
        self.calls.stand_in_faults.restype = self.calls.stand_in_engines.restype = ctypes.c_long
        self.faults, self.engines = self.calls.stand_in_faults(), self.calls.stand_in_engines()

    def tearDown(self):
        self.assertEqual(self.calls.stand_in_faults(), self.faults, "two calls for one engine at a time")
        self.assertEqual(self.calls.stand_in_engines(), self.engines, "an engine was not closed")
