"""Tests of the examples in Python of docs/EMBEDDING.md: a type checker takes them, and they print what the page says."""

import asyncio
import contextlib
import importlib.util
import io
import os
import re
import shutil
import subprocess
import tempfile
import unittest
from pathlib import Path

from rusboqan import Engine
from rusboqan.library import library as loaded

from stand_in import AIRPORT, StandInCase

TOP = Path(__file__).parents[2]
PAGE = TOP / "docs" / "EMBEDDING.md"
MYPY = shutil.which("mypy")
# What the examples print, as the page shows it, but for the replies of which the page shows the first alone.
PRINTED = """route 120 ['E1+', 'A12+', 'L2+', 'K1+']
not-in-force
batch 130 [('F1', 'route', 150), ('F2', 'route', 180)]
refused None []
timetable None []
2
150
['SWR101']
190 180 {'SWR101': 180} [Wait(kind='hold', seconds=10, holder='SWR101', step=None, arc=None)]
[('E1', 40, 7160), ('A12', 75, 7125)]
"""
TABLE = """    arc  enter  leave
0   E1+      0     40
1  A12+     40     75
2   L2+     75     95
3   K1+     95    120
"""


def examples():
    """The examples of the page in their order: that of pandas alone, and the others."""
    blocks = re.findall(r"^```python\n(.*?)^```", PAGE.read_text(encoding="utf-8"), re.M | re.S)
    table = [block for block in blocks if "import pandas" in block]
    return "".join(table), "".join(block for block in blocks if block not in table)


class TestTypes(unittest.TestCase):
    @unittest.skipUnless(MYPY, "there is no mypy")
    def test_the_package_and_the_examples(self):
        with tempfile.TemporaryDirectory() as folder:
            page = Path(folder) / "page.py"
            page.write_text(examples()[1], encoding="utf-8")
            words = [MYPY, "--strict", str(page), str(TOP / "examples" / "live.py"), str(TOP / "python" / "rusboqan")]
            environment = {**os.environ, "MYPYPATH": str(TOP / "python")}
            ran = subprocess.run(words, cwd=folder, env=environment, capture_output=True, text=True, timeout=300, check=False)
        self.assertEqual(ran.returncode, 0, ran.stdout + ran.stderr)


class TestServer(StandInCase):
    def test_two_ask_the_server(self):
        block = next(it for it in re.findall(r"^```python\n(.*?)^```", PAGE.read_text(encoding="utf-8"), re.M | re.S) if "asyncio" in it)
        names = {"Engine": Engine}
        exec(compile(block, "EMBEDDING.md", "exec"), names)
        with tempfile.TemporaryDirectory() as folder, Engine(AIRPORT, self.library) as engine:
            told = asyncio.run(asked_by_two(names["serve"], engine, f"{folder}/socket"))
        self.assertEqual(told, [b"filed F1 0 30\n", b"cancelled F1\n"])


async def asked_by_two(serve, engine, socket):
    """What two who ask a server of the engine, one after the other, are told."""
    server = asyncio.ensure_future(serve(engine, socket))
    while not os.path.exists(socket):
        await asyncio.sleep(0.01)
    told = []
    for line in (b"file F1 M 0 A+ 30\n", b"cancel F1\n"):
        reader, writer = await asyncio.open_unix_connection(socket)
        writer.write(line)
        told.append(await reader.readline())
        writer.close()
        await writer.wait_closed()
    await asyncio.sleep(0.05)
    server.cancel()
    await asyncio.wait([server])
    return told


@unittest.skipUnless(
    "RUSBOQAN_LIBRARY" in os.environ and hasattr(loaded(), "rusboqan_plan"), "RUSBOQAN_LIBRARY names no library that has all calls"
)
class TestExamples(unittest.TestCase):
    def run_them(self, text):
        """What the examples print."""
        before = os.getcwd()
        self.addCleanup(os.chdir, before)
        os.chdir(TOP)
        with contextlib.redirect_stdout(io.StringIO()) as written:
            exec(compile(text, "EMBEDDING.md", "exec"), {"__name__": "examples"})
        return written.getvalue()

    def test_the_examples(self):
        self.assertEqual(self.run_them(examples()[1]), PRINTED)

    @unittest.skipUnless(importlib.util.find_spec("pandas"), "there is no pandas")
    def test_a_table_of_pandas(self):
        self.assertEqual(self.run_them("from rusboqan import Engine\n" + examples()[0]), TABLE)


if __name__ == "__main__":
    unittest.main()
