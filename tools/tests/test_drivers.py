"""Tests of examples/driver.py and examples/objects.py, with programs that answer as the router would, one command at a time."""
import os
import subprocess
import sys
import tempfile
import unittest

EXAMPLES = os.path.join(os.path.dirname(os.path.dirname(os.path.dirname(os.path.abspath(__file__)))), "examples")

# Answers the K-th command with the K-th piece of a text, the pieces apart by a blank line, before it reads more.
PROGRAM = """#!{python}
import sys
pieces = open({replies!r}).read().split("\\n\\n")
for piece, command in zip(pieces, iter(sys.stdin.readline, "")):
    print(piece.strip(), flush=True)
"""
COMMANDS = """# the first command
arrival F1 M R S1 100 0

batch arrival F2 M R S1 100 60 arrival F3 M R S1 100 0
late F1 140 300
windows A
cancel F9
"""
REPLIES = """route F1 170 2 1
step A+ 100 130
step C+ 130 170
label A+ 0 3600 130

batch 2 1000080
next F3
no-route 1
label A+ 0 100 30
next F2
route F2 180 1 0
step B+ 100 180

late F1 3
next F1
route F1 320 1 2
step A+ 100 320
label A+ 0 3600 130
label B+ 0 3600 150
next F2
no-route 0
dropped X1

windows A 2
window 0 100
window 320 3600

refused not-in-force
"""


def run(script, replies, commands):
    """What a script prints over commands that are answered by the pieces of a text."""
    with tempfile.TemporaryDirectory() as folder:
        router, told = os.path.join(folder, "router"), os.path.join(folder, "replies")
        with open(told, "w", encoding="utf-8") as it:
            it.write(replies)
        with open(router, "w", encoding="utf-8") as it:
            it.write(PROGRAM.format(python=sys.executable, replies=told))
        os.chmod(router, 0o755)
        words = [sys.executable, os.path.join(EXAMPLES, script), router, "airport.csv"]
        return subprocess.run(words, input=commands, capture_output=True, text=True, timeout=60, check=True).stdout.splitlines()


class Drivers(unittest.TestCase):
    def test_blocks(self):
        self.assertEqual(run("driver.py", REPLIES, COMMANDS), [
            "F1: at 170 by A+ C+", "F3 no-route 1", "F2: at 180 by B+", "F1: at 320 by A+", "F2 no-route 0", "dropped X1",
            "windows A 2", "refused not-in-force"])

    def test_a_router_that_ends(self):
        with self.assertRaises(subprocess.CalledProcessError) as caught:
            run("driver.py", "filed F1 0 30", "file F1 M 0 A+ 30\ntimetable\n")
        self.assertIn("the router ended with status 0", caught.exception.stderr)

    def test_objects(self):
        with open(os.path.join(EXAMPLES, "late", "objects.txt"), encoding="utf-8") as objects, \
                open(os.path.join(EXAMPLES, "late", "commands.txt"), encoding="utf-8") as commands:
            said = run("objects.py", "\n\n".join(objects), commands.read())
        self.assertEqual(said, [
            "F1: at 170 by A+ B+ C+", "F2: at 200 by A+ B+ F+", "F3: at 230 by A+ B+ F+", "X1: filed",
            "F1: at 320 by A+ B+ C+", "F2: at 230 by A+ D+ E+ F+", "F3: at 340 by A+ B+ F+", "X1: dropped",
            "timetable", "late: refused, not-moving", "late: refused, not-late", "late: refused, past-end"])


if __name__ == "__main__":
    unittest.main()
