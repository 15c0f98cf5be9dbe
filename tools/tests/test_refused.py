"""Tests of what is said of lines and files that no command has: tools/read_commands, and the launcher's checks."""
import shutil
import subprocess
import sys
import tempfile
import unittest
from pathlib import Path

sys.dont_write_bytecode = True
TOOLS = Path(__file__).resolve().parent.parent
TOP = TOOLS.parent
sys.path.insert(0, str(TOOLS))

from refused.lines import FORMS, is_form, seems, trouble  # noqa: E402

# What is wrong with each line, in a few words of the sentence.
WRONG = {
    "arrival F1 M RW09 G1 -5 60": "TIME is -5",
    "arrival F1 M RW09 G1 06:00 60": "TIME is 06:00",
    "arrival F1 M RW09 G1 10000000 60": "of 1 to 7 digits",
    "arrival  F1 M RW09 G1 0 60": "exactly one blank",
    "timetable ": "exactly one blank",
    "ARRIVAL F1 M RW09 G1 0 60": "write arrival",
    "arrive F1": "arrive is no command",
    "arrival ABCDEFGHIJKLMNOPQ M RW09 G1 0 60": "17 characters",
    "arrival F\u00f6 M RW09 G1 0 60": "without accents",
    "arrival F1 M RW09 G1 0 60 # mine": "a comment takes a line of its own",
    "arrival F1 M RW09 G1 0": "5 words behind arrival",
    "file F1 M 0 A 30": "A is no arc",
    "cancel": "the form is cancel FLIGHT",
}
RIGHT = (
    "file F M 0 A+ 30 B-- 40", "arrival F M R S 0 0", "departure-any F M S 9 0 R R2", "batch arrival F M R S 1 0 departure G M S R 9 0",
    "cancel F", "reroute F 1", "divert F 1 S", "late F 1 2", "work W A 0 9", "workdone W", "windows A", "occupancy A", "timetable",
)


class Lines(unittest.TestCase):
    def test_what_is_wrong(self):
        for line, told in WRONG.items():
            self.assertFalse(is_form(line), line)
            self.assertIn(told, trouble(line))

    def test_each_form(self):
        self.assertEqual([line for line in RIGHT if not is_form(line)], [])
        commands = {line.split()[0] for line in RIGHT} | {"departure", "arrival-any"}
        self.assertEqual(commands, set(FORMS))

    def test_what_files_seem_to_be(self):
        for data, told in ((b"PK\x03\x04", "workbook"), (b"\xff\xfea\0", "UTF-16"), (b"\xef\xbb\xbfcancel F", "byte order mark"),
                           (b"taxi-schedule,1\n", "a schedule"), (b"taxi-airport,2\n", "an airport"), (b"# x\narrival;F\n", "a table")):
            self.assertIn(told, seems(data)[0])
        self.assertIsNone(seems(b"# a;b\ncancel F\n"))


class Scripts(unittest.TestCase):
    def setUp(self):
        folder = tempfile.TemporaryDirectory()
        self.addCleanup(folder.cleanup)
        self.top = Path(folder.name)

    def read(self, data):
        (self.top / "day.txt").write_bytes(data)
        words = [sys.executable, TOOLS / "read_commands", "day.txt"]
        ran = subprocess.run(words, cwd=self.top, capture_output=True, text=True, check=False)
        self.assertEqual(ran.stdout, "")
        return ran.returncode, ran.stderr

    def test_read_commands(self):
        self.assertEqual(self.read(b"# mine\ncancel F\r\n"), (0, ""))
        status, told = self.read(b"cancel F\n\ncancel\n")
        self.assertEqual(status, 1)
        self.assertEqual(told.splitlines()[0], "line 3: cancel")
        self.assertEqual(told.splitlines()[-1], "read_commands: 1 of 2 commands are of no form")

    def launch(self, name, *words, data=b""):
        """A launcher in a package with a program that tells its words and ends as the word `status` in a file says."""
        for file in ("taxi", "taxi-tools", "CHANGELOG.md", "tools/launch.sh", "tools/launch_checks.sh", "tools/refused/forms.ere"):
            (self.top / file).parent.mkdir(parents=True, exist_ok=True)
            shutil.copy2(TOP / file, self.top / file)
        (self.top / "libexec").mkdir(exist_ok=True)
        for program in ("taxi", "taxi-tools"):
            (self.top / "libexec" / program).write_text('#!/bin/sh\n[ "$1" = import ] && echo "# row 3 unknown-name"\necho "ran $1"\n')
            (self.top / "libexec" / program).chmod(0o700)
        (self.top / "airport.csv").write_text("taxi-airport,2\n")
        (self.top / "day.txt").write_bytes(data)
        ran = subprocess.run([self.top / name, *words], cwd=self.top, capture_output=True, text=True, check=False)
        return ran.returncode, ran.stdout, ran.stderr

    def test_files_that_are_refused(self):
        marked = (b"\xef\xbb\xbfcancel F\n", "day.txt: begins with a byte order mark")
        cases = (marked, (b"\xff\xfec\0", "UTF-16"), (b"PK\x03\x04x", ".xlsx"))
        for data, told in cases:
            status, out, err = self.launch("taxi", "route", "airport.csv", "day.txt", data=data)
            self.assertEqual((status, out), (1, ""))
            self.assertIn(told, err)

    def test_files_that_are_run_with_a_word(self):
        status, out, err = self.launch("taxi", "route", "airport.csv", "day.txt", data=b"cancel F\ncancel\n")
        self.assertEqual((status, out), (0, "ran route\n"))
        self.assertEqual(err.splitlines()[:2], [
            "taxi: day.txt: 1 of 2 commands are of no form and will be refused", "taxi: line 2 is of no form: cancel"])
        self.assertEqual(self.launch("taxi", "route", "airport.csv", "day.txt", data=b"# x\r\n\r\ncancel F\r\n")[2], "")
        self.assertIn("is a schedule", self.launch("taxi", "route", "airport.csv", "day.txt", data=b"taxi-schedule,1\n")[2])
        self.assertIn("semicolons", self.launch("taxi", "import", "airport.csv", "day.txt", data=b"taxi-schedule;1\n")[2])

    def test_rows_of_a_schedule(self):
        data = b"taxi-schedule,1\nstart,x\narrival,F1\n"
        status, out, err = self.launch("taxi", "import", "airport.csv", "day.txt", data=data)
        self.assertEqual((status, out), (0, "# row 3 unknown-name\nran import\n"))
        self.assertIn("1 rows of day.txt were refused\ntaxi: row 3, unknown-name: arrival,F1\n", err)

    def test_words(self):
        self.assertIn("START is noon", self.launch("taxi-tools", "plan", "airport.csv", "day.txt", "noon")[2])
        self.assertIn("K is KLM7", self.launch("taxi-tools", "explain", "airport.csv", "day.txt", "KLM7")[2])
        self.assertEqual(self.launch("taxi", "route", "--help")[::2], (0, ""))


if __name__ == "__main__":
    unittest.main()
