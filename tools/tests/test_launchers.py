"""Tests of the launchers `taxi` and `taxi-tools`, in a checkout with a few files, where a script stands in for the toolchain's `rt`."""
import os
import shutil
import subprocess
import tempfile
import unittest

TOP = os.path.dirname(os.path.dirname(os.path.dirname(os.path.abspath(__file__))))
COPIED = ("taxi", "taxi-tools", "tools/launch.sh", "tools/launch_checks.sh", "tools/refused/forms.ere", "tools/build_program", "CHANGELOG.md",
          "crates/program_words/src/usage.rt")
MADE = ("HANDLES", "crates/taxi_cli/src/main.rt", "crates/taxi_tools/src/main.rt", "crates/taxi_base/specs/Lib.antt", "airport.csv",
        "day.txt")
CRATES = "taxi_base:\ntaxi_cli: taxi_base\ntaxi_tools: taxi_base\n"
# The toolchain's last lines, as it writes them on standard error.
ENDED = "checked: ended status={0}\nrun=ended status={0} runners=1 proved=no\n"
LACKS = "interpreter: no-answer: a call of a function of an `extern` block is not supported by the interpreter yet\n"
TOO_LONG = LACKS + "checked: no-answer: the program did not end within the time limit\nrun=no-answer proved=no\n"
TOO_MUCH = LACKS + (
    "checked: no-answer: the program wrote more than 1048576 bytes to standard output or to standard error, the limit on each\n"
    "run=no-answer proved=no\n")
FAULT = "checked: fault: an index out of bounds at src/main.rt:3\nrun=fault proved=no\n"
PAUSED = "rt: standard input did not end, so the program gets its first 0 bytes: use < FILE, with at most 64 MiB\n"


class Checkout(unittest.TestCase):
    """A checkout in a folder of its own. Its `rt` writes down its words, and does as `toolchain` said."""

    def setUp(self):
        folder = tempfile.TemporaryDirectory()
        self.addCleanup(folder.cleanup)
        self.top = folder.name
        for name in COPIED:
            os.makedirs(os.path.dirname(f"{self.top}/{name}"), exist_ok=True)
            shutil.copy2(f"{TOP}/{name}", f"{self.top}/{name}")
        for name in MADE:
            self.write(name, "")
        self.write("crates.txt", CRATES)
        self.toolchain("exit 9")

    def write(self, name, text, mode=0o644):
        path = f"{self.top}/{name}"
        os.makedirs(os.path.dirname(path), exist_ok=True)
        with open(path, "w", encoding="utf-8") as out:
            out.write(text)
        os.chmod(path, mode)

    def toolchain(self, does):
        """Makes an `rt` of a script."""
        self.write("path/rt", f'#!/bin/bash\necho "$@" >>"{self.top}/asked"\n{does}\n', 0o755)

    def ends(self, lines, status, output=""):
        """Has `rt` write an output, and end with these lines on standard error."""
        self.write("lines", lines)
        self.toolchain(f'printf "{output}"; cat "{self.top}/lines" >&2; exit {status}')

    def built(self, crate):
        self.write(f"crates/{crate}/out/{crate}", '#!/bin/sh\necho "ran $*"\nexit 7\n', 0o755)

    def asked(self):
        """What `rt` was called with."""
        try:
            with open(f"{self.top}/asked", encoding="utf-8") as it:
                return it.read()
        except FileNotFoundError:
            return ""

    def run_it(self, name, *words, path=None, **how):
        how.setdefault("stdin", subprocess.DEVNULL)
        how["env"] = {"PATH": path or f"{self.top}/path:{os.environ['PATH']}", "HOME": self.top}
        return subprocess.run([f"{self.top}/{name}", *words], cwd=self.top, capture_output=True, text=True, check=False, timeout=60, **how)


class Building(Checkout):
    def test_nothing_is_proved_without_asking(self):
        ran = self.run_it("taxi", "route", "airport.csv", "day.txt")
        self.assertEqual((ran.returncode, ran.stdout, self.asked()), (70, "", ""))
        self.assertIn("taxi: the program is not built yet\n", ran.stderr)
        self.assertRegex(ran.stderr, r"of 2 crates\. From nothing .*\n.* some \d+ minutes")
        self.assertIn("add --build before the words", ran.stderr)

    def test_an_old_program_is_told_of(self):
        self.built("taxi_tools")
        os.utime(f"{self.top}/crates/taxi_tools/out/taxi_tools", (0, 0))
        ran = self.run_it("taxi-tools", "lint", "airport.csv")
        self.assertEqual((ran.returncode, ran.stdout, self.asked()), (70, "", ""))
        self.assertIn("taxi-tools: the program is older than crates", ran.stderr)

    def test_a_program_that_is_built_runs(self):
        self.built("taxi_cli")
        for words in (["route", "airport.csv", "day.txt"], ["--build", "route", "airport.csv", "day.txt"]):
            ran = self.run_it("taxi", *words)
            self.assertEqual((ran.returncode, ran.stdout, ran.stderr, self.asked()), (7, "ran route airport.csv day.txt\n", "", ""))
        self.assertEqual(self.run_it("taxi", "--build").returncode, 0)

    def test_build_builds_then_runs(self):
        made = 'mkdir -p out; printf "#!/bin/sh\\necho made\\n" >out/taxi_cli; chmod 755 out/taxi_cli'
        self.toolchain(f'[ "$1" = lib ] && mkdir -p out/rlib && exit 0\n{made}')
        ran = self.run_it("taxi", "--build", "route", "airport.csv", "day.txt")
        self.assertEqual((ran.returncode, ran.stdout), (0, "made\n"), ran.stderr)
        self.assertIn("2 of 2 crates are proved", ran.stderr)

    def test_a_build_that_fails(self):
        self.toolchain("echo not proved; exit 1")
        ran = self.run_it("taxi", "--build")
        self.assertEqual((ran.returncode, ran.stdout), (70, ""))
        self.assertIn("taxi_base could not be proved or built", ran.stderr)

    def test_no_toolchain(self):
        for words in (["--build"], ["--unproved", "migrate", "airport.csv"]):
            ran = self.run_it("taxi", *words, path="/usr/bin:/bin")
            self.assertEqual((ran.returncode, ran.stdout), (70, ""))
            self.assertIn("the toolchain's command rt is not on the PATH", ran.stderr)


class Unproved(Checkout):
    WORDS = ("--unproved", "route", "airport.csv", "day.txt")

    def test_a_run_has_its_own_output_and_status(self):
        for status in (0, 2, 6):
            self.ends(ENDED.format(status), status, "done 0\\n")
            ran = self.run_it("taxi", *self.WORDS)
            self.assertEqual((ran.returncode, ran.stdout), (status, "done 0\n"))
            self.assertIn("Each call compiles anew", ran.stderr)
            self.assertIn("can't be driven line by line, and ends after 60 seconds or 1 MiB", ran.stderr)
            self.assertNotRegex(ran.stderr, "checked|runners|proved=no")
        self.assertIn(f"try -- route {self.top}/airport.csv {self.top}/day.txt\n", self.asked())

    def test_a_run_that_is_stopped(self):
        for lines, reason in ((TOO_LONG, "stopped after 60 seconds"), (TOO_MUCH, "stopped after 1 MiB of output")):
            self.ends(lines, 6)
            ran = self.run_it("taxi", *self.WORDS)
            self.assertEqual((ran.returncode, ran.stdout), (71, ""))
            self.assertRegex(ran.stderr.splitlines()[-1], f"^taxi: {reason}, and nothing is written")
            self.assertNotRegex(ran.stderr, "no-answer|interpreter")

    def test_a_run_that_faults(self):
        self.ends(FAULT, 4)
        ran = self.run_it("taxi", *self.WORDS)
        self.assertEqual((ran.returncode, ran.stdout), (71, ""))
        told = f"taxi: the toolchain stopped the run; its own words are in {self.top}/out/unproved.log"
        self.assertEqual(ran.stderr.splitlines()[-1], told)
        with open(f"{self.top}/out/unproved.log", encoding="utf-8") as it:
            self.assertEqual(it.read(), FAULT)

    def test_input_that_pauses(self):
        self.ends(PAUSED + ENDED.format(0), 0)
        ran = self.run_it("taxi", "--unproved", "route", "airport.csv", "-")
        self.assertEqual(ran.returncode, 0)
        self.assertEqual(ran.stderr.splitlines()[-1][:50], "taxi: standard input paused for 2 seconds, and the")

    def test_input_is_read_only_where_a_word_says_so(self):
        self.write("lines", ENDED.format(0))
        self.toolchain(f'cat; cat "{self.top}/lines" >&2')
        for words, text in ((self.WORDS, ""), (("--unproved", "route", "airport.csv", "-"), "timetable\n")):
            self.assertEqual(self.run_it("taxi", *words, stdin=None, input="timetable\n").stdout, text)


class Package(Checkout):
    """The launchers in a package, which has the programs and no sources."""

    def setUp(self):
        super().setUp()
        shutil.rmtree(f"{self.top}/crates")
        for name in ("taxi", "taxi-tools"):
            self.write(f"libexec/{name}", f'#!/bin/sh\n[ $# -gt 0 ] || {{ echo "usage: {name}"; exit 1; }}\necho "{name} ran $*"\n', 0o755)

    def test_the_program_runs(self):
        os.makedirs(f"{self.top}/bin")
        os.symlink("../taxi-tools", f"{self.top}/bin/taxi-tools")
        ran = self.run_it("bin/taxi-tools", "lint", "airport.csv")
        self.assertEqual((ran.returncode, ran.stdout, ran.stderr), (0, "taxi-tools ran lint airport.csv\n", ""))

    def test_help_has_nothing_of_building(self):
        ran = self.run_it("taxi", "--help")
        self.assertEqual(ran.returncode, 0)
        self.assertNotIn("proved", ran.stdout)
        self.assertNotIn("71", ran.stdout)

    def test_wrong_words_have_the_usage(self):
        ran = self.run_it("taxi", "rout")
        self.assertEqual((ran.returncode, ran.stdout), (1, "usage: taxi\n"))

    def test_words_of_a_checkout(self):
        for word in ("--build", "--unproved"):
            ran = self.run_it("taxi", word, "migrate", "airport.csv")
            self.assertEqual((ran.returncode, ran.stdout), (1, ""))
            self.assertIn("for a checkout of the sources", ran.stderr)

    def test_a_program_that_is_missing(self):
        os.remove(f"{self.top}/libexec/taxi")
        ran = self.run_it("taxi", "migrate", "airport.csv")
        self.assertEqual((ran.returncode, ran.stdout), (70, ""))
        self.assertIn("libexec/taxi is missing", ran.stderr)


if __name__ == "__main__":
    unittest.main()
