"""Has the lines of a day routed and confirmed: by the programs, or by an engine in this process."""
import os
import subprocess
import sys
from dataclasses import dataclass, field
from pathlib import Path

from day_replay.statuses import Status
from day_study.problem import DayFailed, Refused


@dataclass(frozen=True)
class Router:
    """How days are routed. OWN is a program that writes the lines to be routed in place of the day's, such as `file` lines."""

    program: str
    in_process: bool = False
    own: str = ""
    check: bool = False


def run(words, given=b""):
    """The status and the output of a program. It has a session of its own, so Ctrl-C at the terminal doesn't reach it."""
    try:
        ran = subprocess.run(
            words, input=given, stdout=subprocess.PIPE, stderr=subprocess.DEVNULL, check=False, start_new_session=True
        )
    except OSError as fault:
        raise Refused(f"{words[0]} cannot be run ({fault.strerror})") from fault
    return ran.returncode, ran.stdout


def last_line(output):
    """The last line of an output."""
    return output.rstrip(b"\n").rpartition(b"\n")[2][:200].decode("utf-8", errors="replace")


def engine_class():
    """Python's `Engine` if the library is installed, else None. The module of this repository stands in for one that isn't."""
    beside = str(Path(__file__).resolve().parent.parent.parent / "python")
    try:
        try:
            import rusboqan
        except ImportError:
            sys.path.append(beside)
            import rusboqan
        rusboqan.version()
    except (ImportError, OSError, AttributeError):
        return None
    return rusboqan.Engine


def answers(engine, text):
    """The transcript of an engine's answers to all lines."""
    blocks = [engine.answer_bytes(line) for line in text.split(b"\n")]
    blocks = [block for block in blocks if block]
    return b"".join(blocks) + b"done %d\n" % len(blocks)


@dataclass
class Desk:
    """Where a worker has its days routed: its folder, with the airport file in it."""

    router: Router
    airport_data: bytes
    folder: str
    engine: object = field(default=None)

    def __post_init__(self):
        os.makedirs(self.folder, exist_ok=True)
        Path(self.airport).write_bytes(self.airport_data)
        if self.router.in_process:
            self.engine = engine_class()
            if self.engine is None:
                raise Refused("the library of the engine is not installed here")

    @property
    def airport(self):
        """The name of the airport file."""
        return os.path.join(self.folder, "airport.csv")

    def keep(self, name, data):
        """Writes a file of the present day, and gives its name."""
        path = os.path.join(self.folder, name)
        Path(path).write_bytes(data)
        return path

    def lines_of(self, text):
        """The lines to be routed: the day's own, or those that a router of one's own makes of them."""
        if not self.router.own:
            return text
        status, output = run([self.router.own, self.airport, self.keep("asked.txt", text)])
        if status:
            raise DayFailed(f"{self.router.own} ended with status {status}", {"commands.txt": text, "lines.txt": output})
        return output

    def transcript(self, lines):
        """What the router answers."""
        if self.engine is not None:
            with self.engine(self.airport_data) as engine:
                return answers(engine, lines)
        status, output = run([self.router.program, "route", self.airport, "-"], lines)
        if status:
            why = f"the router ended with status {status}: {last_line(output)}"
            raise DayFailed(why, {"commands.txt": lines, "transcript.txt": output})
        return output

    def confirm(self, lines, transcript):
        """Has a transcript confirmed, or the day fails."""
        words = [self.router.program, "check", self.airport, self.keep("commands.txt", lines), "-"]
        status, output = run(words, transcript)
        if status:
            why = f"the checker ended with status {status}: {last_line(output)}"
            raise DayFailed(why, {"commands.txt": lines, "transcript.txt": transcript})

    def routed(self, text):
        """The lines of a day that were routed, and the transcript."""
        lines = self.lines_of(text)
        transcript = self.transcript(lines)
        if self.router.check:
            self.confirm(lines, transcript)
        return lines, transcript

    def imported(self, schedule):
        """The command file of a schedule. Rows that the program refuses stay comments in it."""
        status, output = run([self.router.program, "import", self.airport, self.keep("schedule.csv", schedule)])
        if status:
            raise Refused(f"the schedule: {last_line(output)}", status if status > 0 else Status.USAGE)
        return output
