"""Runs of taxi-tools, and the day that its objects tell."""
import json
import subprocess
from dataclasses import dataclass
from pathlib import Path

from day_replay.airport import Airport, read_airport
from day_replay.commands import Command
from day_replay.replay import Replay, replay
from endings import Stopped

PROGRAM = str(Path(__file__).resolve().parent.parent.parent / "taxi-tools")


@dataclass
class Day:
    """An airport, the commands over it, the reply to each, and what was in force when."""

    airport: Airport
    commands: list
    replies: list
    run: Replay


def add_program(parser):
    """Adds the option that says which program of tools to run."""
    parser.add_argument("--program", default=PROGRAM, help="the program of tools; otherwise ../taxi-tools")


def lines_of(program, words, given=None):
    """The lines that taxi-tools writes on some words. A run that doesn't end well is `Stopped`, with its status."""
    try:
        ran = subprocess.run([program, *words], input=given, stdout=subprocess.PIPE, check=False)
    except OSError as fault:
        raise Stopped(f"{program} can't be run: {fault.strerror}") from fault
    lines = ran.stdout.decode("utf-8", errors="replace").split("\n")[:-1]
    if ran.returncode:
        raise Stopped(ended(program, words, ran.returncode, lines), ran.returncode if ran.returncode > 0 else 1)
    return lines


def ended(program, words, status, lines):
    """What to say of a run that didn't end well."""
    last = lines[-1] if lines and not lines[-1].startswith("{") else "no reason is given"
    return f"{Path(program).name} {words[0]} ended with status {status}: {last}"


def object_of(line):
    """One reply of `taxi-tools json`. The labels are the evidence for the checker, and are left out."""
    value = json.loads(line)
    for part in [value, *value.get("entries", ())]:
        part.pop("labels", None)
    return value


def command_of(reply):
    """The command that a reply answers."""
    words = tuple(reply["words"])
    return Command(reply["line"], " ".join(words), words)


def read_day(program, airport_name, commands_name):
    """The day of two files, as taxi-tools answers it."""
    airport = read_airport(Path(airport_name).read_bytes())
    replies = [object_of(line) for line in lines_of(program, ["json", airport_name, commands_name])[:-1]]
    commands = [command_of(reply) for reply in replies]
    return Day(airport, commands, replies, replay(airport, commands, replies))
