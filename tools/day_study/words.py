"""The words of tools/many_days."""
import argparse
import os
import re
import sys
from pathlib import Path

from day_replay.statuses import Status
from day_study.drawing import ORDERS
from day_study.sums import MOST_WORST

TOP = Path(__file__).resolve().parent.parent.parent
DESCRIPTION = """Routes many days of one plan. On each day every request is some seconds off, and segments may be closed. FOLDER
gets the rows of all flights and days, their sums, and a page. docs/STUDY.md goes through a study."""


class Arguments(argparse.ArgumentParser):
    """Words of no form end with the status that they have with the router."""

    def error(self, message):
        self.print_usage(sys.stderr)
        self.exit(Status.USAGE, f"{self.prog}: {message}\n")


def count(text):
    """A number of 1 or more."""
    number = int(text)
    if number < 1:
        raise ValueError
    return number


def seconds(text):
    """A number of seconds."""
    number = int(text)
    if number < 0:
        raise ValueError
    return number


def worst(text):
    """How many days count as the worst."""
    number = int(text)
    if not 0 <= number <= MOST_WORST:
        raise ValueError
    return number


def part(text):
    """K/N, the K-th of N parts."""
    form = re.fullmatch(r"([0-9]+)/([0-9]+)", text)
    if not form or not 1 <= int(form[1]) <= int(form[2]):
        raise ValueError
    return int(form[1]), int(form[2])


def add_study(parser):
    """The words that decide what is drawn and routed."""
    parser.add_argument("--days", type=count, default=1000, metavar="N", help="how many days (default 1000)")
    parser.add_argument("--seed", type=int, default=1, metavar="S", help="another number draws other days (default 1)")
    parser.add_argument(
        "--delay", action="append", default=[], metavar="RULE", help="normal:MEAN,DEVIATION, uniform:LEAST,MOST or from:FILE;"
        " with WHO= before it for one class, for arrival or for departure alone; may stand several times"
    )
    parser.add_argument("--close", metavar="FILE", help="closures: records SEGMENT,FROM,UNTIL[,SHARE], SHARE of the days from 0 to 1")
    parser.add_argument("--order", choices=ORDERS, default="file", help="in which order the requests are asked (default file)")
    parser.add_argument("--limit", type=seconds, default=120, metavar="SECONDS", help="within which a stand time is kept (default 120)")
    parser.add_argument("--check", action="store_true", help="have each day confirmed by the checker")
    parser.add_argument("--own", default="", metavar="PROGRAM", help="PROGRAM AIRPORT COMMANDS writes the lines that are routed instead")
    add_running(parser)


def add_running(parser):
    """The words that don't change what comes out."""
    parser.add_argument("--jobs", type=count, default=os.cpu_count() or 1, metavar="J", help="worker processes (default: the processors)")
    parser.add_argument("--program", metavar="PATH", help="the router, run once a day (default: ../taxi)")
    parser.add_argument(
        "--engine", choices=("auto", "yes", "no"), default="auto",
        help="whether the installed library routes in the workers' own process (default auto: where it is installed and no --program is said)"
    )


def parser():
    """The parser of the words."""
    made = Arguments(prog="many_days", description=DESCRIPTION)
    made.add_argument("airport", metavar="AIRPORT", help="the airport file")
    made.add_argument("day", metavar="DAY", help="the plan: a command file or a schedule")
    made.add_argument("--out", required=True, metavar="FOLDER", help="where the results go")
    add_study(made)
    made.add_argument("--resume", action="store_true", help="go on with a study that was stopped, or add days to it")
    made.add_argument("--map", metavar="MAP", help="a GeoJSON map for the pages of the worst days")
    made.add_argument("--worst", type=worst, default=10, metavar="W", help="of how many of the worst days there are pages (default 10)")
    parts = made.add_mutually_exclusive_group()
    parts.add_argument("--part", type=part, metavar="K/N", help="run the K-th of N parts, into FOLDER/parts")
    parts.add_argument("--merge", action="store_true", help="put the parts in FOLDER together; the other words are those of the parts")
    made.add_argument("--dask", metavar="ADDRESS", help="hand the days to the workers of a Dask scheduler")
    return made
