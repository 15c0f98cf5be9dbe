"""The command line of tools/airport_from_xplane."""
import argparse
import sys

from ground_network import output
from ground_network.aircraft import MOST_CLASSES, classes_of, names_of
from ground_network.drawing import FIRST, read_drawing
from ground_network.making import Choices, make_airport
from ground_network.names import is_name
from ground_network.pieces import Cutting
from ground_network.problem import BAD_WORDS, NOTHING_TO_MAKE, UNWRITTEN, Problem, Report, unreadable
from ground_network.source import opened
from ground_network.xplane import list_entries, read_airport

NAME = "airport_from_xplane"


class Words(argparse.ArgumentParser):
    """The command line; words of no form end the run as other problems do."""

    def error(self, message):
        raise Problem(BAD_WORDS, f"{message}; see --help")


def in_range(low, high, kind=float):
    """A reader of a number within a range."""

    def read(word):
        value = kind(word)
        if not low <= value <= high:
            raise argparse.ArgumentTypeError(f"{word} is not from {low} to {high}")
        return value

    return read


# The options that take a number: the word, where it is kept, the least and the most, what it is where it isn't told, what it means.
NUMBERS = (
    ("--span", "span", 0, 500, 36, "segments nearer to each other than this, or than the spans of their classes, conflict"),
    ("--stub", "stub", 1, 1000, 40, "how far before a crossing an edge is cut"),
    ("--piece", "piece", 20, 10_000, 250, "the longest piece of an edge that is cut"),
    ("--cut-from", "cut_from", 20, 100_000, 120, "edges of this length or more are cut"),
    ("--lead-in", "lead_in", 1, 5000, 250, "the longest lead-in to a stand"),
    ("--place", "place", 1, 200, 10, "how many metres before a stand the piece begins on which an aircraft stands"),
    ("--sharp", "sharp", 0, 180, 140, "turns by more degrees than this are forbidden"),
)
CLASS = "NAME:speed=8:lead=3:clearance=8:size=C:kinds=jets+turboprops"
ABOUT = """Writes the airport file for taxi out of the ground network of an airport of X-Plane or FlightGear (apt.dat, plain or
.gz), or out of a drawing with metres. Standard error tells what was made and what was left out. docs/AIRPORTS.md says more."""
STATUSES = """Status 0: written; 1: wrong words; 2: nothing can be made of it; 3: a file can't be read or is of another format;
4: the output can't be written."""


def words():
    """The words that the command line takes."""
    parser = Words(prog=NAME, description=ABOUT, epilog=STATUSES)
    parser.add_argument("file", metavar="FILE", help="an apt.dat, or a drawing; - is standard input")
    parser.add_argument("airport", metavar="ICAO", nargs="?", help="the airport's code, where the file has more than one")
    parser.add_argument("--list", action="store_true", help="only list the airports that have a ground network")
    parser.add_argument("--map", metavar="MAP", help="write a map in GeoJSON to this file")
    parser.add_argument("--runways", metavar="FILE", help="write a list of the runways and the segments on them to this file, in JSON")
    parser.add_argument("--pushback", type=in_range(0, 1800, int), default=0, metavar="SECONDS",
                        help="for each class make a second one for departures, which takes so much longer on the two pieces at a stand")
    parser.add_argument("--version", type=int, choices=(1, 2), default=1, help="of the airport file; 2 has clearances (default 1)")
    parser.add_argument("--horizon", type=in_range(1, 604_800, int), default=86_400, metavar="SECONDS",
                        help="the seconds of the day, 1 to 604800 (default 86400)")
    parser.add_argument("--class", dest="classes", action="append", default=[], metavar=CLASS,
                        help="a class in place of L, M and H, once or more; what isn't told is as for L, M or H, else as for M")
    for word, place, low, high, default, meaning in NUMBERS:
        unit = "DEGREES" if word == "--sharp" else "METRES"
        told = f"{meaning}, {low} to {high} (default {default})"
        parser.add_argument(word, dest=place, type=in_range(low, high), default=float(default), metavar=unit, help=told)
    parser.add_argument("--keep-runway-edges", action="store_true", help="keep all edges along runways")
    parser.add_argument("--dead-ends", action="store_true", help="make a stand of each dead end of the network that is none")
    return parser


def starts_as_drawing(path):
    """Whether a file begins as a drawing does; what is looked at is still there to be read."""
    try:
        stream = opened(path)
        start = stream.peek(32)[:32].removeprefix(b"\xef\xbb\xbf")
        if path != "-":
            stream.close()
        return start.startswith(FIRST)
    except OSError as error:
        raise unreadable(path, error) from error


def read_source(told, report):
    """What the file says of its airport, be it a drawing or an apt.dat."""
    if starts_as_drawing(told.file):
        with opened(told.file) as stream:
            return read_drawing(told.file, stream.read(), report)
    return read_airport(told.file, told.airport, report)


def choices_of(told):
    """What the options choose."""
    cutting = Cutting(told.cut_from, told.stub, told.piece, told.place)
    classes = tuple(classes_of(told.classes))
    if told.pushback:
        with_pushback(classes)
    more = {"are_default_classes": not told.classes, "pushback": told.pushback}
    return Choices(classes, cutting, told.lead_in, told.span, told.sharp, told.keep_runway_edges, told.dead_ends, **more)


def with_pushback(classes):
    """Ends the run where the classes for departures with pushback would have no room or no name."""
    names = [aircraft_class.name + output.PUSHBACK for aircraft_class in classes]
    wrong = [name for name in names if not is_name(name) or name in names_of(classes)]
    if wrong or 2 * len(names) > MOST_CLASSES:
        why = f"{wrong[0]} can't be the name of a class" if wrong else f"at most {MOST_CLASSES // 2} classes can have a second one"
        raise Problem(BAD_WORDS, f"--pushback: {why}")


def write(text, beside):
    """Writes the files that are asked for beside the airport, each a path and its text, and then the airport."""
    try:
        for path, other in beside:
            with open(path, "w", encoding="ascii", newline="\n") as stream:
                stream.write(other)
        sys.stdout.write(text)
        sys.stdout.flush()
    except OSError as error:
        raise Problem(UNWRITTEN, f"the output can't be written: {error.strerror or error}") from error


def run(arguments, report):
    """Writes what the words ask for: the list of airports, or one airport and its map."""
    told = words().parse_args(arguments)
    if told.list:
        write("".join(line + "\n" for line in list_entries(told.file)), [])
        return
    choices = choices_of(told)
    source = read_source(told, report)
    airport = make_airport(source, choices, report)
    text = "".join(row + "\n" for row in output.rows(airport, told.version, told.horizon))
    if len(text) > output.MOST_BYTES:
        size = f"the airport file would have {len(text)} bytes of at most {output.MOST_BYTES}"
        raise Problem(NOTHING_TO_MAKE, f"{size}; give fewer classes")
    makers = ((told.map, output.map_text), (told.runways, output.runways_text))
    write(text, [(path, make(airport, source.runways, source.projection)) for path, make in makers if path])


def main(arguments):
    """Runs on some words and gives the exit status."""
    report = Report()
    status = 0
    try:
        run(arguments, report)
    except Problem as problem:
        report.say(str(problem))
        status = problem.status
    for line in report.lines:
        shown = "".join(sign if sign.isprintable() else "?" for sign in line)
        print(f"{NAME}: {shown}", file=sys.stderr)
    return status
