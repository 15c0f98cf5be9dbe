"""Reads an airport out of a file of X-Plane's or FlightGear's airports (apt.dat), plain or packed with gzip."""
import gzip
import io
import re
import zlib
from collections import Counter

from ground_network.plane import Projection, distance
from ground_network.problem import NOTHING_TO_MAKE, UNREADABLE, Problem, counted, unreadable
from ground_network.source import FARTHEST, Runway, Source, SourceEdge, SourceNode, Start, number, opened

# An older startup location this near to a newer one is the same.
SAME_START = 15.0

HEADERS = (b"1", b"16", b"17")
OLDEST, NEWEST = 1000, 1200
KINDS = {"heavy", "jets", "turboprops", "props", "helos", "fighters", "all"}


def unpacked(stream):
    """The bytes of a stream, unpacked where it begins as gzip does."""
    is_packed = stream.peek(2)[:2] == b"\x1f\x8b"
    return io.BufferedReader(gzip.GzipFile(fileobj=stream), 1 << 20) if is_packed else stream


def lines_of(path):
    """The lines of a file as bytes; a file that can't be read or unpacked is a problem."""
    try:
        with unpacked(opened(path)) as stream:
            yield from stream
    except (EOFError, zlib.error, gzip.BadGzipFile) as error:
        raise Problem(UNREADABLE, f"{path} is cut short or damaged: {error}") from error
    except OSError as error:
        raise unreadable(path, error) from error


def text_of(line):
    """The text of a line: UTF-8, as the format says, or Latin 1, as older files have it."""
    try:
        return line.decode("utf-8")
    except UnicodeDecodeError:
        return line.decode("latin-1")


def read_version(lines, path):
    """The number of the format, from the first two lines."""
    first, second = next(lines, b"").lstrip(b"\xef\xbb\xbf").strip(), next(lines, b"").split()
    if first not in (b"I", b"A") or not second or not re.fullmatch(rb"\d{1,6}", second[0]):
        wanted = "a line I or A, and a line that begins with the number of the format"
        raise Problem(UNREADABLE, f"{path} isn't a file of X-Plane's airports, which begins with {wanted}")
    version = int(second[0])
    if version < OLDEST:
        raise Problem(NOTHING_TO_MAKE, f"{path} has format {version}, which has no ground networks; {OLDEST} or later is needed")
    return version


class Entry:
    """The rows of one airport: pairs of a line's number and the line. `ended` says that the file went on behind it."""

    def __init__(self, header):
        fields = text_of(header).split(None, 5)
        self.code = fields[4] if len(fields) > 4 else "?"
        self.name = fields[5].strip() if len(fields) > 5 else ""
        self.rows = []
        self.ended = False

    def has_code(self, code):
        """Whether the airport is the one of a code: the one of its header, or of its row 1302."""
        code = code.upper()
        if self.code.upper() == code:
            return True
        words = (text_of(line).split() for _, line in self.rows if line.startswith(b"1302"))
        return any(word[1:2] == ["icao_code"] and word[2:3] and word[2].upper() == code for word in words)

    def count(self, code):
        """How many rows of a code there are."""
        return sum(1 for _, line in self.rows if line.split(None, 1)[0] == code)


def entries(lines):
    """The airports of a file, one after the other; `lines` stands behind the first two lines."""
    entry = None
    for number, line in enumerate(lines, 3):
        if line[:1] in b"19":
            code = line.split(None, 1)[:1]
            if code and (code[0] in HEADERS or code[0] == b"99"):
                if entry:
                    entry.ended = True
                    yield entry
                if code[0] == b"99":
                    return
                entry = Entry(line)
                continue
        if entry and not line.isspace():
            entry.rows.append((number, line))
    if entry:
        yield entry


def find_entry(path, code, report):
    """The airport of a code, or without one the only airport of the file, and the number of the format."""
    lines = lines_of(path)
    version = read_version(lines, path)
    if version > NEWEST:
        report.warn(f"format {version} is newer than {NEWEST}, the newest that is known")
    found, codes = None, []
    for entry in entries(lines):
        codes.append(entry.code)
        if not code or entry.has_code(code):
            found = found or entry
            if code:
                break
    if not code and len(codes) > 1:
        some = ", ".join(codes[:10]) + (", ..." if len(codes) > 10 else "")
        raise Problem(NOTHING_TO_MAKE, f"{path} has {len(codes)} airports ({some}): name one, or see --list")
    if not found:
        wanted = f"no airport {code}" if code else "no airport"
        raise Problem(NOTHING_TO_MAKE, f"{path} has {wanted}")
    if not found.ended:
        report.warn(f"{path} ends without its row 99 in {found.code}: it may be cut short")
    return found, version


def list_entries(path):
    """A line for each airport that has a ground network: its code, its numbers of nodes, edges and startup locations, its name."""
    lines = lines_of(path)
    read_version(lines, path)
    for entry in entries(lines):
        nodes = entry.count(b"1201")
        if nodes:
            starts = entry.count(b"1300") + entry.count(b"15")
            name = entry.name.encode("ascii", "replace").decode()
            yield f"{entry.code} {nodes} nodes {entry.count(b'1202')} edges {starts} startup locations {name}"


class Reader:
    """Takes the rows of one airport. A row that is too short or has no number where one is due is left out and told."""

    def __init__(self, entry, version, report):
        self.entry, self.report = entry, report
        self.source = Source(f"{entry.code} {entry.name} (format {version})".replace("  ", " "), None)
        self.old_starts, self.other, self.seen = [], Counter(), set()
        self.faulty, self.far = [], []
        self.last = None

    def read(self):
        """What the rows say, each taken by the method of its code."""
        known = {"100": self.runway, "15": self.old_start, "1300": self.start, "1301": self.size}
        known |= {"1201": self.node, "1202": self.edge}
        for line_number, line in self.entry.rows:
            code, text = line.split(None, 1)[0].decode("latin-1"), text_of(line)
            if code not in known:
                self.other[code] += code != "1200"
                continue
            try:
                known[code](text)
            except (IndexError, ValueError, OverflowError):
                self.faulty.append(f"row {code} in line {line_number}")
        self.finish()
        return self.source

    def finish(self):
        """Takes the older startup locations too, and tells the rows that were left out."""
        self.take_old_starts()
        self.report.left_out("rows", self.faulty, "too short, a number or a word that is none, or given before")
        self.report.left_out("rows", self.far, f"more than {FARTHEST / 1000:.0f} km from the first place of the airport")
        if sum(self.other.values()):
            types = ", ".join(f"type {code} ({counted(count, 'row')})" for code, count in sorted(self.other.items()) if count)
            self.report.say(f"ignored {counted(sum(self.other.values()), 'row')} of types that aren't used: {types}")

    def take_old_starts(self):
        """Takes each older startup location, but for those beside a newer one."""
        newer = len(self.source.starts)
        points = [start.point for start in self.source.starts]
        taken = [one for one in self.old_starts if all(distance(one.point, point) > SAME_START for point in points)]
        self.source.starts += taken
        if newer and self.old_starts:
            told = f"took {counted(len(taken), 'older startup location')} (type 15) beside {newer} newer (type 1300)"
            doubled = [one.name for one in self.old_starts if one not in taken]
            self.report.say(told + (f"; within {SAME_START:g} m of a newer one: {', '.join(doubled)}" if doubled else ""))

    def place(self, latitude, longitude):
        """A point of the plane. The first place of the airport is its origin."""
        latitude, longitude = number(latitude, -90, 90), number(longitude, -180, 180)
        if self.source.projection is None:
            self.source.projection = Projection(latitude, longitude)
        return self.source.projection.to_plane(latitude, longitude)

    def is_near(self, what, point):
        """Whether a point is at this airport; one that isn't is told."""
        near = distance((0, 0), point) <= FARTHEST
        if not near:
            self.far.append(what)
        return near

    def runway(self, text):
        fields = text.split()
        name = f"{fields[8]}/{fields[17]}"
        start, end = self.place(fields[9], fields[10]), self.place(fields[18], fields[19])
        width = number(fields[1], 1, 500)
        if self.is_near(f"runway {name}", start) and self.is_near(f"runway {name}", end):
            self.source.runways.append(Runway(name, width, start, end))

    def node(self, text):
        fields = text.split(None, 5)
        point, key = self.place(fields[1], fields[2]), fields[4]
        if key in self.seen:
            raise ValueError(key)
        if self.is_near(f"node {key}", point):
            self.seen.add(key)
            self.source.nodes.append(SourceNode(key, point))

    def edge(self, text):
        fields = text.split(None, 5)
        kind = fields[4]
        if fields[3] not in ("oneway", "twoway") or not re.fullmatch(r"runway|taxiway(_[A-F])?", kind):
            raise ValueError(text)
        size = kind[8:]
        name = fields[5].strip() if len(fields) > 5 else ""
        self.source.edges.append(SourceEdge(fields[1], fields[2], fields[3] == "twoway", kind == "runway", size, name))

    def start(self, text):
        self.last = None
        fields = text.split(None, 6)
        point = self.place(fields[1], fields[2])
        kinds = frozenset(fields[5].split("|")) & KINDS
        name = fields[6].strip() if len(fields) > 6 else ""
        if self.is_near(f"startup location {name}", point):
            self.last = Start(name, point, kinds)
            self.source.starts.append(self.last)

    def size(self, text):
        letters = [word for word in text.split()[1:3] if re.fullmatch(r"[A-F]", word)]
        if self.last and letters:
            self.last.size = letters[0]

    def old_start(self, text):
        fields = text.split(None, 4)
        point = self.place(fields[1], fields[2])
        name = fields[4].strip() if len(fields) > 4 else ""
        if self.is_near(f"startup location {name}", point):
            self.old_starts.append(Start(name, point))


def read_airport(path, code, report):
    """What an apt.dat says of one airport."""
    entry, version = find_entry(path, code, report)
    source = Reader(entry, version, report).read()
    report.say(f"taken, from {source.title}: {source.counts()}")
    return source
