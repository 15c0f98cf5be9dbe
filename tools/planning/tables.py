"""Tables as a spreadsheet reads them: a separator, a byte order mark and civil times without an offset, all as wished."""
import csv
import datetime
import io
import re
import sys

from day_replay.civil import read_when
from endings import Stopped

SEPARATORS = {";": ";", ",": ",", "tab": "\t"}
MARK = "\ufeff"
MONTHS = "JAN|FEB|MAR|APR|MAY|JUN|JUL|AUG|SEP|OCT|NOV|DEC"
# What programs take a name for, in the order in which it is tried.
CHANGES = (
    ("a number", re.compile(r"[+-]?(\d+\.?\d*|\.\d+)(E[+-]?\d+)?|\d+-", re.I)),
    ("a date or a fraction", re.compile(rf"\d+([-/.])\d+(\1\d+)?|({MONTHS})[-/.]?\d+|\d+[-/.]?({MONTHS})([-/.]\d+)?", re.I)),
    ("a formula", re.compile(r"-.*")),
    ("a missing value", re.compile(r"NA|N/A|n/a|NULL|null|None|NaN|nan|NONE", re.A)),
    ("a truth value", re.compile(r"TRUE|FALSE", re.I)),
    ("an infinite number", re.compile(r"inf|infinity", re.I)),
)
SHOWN = 8


def add_options(parser):
    """Adds the options of a table."""
    parser.add_argument("--separator", default=",", choices=SEPARATORS, help="what stands between two fields: , or ; or tab (default ,)")
    parser.add_argument("--mark", action="store_true", help="begin with a byte order mark, by which Excel knows UTF-8")


class Times:
    """Seconds of the day as they are, or as civil times that a spreadsheet reads as times."""

    def __init__(self, start=None):
        self.start = read_when(start)[0] if start is not None else None

    def text(self, second):
        """A second as it stands in a table; nothing where there is none."""
        if second is None or self.start is None:
            return "" if second is None else str(second)
        return (self.start + datetime.timedelta(seconds=second)).strftime("%Y-%m-%d %H:%M:%S")


def write_table(options, header, rows, file=None):
    """Writes a table to standard output."""
    text = io.StringIO()
    writer = csv.writer(text, delimiter=SEPARATORS[options.separator], lineterminator="\n")
    writer.writerow(header)
    writer.writerows(rows)
    stream = file or sys.stdout.buffer
    stream.write(((MARK if options.mark else "") + text.getvalue()).encode())
    stream.flush()


def taken_for(name):
    """What a spreadsheet or pandas takes a name for, or None where it stays as it is."""
    return next((what for what, form in CHANGES if form.fullmatch(name)), None)


def warning(names):
    """A line on the names that programs would change, or None. Each name is told once."""
    changed = [(name, taken_for(name)) for name in dict.fromkeys(names) if taken_for(name)]
    if not changed:
        return None
    told = ", ".join(f"{name} ({what})" for name, what in changed[:SHOWN])
    more = f" and {len(changed) - SHOWN} more" if len(changed) > SHOWN else ""
    return f"a spreadsheet or pandas may change these names: {told}{more}; import their columns as text"


def read_pairs(data, what):
    """The rows of two fields of a small table: separated by commas, semicolons or tabs, with a byte order mark or without."""
    text = data.decode("utf-8-sig", errors="replace")
    first = text.partition("\n")[0]
    separator = next((sign for sign in ";\t" if sign in first), ",")
    rows = [row for row in csv.reader(io.StringIO(text), delimiter=separator) if any(map(str.strip, row))]
    for number, row in enumerate(rows, start=1):
        if len(row) != 2:
            raise Stopped(f"{what}: row {number} has {len(row)} fields, not 2")
    return [(first.strip(), second.strip()) for first, second in rows]
