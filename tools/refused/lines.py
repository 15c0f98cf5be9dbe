"""What is wrong with a line of no form: which word it is, and what it should be. A new command gets a line in FORMS and in forms.ere."""
import re
from pathlib import Path

NAME = re.compile(r"[A-Za-z0-9_/.-]{1,16}")
NUMBER = re.compile(r"[0-9]{1,7}")
ARC = re.compile(r"[A-Za-z0-9_/.-]{1,16}[+-]")
NUMBERS = ("TIME", "HOLD", "QUEUE", "START", "OUT", "UNTIL", "FROM-SECOND", "LIMIT")
# For each command the words behind it. A word in brackets may come again.
FORMS = {
    "file": "FLIGHT CLASS START [ARC OUT]",
    "arrival": "FLIGHT CLASS FROM TO TIME HOLD",
    "departure": "FLIGHT CLASS FROM TO TIME QUEUE",
    "arrival-any": "FLIGHT CLASS FROM TIME HOLD [STAND]",
    "departure-any": "FLIGHT CLASS FROM TIME QUEUE [NODE]",
    "batch": "[REQUEST FLIGHT CLASS FROM TO TIME LIMIT]",
    "cancel": "FLIGHT",
    "reroute": "FLIGHT TIME",
    "divert": "FLIGHT TIME NODE",
    "late": "FLIGHT TIME UNTIL",
    "work": "NAME SEGMENT FROM-SECOND UNTIL",
    "workdone": "NAME",
    "windows": "SEGMENT",
    "occupancy": "SEGMENT",
    "timetable": "",
}
EXPRESSION = re.compile("|".join(f"(?:{line})" for line in (Path(__file__).parent / "forms.ere").read_text().splitlines()))
SEEMS = (
    (b"PK\x03\x04", "a workbook of a spreadsheet (.xlsx)", "save it as CSV in UTF-8"),
    (b"\xff\xfe", "text in UTF-16", "save it as UTF-8 without a byte order mark"),
    (b"\xfe\xff", "text in UTF-16", "save it as UTF-8 without a byte order mark"),
    (b"\xef\xbb\xbf", "a file with a byte order mark", "take it off: sed -i '1s/^\\xEF\\xBB\\xBF//' FILE"),
    (b"taxi-schedule", "a schedule", "make commands of it: taxi import AIRPORT SCHEDULE"),
    (b"taxi-airport", "an airport file", "name the command file behind it"),
)


def seems(data):
    """What a file seems to be that is no command file, and what to do; or None."""
    for start, what, cure in SEEMS:
        if data.startswith(start):
            return what, cure
    first = next((line for line in data.split(b"\n") if line.strip() and not line.startswith(b"#")), b"")
    if b";" in first or b"," in first:
        return "a table", "commands have blanks between their words; taxi import makes them of a schedule"
    return None


def is_form(text):
    """Whether a line is of one of the forms."""
    return EXPRESSION.fullmatch(text) is not None


def trouble(text):
    """What is wrong with a line of no form, in a sentence."""
    if text != text.strip(" \t") or "\t" in text or "  " in text:
        return "exactly one blank stands between two words, none at the ends, and no tab"
    words = text.split(" ")
    form = FORMS.get(words[0])
    if form is None:
        lower = words[0].lower()
        return f"{words[0]} is no command" + (f"; write {lower}" if lower in FORMS else "; " + ", ".join(FORMS) + " are")
    names = form.replace("[", "").replace("]", "").split()
    repeated = form[form.index("[") + 1:-1].split() if "[" in form else []
    kinds = names + repeated * 256 if repeated else names
    for kind, word in zip(kinds, words[1:]):
        if told := trouble_with(kind, word):
            return told
    if any(word.startswith("#") for word in words):
        return "a comment takes a line of its own"
    return f"it has {len(words) - 1} words behind {words[0]}; the form is {words[0]} {form}".rstrip()


def trouble_with(kind, word):
    """What is wrong with a word, or None."""
    if kind in NUMBERS:
        return None if NUMBER.fullmatch(word) else f"{kind} is {word}; it is to be whole seconds from second 0, of 1 to 7 digits"
    if kind == "ARC":
        return None if ARC.fullmatch(word) else f"{word} is no arc: a segment's name and + or -"
    if kind == "REQUEST":
        return None if word in ("arrival", "departure") else f"{word} is neither arrival nor departure"
    if NAME.fullmatch(word):
        return None
    if len(word) > 16:
        return f"{kind} is {word}, which has {len(word)} characters; a name has 1 to 16"
    return f"{kind} is {word}; a name has letters without accents, digits and _ - / . alone"
