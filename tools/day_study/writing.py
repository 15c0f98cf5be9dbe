"""The folder of a study: its rows, in the order of the days, and where a run that was stopped goes on."""
import json
import os
from pathlib import Path

from day_study.problem import Refused
from day_study.rows import DAY, FLIGHT, SEGMENT

HEADERS = {"flights.csv": FLIGHT, "segments.csv": SEGMENT, "days.csv": DAY}
# A study in which so many days fail is stopped: what is wrong is hardly the day.
MOST_FAILED = 20


class Folder:
    """The files of a study, or of a part of it. FIRST is the first day of the part."""

    def __init__(self, path, first):
        self.path, self.first = Path(path), first
        self.files = {}
        self.rows = []

    def begin(self, study, part):
        """Makes the folder and its files."""
        if (self.path / "study.json").exists():
            raise Refused(f"{self.path} has a study already; --resume goes on with it")
        self.path.mkdir(parents=True, exist_ok=True)
        self.keep_inputs(study)
        for name, header in HEADERS.items():
            (self.path / name).write_text(header + "\n")
        (self.path / "study.json").write_text(settings_text(study, part))
        self.open()
        return self.first

    def keep_inputs(self, study):
        """Keeps the airport and the plan, so that the folder tells all."""
        (self.path / "airport.csv").write_bytes(study.airport_data)
        (self.path / "plan.txt").write_bytes(study.plan_data)

    def resume(self, study, part):
        """Cuts what was not written whole, and gives the next day."""
        was, now = read_settings(self.path), json.loads(settings_text(study, part))
        # More days of the whole study are no other study.
        skipped = {"days"} if was.get("part") == now["part"] == [1, 1] and was.get("days", 0) <= now["days"] else set()
        for name, value in now.items():
            if name not in skipped and was.get(name) != value:
                raise Refused(f"{self.path} has a study with another {name}: {was.get(name)} and not {value}")
        day = self.last_day() + 1
        for name in HEADERS:
            cut_after(self.path / name, day)
        (self.path / "study.json").write_text(settings_text(study, part))
        self.open()
        return day

    def last_day(self):
        """The last day whose row stands whole behind those of all days before it."""
        day = self.first - 1
        with open(self.path / "days.csv", "rb") as rows:
            for line in rows:
                if line.endswith(b"\n") and line.startswith(b"%d," % (day + 1)):
                    day += 1
        return day

    def open(self):
        """Opens the files to go on."""
        self.files = {name: open(self.path / name, "ab") for name in HEADERS}

    def write(self, rows):
        """Writes the rows of a day. Its own row waits for `flush`: with it the day is there."""
        self.files["flights.csv"].write(rows.flights)
        self.files["segments.csv"].write(rows.segments)
        if rows.failure:
            self.keep(rows)
        self.rows.append(rows.row)

    def keep(self, rows):
        """Keeps the files of a day that failed."""
        place = self.failed(rows.day)
        place.mkdir(parents=True, exist_ok=True)
        (place / "why.txt").write_text(f"{rows.failure.why}\n")
        for name, data in rows.failure.files.items():
            (place / name).write_bytes(data)

    def failed(self, day):
        """Where the files of a day that failed are."""
        return self.path / "failed" / f"day-{day}"

    def flush(self):
        """Hands on what was written, and only then the days' own rows."""
        for name in ("flights.csv", "segments.csv"):
            self.files[name].flush()
        rows, self.rows = self.rows, []
        self.files["days.csv"].write(b"".join(rows))
        self.files["days.csv"].flush()

    def close(self):
        """Closes the files."""
        files, self.files = self.files, {}
        for file in files.values():
            file.close()


def settings_text(study, part):
    """The settings of a study or a part."""
    return json.dumps({**study.settings(), "part": list(part)}, indent=1) + "\n"


def read_settings(path):
    """The settings in a folder."""
    try:
        return json.loads((Path(path) / "study.json").read_text())
    except (OSError, ValueError) as fault:
        raise Refused(f"{path} has no study", 3) from fault


def cut_after(path, day):
    """Cuts a file of rows before the first row of a day, or of a later one, or that has no end."""
    kept = 0
    with open(path, "rb+") as file:
        for number, line in enumerate(file):
            whole = line.endswith(b"\n")
            if not whole or number and int(line.partition(b",")[0] or day) >= day:
                break
            kept += len(line)
        file.truncate(kept)


def part_name(part):
    """The folder of a part below that of its study."""
    return os.path.join("parts", f"{part[0]}-of-{part[1]}")


def days_of(days, part):
    """The first day of a part, and the first no longer in it."""
    number, parts = part
    return 1 + days * (number - 1) // parts, 1 + days * number // parts


def merge(path, study):
    """Puts the parts of a study below a folder together."""
    if Path(path, "study.json").exists():
        raise Refused(f"{path} has a study already")
    found = sorted((read_settings(it) for it in Path(path, "parts").glob("*-of-*")), key=lambda it: it["part"])
    if not found:
        raise Refused(f"{path} has no parts", 3)
    count = found[0]["part"][1]
    if [it["part"] for it in found] != [[number, count] for number in range(1, count + 1)]:
        raise Refused(f"{path} has the parts {' '.join('{}/{}'.format(*it['part']) for it in found)}, not all of {count}")
    folders = [part_folder(path, study, it) for it in found]
    join(path, folders)
    Path(path, "study.json").write_text(settings_text(study, (1, 1)))


def part_folder(path, study, settings):
    """The folder of a part that is whole, and of this study."""
    part = tuple(settings["part"])
    first, end = days_of(study.days, part)
    folder = Folder(Path(path, part_name(part)), first)
    for name, value in study.settings().items():
        if settings.get(name) != value:
            raise Refused(f"{folder.path} has a study with another {name}: {settings.get(name)} and not {value}")
    if folder.last_day() + 1 != end:
        raise Refused(f"{folder.path} ends with day {folder.last_day()} and not {end - 1}; --resume goes on with it")
    return folder


def join(path, folders):
    """Writes the rows of all parts one behind the other."""
    for name, header in HEADERS.items():
        with open(Path(path, name), "wb") as whole:
            whole.write(header.encode() + b"\n")
            for folder in folders:
                with open(folder.path / name, "rb") as part:
                    part.readline()
                    while piece := part.read(1 << 20):
                        whole.write(piece)
    for name in ("airport.csv", "plan.txt"):
        Path(path, name).write_bytes((folders[0].path / name).read_bytes())
    for folder in folders:
        for place in (folder.path / "failed").glob("day-*"):
            kept = Path(path, "failed", place.name)
            kept.mkdir(parents=True, exist_ok=True)
            for file in place.iterdir():
                (kept / file.name).write_bytes(file.read_bytes())
