"""What is made when all days are written: the sums, a page of each of the worst days, and the page of the study."""
import os
import subprocess
import sys
from concurrent.futures import ThreadPoolExecutor
from dataclasses import dataclass
from pathlib import Path

from day_study.page import page
from day_study.problem import DayFailed, Refused
from day_study.routing import Desk
from day_study.sums import sums_of, write_sums

DAY_PAGE = Path(__file__).resolve().parent.parent / "day_page"


@dataclass
class Worst:
    """Makes the pages of the worst days of a study in its folder."""

    study: object
    folder: Path
    scratch: str
    map: str = ""

    def make(self, day):
        """Makes the page of a day, with its commands beside it. Gives its name in the folder, or None where it can't be made."""
        desk = Desk(self.study.router, self.study.airport_data, os.path.join(self.scratch, f"worst-{day}"))
        try:
            lines, transcript = desk.routed(self.study.day(day).text)
        except (DayFailed, Refused):
            return None
        name = f"worst/day-{day}.html"
        commands = self.folder / "worst" / f"day-{day}.txt"
        commands.write_bytes(lines)
        words = [sys.executable, str(DAY_PAGE), str(self.folder / "airport.csv"), str(commands)]
        words += ["--transcript", desk.keep("transcript.txt", transcript), "--program", self.study.router.program]
        words += ["--title", f"{self.study.title}: day {day}", *(["--map", self.map] if self.map else [])]
        words += [] if self.study.router.check else ["--no-check"]
        with open(self.folder / name, "wb") as file:
            status = subprocess.run(words, stdout=file, stderr=subprocess.PIPE, check=False, start_new_session=True).returncode
        return name if status == 0 else None

    def pages(self, days, jobs):
        """The pages of these days by their numbers. Those of an earlier run are taken away."""
        place = self.folder / "worst"
        place.mkdir(exist_ok=True)
        for file in place.glob("day-*"):
            file.unlink()
        with ThreadPoolExecutor(jobs) as hands:
            made = dict(zip(days, hands.map(self.make, days)))
        return {day: name for day, name in made.items() if name}


def finish(study, scratch, told):
    """Writes what follows from the rows in the folder. Gives the number of days that failed."""
    folder, settings = Path(told.out), study.settings()
    sums = sums_of(folder, settings["limit"])
    write_sums(folder, sums)
    del sums.worst[told.worst:]
    days = [day for _, _, day in sums.worst]
    links = Worst(study, folder, scratch, told.map).pages(days, told.jobs)
    (folder / "page.html").write_text(page(sums, settings, links))
    for day in days:
        if day not in links:
            print(f"many_days: the page of day {day} could not be made", file=sys.stderr)
    return sums.failed
