"""What tools/many_days does with its words."""
import sys
import tempfile
import time
from dataclasses import dataclass, field
from pathlib import Path

from day_replay.airport import BadFile, read_airport
from day_replay.statuses import Status
from day_study.dask_workers import Dask
from day_study.delays import read_rule
from day_study.drawing import check_scopes, read_closures
from day_study.finish import finish
from day_study.problem import DayFailed, Refused
from day_study.routing import Desk, Router, engine_class
from day_study.study import Bench, Study
from day_study.words import TOP, parser
from day_study.workers import Processes, chunks_of, in_order
from day_study.writing import MOST_FAILED, Folder, days_of, merge, part_name

INTERRUPTED = 130
# A line of progress where nobody looks at a terminal.
SELDOM = 30.0


@dataclass
class Progress:
    """The line on standard error that says how far a run is."""

    first: int
    end: int
    began: float = field(default_factory=time.monotonic)
    told: float = 0.0

    def tell(self, day, last=False):
        """Says that all days up to this one are done."""
        now = time.monotonic()
        terminal = sys.stderr.isatty()
        if not last and now - self.told < (0.2 if terminal else SELDOM):
            return
        self.told = now
        done, left = day + 1 - self.first, self.end - 1 - day
        rate = done / max(now - self.began, 0.001)
        text = f"many_days: day {day} of {self.end - 1}, {rate:.1f} a second, some {left / max(rate, 1e-9):.0f} s left"
        print(f"\r{text}\033[K" if terminal else text, end="\n" if last or not terminal else "", file=sys.stderr, flush=True)


def read(name):
    """The bytes of a file."""
    try:
        return Path(name).read_bytes()
    except OSError as fault:
        raise Refused(f"{name} cannot be read ({fault.strerror})", Status.READ_FAULT) from fault


def router_of(told):
    """How the days are routed."""
    program = told.program or str(TOP / "taxi")
    # What is installed here says nothing about the workers of a cluster.
    finds = not (told.program or told.dask) and engine_class() is not None
    in_process = told.engine == "yes" or told.engine == "auto" and finds
    if told.dask and not told.program and not in_process:
        raise Refused("--dask sends the program to the workers, so --program has to name the built one")
    own = str(Path(told.own).absolute()) if told.own else ""
    return Router(program, in_process, own, told.check)


def study_of(told, scratch):
    """The study that the words ask for."""
    airport_data, plan_data = read(told.airport), read(told.day)
    router = router_of(told)
    if plan_data.removeprefix(b"\xef\xbb\xbf").startswith(b"taxi-schedule,"):
        plan_data = Desk(Router(router.program), airport_data, scratch).imported(plan_data)
    try:
        airport = read_airport(airport_data)
    except BadFile as fault:
        raise Refused(f"{told.airport}: {fault}", Status.AIRPORT_REFUSED) from fault
    rules = tuple(map(read_rule, told.delay))
    check_scopes(rules, airport)
    closures = read_closures(told.close, airport) if told.close else ()
    title = f"{Path(told.airport).absolute().parent.name}/{Path(told.airport).name}, {Path(told.day).name}"
    study = Study(airport_data, plan_data, told.days, told.seed, told.limit, told.order, router, rules, closures, title)
    if not study.plan.asks:
        raise Refused(f"{told.day} has no request: no line arrival, departure or batch")
    return study


def prepared(study, scratch):
    """The bench of this process, with each flight alone and the plan's stand times."""
    try:
        bench = Bench(study, Desk(study.router, study.airport_data, scratch))
        bench.find_alone()
        bench.find_planned()
    except (DayFailed, BadFile) as fault:
        raise Refused(f"the plan itself: {fault}", Status.WRONG) from fault
    return bench


def write_days(folder, workers, first, end, jobs):
    """Has the days from FIRST up to END run and written. Gives the days that failed."""
    progress, failed = Progress(first, end), []
    for chunk in in_order(workers, chunks_of(first, end, jobs)):
        for rows in chunk:
            folder.write(rows)
            if rows.failure:
                failed.append(rows.day)
                print(f"many_days: day {rows.day} failed: {rows.failure}; see {folder.failed(rows.day)}", file=sys.stderr)
            if len(failed) > MOST_FAILED:
                folder.flush()
                raise Refused(f"{len(failed)} days failed, so the run stops at day {rows.day}", Status.WRONG)
        folder.flush()
        progress.tell(chunk[-1].day, chunk[-1].day == end - 1)
    return failed


def run_days(told, study, scratch):
    """Runs the days that are not there yet. Gives the days that failed."""
    part = told.part or (1, 1)
    first, end = days_of(study.days, part)
    folder = Folder(Path(told.out, part_name(part)) if told.part else told.out, first)
    bench = prepared(study, scratch)
    resumes = told.resume and (folder.path / "study.json").exists()
    first = folder.resume(study, part) if resumes else folder.begin(study, part)
    try:
        if first >= end:
            return []
        workers = workers_of(told, study, bench.knowledge(), scratch)
        try:
            return write_days(folder, workers, first, end, workers.jobs)
        except KeyboardInterrupt:
            folder.flush()
            raise Refused(f"stopped; the days up to {folder.last_day()} are there, --resume goes on", INTERRUPTED) from None
        finally:
            workers.close()
    finally:
        folder.close()


def workers_of(told, study, knowledge, scratch):
    """Those who run the days."""
    if told.dask:
        return Dask(study, knowledge, scratch, told.dask)
    return Processes(study, knowledge, scratch, told.jobs)


def make(told):
    """What the words ask for. Gives the status."""
    with tempfile.TemporaryDirectory(prefix="many_days-") as scratch:
        study = study_of(told, scratch)
        failed = merge(told.out, study) if told.merge else len(run_days(told, study, scratch))
        if not told.part:
            failed = finish(study, scratch, told)
    if failed:
        print(f"many_days: {failed} of {study.days} days failed", file=sys.stderr)
    return Status.WRONG if failed else Status.DONE


def main(given=None):
    """Does what the words ask for, or says in one line why not. The words are those of the command line if none are given."""
    told = parser().parse_args(given)
    try:
        return int(make(told))
    except Refused as refused:
        print(f"many_days: {refused}", file=sys.stderr)
        return int(refused.status)
    except KeyboardInterrupt:
        print("many_days: stopped", file=sys.stderr)
        return INTERRUPTED
    except OSError as fault:
        print(f"many_days: {fault.filename or told.out}: {fault.strerror}; what is written stays, --resume goes on", file=sys.stderr)
        return int(Status.WRITE_FAULT)
