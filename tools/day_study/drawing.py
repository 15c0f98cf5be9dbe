"""One day of a study: the plan with each request moved, segments closed, and the requests in another order.

Each day has generators of its own, seeded by the seed, the day's number and what is drawn. So a day is the same whichever worker
makes it, and whatever else is drawn.
"""
import csv
import itertools
import random
from dataclasses import dataclass

from day_study.delays import rule_for
from day_study.plan import NUMBER
from day_study.problem import Refused

ORDERS = ("file", "time", "random", "batch")
# A `batch` takes at most six requests.
BATCH = 6


@dataclass(frozen=True)
class Closure:
    """A segment that is shut from FROM to UNTIL on a share of the days."""

    segment: str
    begin: int
    until: int
    share: float


@dataclass(frozen=True)
class Day:
    """The command lines of a day, and for each request of the plan its TIME on this day, and how many segments are closed."""

    number: int
    text: bytes
    times: tuple
    closed: int


def read_closures(path, airport):
    """The closures of a file: records `SEGMENT,FROM,UNTIL`, and a share of the days from 0 to 1 where it is not each."""
    try:
        with open(path, newline="", encoding="utf-8-sig") as file:
            records = list(csv.reader(file))
    except (OSError, UnicodeDecodeError) as fault:
        raise Refused(f"--close {path}: the file cannot be read ({getattr(fault, 'strerror', None) or 'not UTF-8'})", 3) from fault
    closures = []
    for number, record in enumerate(records, start=1):
        if record and not record[0].startswith("#"):
            closures.append(closure_of(record, airport, f"--close {path}: line {number}"))
    return tuple(closures)


def closure_of(record, airport, where):
    """The closure of one record."""
    if len(record) not in (3, 4) or not all(map(NUMBER.fullmatch, record[1:3])):
        raise Refused(f"{where} is not SEGMENT,FROM,UNTIL or SEGMENT,FROM,UNTIL,SHARE")
    if record[0] not in airport.segment_number:
        raise Refused(f"{where}: the airport has no segment {record[0]}")
    begin, until = int(record[1]), int(record[2])
    if not begin < until <= airport.horizon:
        raise Refused(f"{where}: {begin} to {until} is no time of the day")
    try:
        share = float(record[3]) if len(record) == 4 else 1.0
    except ValueError:
        share = -1.0
    if not 0 <= share <= 1:
        raise Refused(f"{where}: {record[3]} is not a share from 0 to 1")
    return Closure(record[0], begin, until, share)


def generator(study, day, what):
    """A generator of its own for one matter of one day."""
    return random.Random(f"{study.seed} {day} {what}")


def times_of(plan, study, day, horizon):
    """The TIME of each request on a day. One draw is made for each, also where no rule is for it."""
    draw = generator(study, day, "delay")
    times = []
    for ask in plan.asks:
        share, law = draw.random(), rule_for(study.delays, ask.request)
        offset = law.offset(share, ask.request) if law else 0
        times.append(min(max(0, ask.request.time + offset), horizon))
    return tuple(times)


def closed_lines(study, day, taken):
    """The `work` lines of the closures of a day. Their names are none that the plan uses."""
    draw, lines = generator(study, day, "close"), []
    names = (name for name in map("CLOSED{}".format, itertools.count(1)) if name not in taken)
    for closure in study.closures:
        share, name = draw.random(), next(names)
        if share < closure.share:
            lines.append(f"work {name} {closure.segment} {closure.begin} {closure.until}")
    return lines


def ordered(lines, study, day, times):
    """Neighbouring lines of requests in the order of the study."""
    def time(line):
        return min((times[ask.number], ask.number) for ask in line.asks)

    if study.order == "file":
        return lines
    if study.order == "random":
        draw = generator(study, day, f"order {lines[0].asks[0].number}")
        return draw.sample(lines, len(lines))
    return sorted(lines, key=time)


def text_of(asks, times):
    """The line of some requests: a `batch` if they are several."""
    words = [" ".join(ask.moved(times[ask.number])) for ask in asks]
    return " ".join(["batch", *words]) if len(words) > 1 else words[0]


def batches(lines):
    """The requests of neighbouring lines, up to six together. A choice of nodes stays a line of its own."""
    together = []
    for line in lines:
        if len(line.asks) > 1 or line.asks[0].words[0].endswith("-any") or len(together) == BATCH:
            if together:
                yield tuple(together)
            together = []
        if len(line.asks) > 1 or line.asks[0].words[0].endswith("-any"):
            yield line.asks
        else:
            together.append(line.asks[0])
    if together:
        yield tuple(together)


def request_lines(lines, study, day, times):
    """The text of neighbouring lines of requests on a day."""
    lines = ordered(lines, study, day, times)
    groups = batches(lines) if study.order == "batch" else (line.asks for line in lines)
    return [text_of(asks, times) for asks in groups]


def day_of(plan, study, day, horizon):
    """A day of a study. Day 0 is the plan itself: nothing is moved or closed.

    A line that is no request keeps its place, and no request passes it.
    """
    if day:
        times = times_of(plan, study, day, horizon)
        taken = {word for line in plan.lines for word in line.text.split(" ")} | {ask.request.flight for ask in plan.asks}
        closed = closed_lines(study, day, taken)
    else:
        times, closed = tuple(ask.request.time for ask in plan.asks), []
    text = list(closed)
    for is_request, lines in itertools.groupby(plan.lines, key=lambda line: bool(line.asks)):
        text += request_lines(list(lines), study, day, times) if is_request else [line.text for line in lines]
    return Day(day, "".join(f"{line}\n" for line in text).encode(), times, len(closed))


def check_scopes(rules, airport):
    """Refuses a rule for a class that the airport lacks."""
    for rule in rules:
        if rule.scope and rule.scope not in ("arrival", "departure") and rule.scope not in airport.class_number:
            raise Refused(f"--delay {rule.text}: the airport has no class {rule.scope}")

