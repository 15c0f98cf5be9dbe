"""By how many seconds a request is moved: rules as `normal:0,300`, and the draw of an offset from one number."""
import csv
import hashlib
import statistics
from dataclasses import dataclass

from day_study.problem import Refused

MOST = 604_800


@dataclass(frozen=True)
class Normal:
    """Offsets of a normal distribution, to the nearest second."""

    mean: float
    deviation: float

    def offset(self, share, _request):
        """The offset that a share of all draws does not pass."""
        if self.deviation == 0:
            return round(self.mean)
        # The ends of the distribution lie at infinity, so a share of 0 becomes the least one that can be drawn.
        return round(statistics.NormalDist(self.mean, self.deviation).inv_cdf(max(share, 2.0**-53)))


@dataclass(frozen=True)
class Uniform:
    """Whole seconds from LEAST to MOST, each as likely."""

    least: int
    most: int

    def offset(self, share, _request):
        """The offset that a share of all draws does not pass."""
        return self.least + int(share * (self.most - self.least + 1))


@dataclass(frozen=True)
class Observed:
    """Offsets that were seen, each as likely. Those of a class come before those of a kind, and these before those of all."""

    lists: tuple  # (scope, offsets); the scope of all is ""

    def offset(self, share, request):
        """The offset at a share of those that were seen, in their order."""
        for scope in (request.class_name, request.kind, ""):
            for name, offsets in self.lists:
                if name == scope:
                    return offsets[int(share * len(offsets))]
        return 0


@dataclass(frozen=True)
class Rule:
    """A rule for one class or kind, or for all where the scope is empty. TEXT is what the rule says, a file by its digest."""

    scope: str
    law: object
    text: str


def numbers(text, kind):
    """The two numbers of a rule, apart by a comma."""
    first, second = (kind(part) for part in text.split(","))
    if not (abs(first) <= MOST and abs(second) <= MOST):
        raise ValueError
    return first, second


def observed(path):
    """The offsets of a file: records `SECONDS`, or `WHO,SECONDS` where WHO is a class, `arrival` or `departure`."""
    lists = {}
    try:
        with open(path, newline="", encoding="utf-8-sig") as file:
            data = file.read()
    except (OSError, UnicodeDecodeError) as fault:
        raise Refused(f"--delay from:{path}: the file cannot be read ({getattr(fault, 'strerror', None) or 'not UTF-8'})", 3) from fault
    for number, record in enumerate(csv.reader(data.splitlines()), start=1):
        if not record or record[0].startswith("#"):
            continue
        try:
            scope, seconds = ("", *record) if len(record) == 1 else record
            lists.setdefault(scope, []).append(int(seconds))
        except ValueError as fault:
            raise Refused(f"--delay from:{path}: line {number} is neither SECONDS nor WHO,SECONDS") from fault
    if not lists:
        raise Refused(f"--delay from:{path}: the file has no offset")
    digest = hashlib.sha256(data.encode()).hexdigest()
    return Observed(tuple((scope, tuple(offsets)) for scope, offsets in lists.items())), f"from:{digest}"


def read_rule(text):
    """The rule of the words `[WHO=]normal:MEAN,DEVIATION`, `[WHO=]uniform:LEAST,MOST` or `[WHO=]from:FILE`."""
    scope, _, said = text.rpartition("=") if "=" in text.partition(":")[0] else ("", "", text)
    word, _, rest = said.partition(":")
    try:
        if word == "normal":
            law = Normal(*numbers(rest, float))
            if law.deviation < 0:
                raise ValueError
            return Rule(scope, law, text)
        if word == "uniform":
            law = Uniform(*numbers(rest, int))
            if law.most < law.least:
                raise ValueError
            return Rule(scope, law, text)
    except ValueError:
        word = ""
    if word != "from":
        raise Refused(f"--delay {text}: none of normal:MEAN,DEVIATION, uniform:LEAST,MOST and from:FILE")
    law, said = observed(rest)
    return Rule(scope, law, f"{scope}={said}" if scope else said)


def rule_for(rules, request):
    """The law of a request: that of its class, else of its kind, else of all, else none."""
    for scope in (request.class_name, request.kind, ""):
        for rule in rules:
            if rule.scope == scope:
                return rule.law
    return None
