"""What follows from a run: the rows of a plan, and the explanation of an answer. The page docs/TOOLS.md says what they mean."""

from __future__ import annotations

import csv
from dataclasses import dataclass
from functools import cached_property
from typing import NamedTuple

from .reply import Held


class PlanRow(NamedTuple):
    """A step of a flight in force, or a work party. `from_node` and `to_node` are the columns `from` and `to` of `taxi-tools plan`."""

    name: str
    kind: str
    class_name: str
    from_node: str
    to_node: str
    step: int
    segment: str
    direction: str
    tail: str
    head: str
    enter: int
    leave: int
    until: int
    least: int
    wait: int
    slack: int


# Where the numbers of a plan's row stand, from 0.
NUMBERS = frozenset((5, 10, 11, 12, 13, 14, 15))


def plan_rows(text: bytes) -> list[PlanRow]:
    """The rows of a plan whose times are seconds. Columns behind those of today are left out."""
    rows = list(csv.reader(text.decode().splitlines()))[1:]
    return [PlanRow._make(int(it) if at in NUMBERS else it for at, it in enumerate(row[: len(PlanRow._fields)])) for row in rows]


class Wait(NamedTuple):
    """A `hold`, a `queue` or a `wait`: for how many seconds, and for whom, if anybody is in the way. Step and arc are those of a `wait`."""

    kind: str
    seconds: int
    holder: str | None
    step: int | None = None
    arc: str | None = None


@dataclass(frozen=True)
class Explanation:
    """Why a line would be answered as it would. What it says is read from its text when asked for."""

    text: bytes

    @cached_property
    def rows(self) -> list[list[str]]:
        """Its lines, each as a list of words."""
        return [line.decode("latin-1").split(" ") for line in self.text.splitlines()]

    def __bool__(self) -> bool:
        """Whether there is anything to explain."""
        return self.text != b"nothing to explain\n"

    @property
    def answer(self) -> int | None:
        """The second of the answer; None if there is no route."""
        return self._second_of("answer")

    @property
    def alone(self) -> int | None:
        """The second that the answer would have with nobody else in force."""
        return self._second_of("alone")

    @property
    def without(self) -> dict[str, int]:
        """For each flight or work party without which the answer would be better: the second that it would have."""
        return {row[1]: int(row[2]) for row in self.rows if row[0] == "without"}

    @property
    def longer(self) -> tuple[int, int] | None:
        """The begin and the end of a better route with no limit on HOLD or QUEUE: of the line `later` or `sooner`."""
        found = [(int(row[1]), int(row[2])) for row in self.rows if row[0] in ("later", "sooner")]
        return found[0] if found else None

    @property
    def waits(self) -> list[Wait]:
        """For whom the flight waits, in the order of its way."""
        return [_wait(row) for row in self.rows if row[0] in ("hold", "queue", "wait")]

    @property
    def why(self) -> str | None:
        """The reason of a refusal that is explained, as `step 1 taken 100 SWR101`."""
        return " ".join(self.rows[0][1:]) if self.rows[0][0] == "refused" else None

    @property
    def held(self) -> list[Held]:
        """Of a refusal, the holds that are in the way."""
        return [Held(int(row[1]), int(row[2]), row[3], row[4]) for row in self.rows if row[0] == "held"]

    def _second_of(self, word: str) -> int | None:
        found = [row[1] for row in self.rows if row[0] == word]
        return int(found[0]) if found and found[0] != "none" else None


def _wait(row: list[str]) -> Wait:
    """The wait of a line. Nobody stands behind the seconds if nobody is in the way."""
    if row[0] != "wait":
        return Wait(row[0], int(row[1]), row[2] if len(row) > 2 else None)
    return Wait(row[0], int(row[3]), row[4] if len(row) > 4 else None, int(row[1]), row[2])
