"""What a reply answers: the line, and where it stands among those of its engine."""

from __future__ import annotations

import csv
from dataclasses import dataclass, field, replace
from functools import cached_property
from typing import Iterable


class Heads:
    """Where each arc of an airport leads. The airport is read when the first arc is asked for."""

    def __init__(self, airport: bytes) -> None:
        self._airport = airport

    @cached_property
    def _nodes(self) -> dict[str, str]:
        rows = csv.reader(self._airport.decode("latin-1").splitlines())
        return {arc: node for row in rows if row[:1] == ["segment"] for arc, node in ((f"{row[1]}+", row[3]), (f"{row[1]}-", row[2]))}

    def of(self, arc: str) -> str | None:
        """The node to which the arc leads, or None if the airport has no such arc."""
        return self._nodes.get(arc)

    def alone(self, arcs: Iterable[str]) -> Heads:
        """The same for these arcs alone, without the airport."""
        few = Heads(b"")
        few.__dict__["_nodes"] = {arc: node for arc in arcs for node in [self.of(arc)] if node is not None}
        return few


@dataclass(frozen=True)
class Asked:
    """The line that a reply answers, without its line end: the `number`-th of those given to its engine, and the `command`-th command.
    Both are counted from 1."""

    line: bytes
    number: int
    command: int
    heads: Heads = field(default_factory=lambda: Heads(b""), repr=False, compare=False)

    @property
    def words(self) -> list[str]:
        """The pieces of the line between its blanks. A byte that is no ASCII is the character of its number."""
        return self.line.decode("latin-1").split(" ")

    def alone(self, arcs: Iterable[str]) -> Asked:
        """The same without the airport, but for where these arcs lead."""
        return replace(self, heads=self.heads.alone(arcs))
