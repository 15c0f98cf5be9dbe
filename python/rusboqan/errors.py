"""What is raised where the library opens no engine."""

from __future__ import annotations


class AirportRefused(ValueError):
    """The bytes are not an airport. `record` is the number of the first record that breaks a rule, or None if there are too many bytes.
    `rule` is the word of the rule, as `no-horizon`, or None if the library doesn't tell it."""

    def __init__(self, record: int | None, rule: str | None = None) -> None:
        super().__init__(record, rule)
        self.record = record
        self.rule = rule

    def __str__(self) -> str:
        if self.record is None:
            return "more than 4,194,304 bytes"
        return f"record {self.record} breaks a rule" + (f": {self.rule}" if self.rule else "")
