"""What stops a study or one of its days."""
from dataclasses import dataclass, field


class Refused(Exception):
    """The study cannot begin or go on; its text is the one line that says why. The status is that of the script."""

    def __init__(self, text, status=1):
        super().__init__(text)
        self.status = status


@dataclass
class DayFailed(Exception):
    """One day cannot be routed or is not confirmed. FILES are what shall be kept of it, by their names."""

    why: str
    files: dict = field(default_factory=dict)

    def __str__(self):
        return self.why
