"""The exit statuses of the router, as docs/FORMATS.md lists them."""
from enum import IntEnum


class Status(IntEnum):
    """How a run has ended."""

    DONE = 0
    USAGE = 1
    AIRPORT_REFUSED = 2
    READ_FAULT = 3
    WRITE_FAULT = 4
    OUT_OF_MEMORY = 5
    TOO_LARGE = 6
    WRONG = 7
    SCHEDULE_REFUSED = 8
