"""The clock of a day: seconds as they stand in the files, or civil times where the start of the day is known."""
import datetime
import re

from day_replay.airport import BadFile

WHEN = re.compile(r"(\d{4})-(\d\d)-(\d\d)T(\d\d):(\d\d):(\d\d)(Z|[+-](\d\d):(\d\d))")


class Clock:
    """Tells a second of the day. The offset of the start stands for the whole day, also where clocks are changed."""

    def __init__(self, start=None):
        self.offset = ""
        self.start = None
        if start is not None:
            self.start, self.offset = read_when(start)

    def text(self, second):
        """A second of the day in words: `860`, or `00:14:20`; of another date than the start's with the date before it."""
        if self.start is None:
            return str(second)
        moment = self.start + datetime.timedelta(seconds=second)
        same_day = moment.date() == self.start.date()
        return moment.strftime("%H:%M:%S" if same_day else "%Y-%m-%d %H:%M:%S")

    def data(self):
        """What the page needs to tell the same times: the date and time of the start, and its offset."""
        if self.start is None:
            return None
        return {"at": self.start.strftime("%Y-%m-%dT%H:%M:%SZ"), "offset": self.offset}


def read_when(text):
    """The date and time of a WHEN as a schedule has it, and its offset as it stands."""
    form = WHEN.fullmatch(text)
    fault = BadFile(f"start: {text} is not of the form 2026-03-29T00:00:00+01:00")
    if not form or not text.isascii():
        raise fault
    numbers = [int(form.group(k)) for k in range(1, 7)]
    if not 1970 <= numbers[0] < 2999 or int(form.group(8) or 0) > 14 or int(form.group(9) or 0) > 59:
        raise fault
    try:
        return datetime.datetime(*numbers), form.group(7)
    except ValueError as bad:
        raise fault from bad
