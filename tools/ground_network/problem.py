"""What ends a run, and what a run has to tell."""

BAD_WORDS, NOTHING_TO_MAKE, UNREADABLE, UNWRITTEN = 1, 2, 3, 4


class Problem(Exception):
    """Ends a run with a message and an exit status."""

    def __init__(self, status, message):
        super().__init__(message)
        self.status = status


def unreadable(path, error):
    """The problem of a file that the machine does not read."""
    return Problem(UNREADABLE, f"{path} can't be read: {error.strerror or error}")


def counted(number, word):
    """A number of things in words."""
    return f"{number} {word}" if number == 1 else f"{number} {word}s"


class Report:
    """Lines for standard error, in the order in which they were told."""

    def __init__(self):
        self.lines = []

    def say(self, text):
        """Tells what was done."""
        self.lines.append(text)

    def warn(self, text):
        """Tells what a person should look at."""
        self.lines.append(f"warning: {text}")

    def left_out(self, what, names, why):
        """Tells what was left out, by name; nothing where there is nothing."""
        if names:
            self.lines.append(f"left out, {what} ({len(names)}), {why}: {', '.join(names)}")

    def left_count(self, what, count, why):
        """Tells how much was left out where a name would say nothing."""
        if count:
            self.lines.append(f"left out, {what} ({count}), {why}")
