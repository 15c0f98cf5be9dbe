"""How the scripts in tools/ end: each trouble is one plain line on standard error, and a status."""
import argparse
import errno
import os
import sys

from day_replay.airport import BadFile
from day_replay.statuses import Status

INTERRUPTED = 130


class Stopped(Exception):
    """A run that can't go on: what to say of it, and the status to end with."""

    def __init__(self, text, status=1):
        super().__init__(text)
        self.status = status


class Arguments(argparse.ArgumentParser):
    """Words of no form end with the status that they have with the router. The text of the script keeps its paragraphs."""

    def __init__(self, prog, description):
        super().__init__(prog=prog, description=description, formatter_class=argparse.RawDescriptionHelpFormatter)

    def error(self, message):
        self.print_usage(sys.stderr)
        self.exit(Status.USAGE, f"{self.prog}: {message}\n")


def end(name, main):
    """Runs MAIN and ends the script with the status that it gives. Nothing that goes wrong with a file leaves a traceback."""
    try:
        status = main() or 0
        sys.stdout.flush()
    except BrokenPipeError:
        status = Status.WRITE_FAULT
    except KeyboardInterrupt:
        status = told(name, "stopped by the keyboard", INTERRUPTED)
    except Stopped as stopped:
        status = told(name, stopped, stopped.status)
    except BadFile as fault:
        status = told(name, fault, 1)
    except OSError as fault:
        status = told(name, *trouble_of(fault))
    let_output_go()
    sys.exit(status)


def trouble_of(fault):
    """What to say of an error of the system, and the status that it has with the router."""
    if fault.errno == errno.ENOSPC:
        return "the output can't be written: the disk is full", Status.WRITE_FAULT
    if fault.filename is None:
        return f"the output can't be written: {fault.strerror or fault}", Status.WRITE_FAULT
    return f"{fault.filename}: {fault.strerror}", Status.READ_FAULT


def told(name, text, status):
    """Says why the script ends; gives the status."""
    try:
        print(f"{name}: {text}", file=sys.stderr, flush=True)
    except OSError:
        pass
    return int(status)


def let_output_go():
    """Python would try to write what is left at its end, and complain; so that goes nowhere where it can't be written."""
    try:
        sys.stdout.flush()
    except (OSError, ValueError):
        os.dup2(os.open(os.devnull, os.O_WRONLY), sys.stdout.fileno())
