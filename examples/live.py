"""A router that runs all day over the library: live.py AIRPORT LOG <COMMANDS. It answers each line at once, and keeps in LOG what it
answered. Started again with the same LOG, after whatever end, it goes on from there."""

import sys
from typing import BinaryIO

from rusboqan import Engine


def kept_lines(log: BinaryIO) -> list[bytes]:
    """The lines of the log. A crash may have left a part of a last line: it is cut off."""
    log.seek(0)
    *lines, torn = log.read().split(b"\n")
    log.truncate(log.tell() - len(torn))
    return lines


def main(airport: str, path: str) -> None:
    with Engine.of_file(airport, keep_log=False) as engine, open(path, "a+b") as log:
        if b"refused memory\n" in map(engine.answer_bytes, kept_lines(log)):
            raise MemoryError("memory ran out")
        for line in sys.stdin.buffer:
            reply = engine.answer_bytes(line)
            # The log comes before the reply: what a reader was told is never lost. What was refused for want of memory changed nothing.
            if reply and reply != b"refused memory\n":
                log.write(line.rstrip(b"\r\n") + b"\n")
                log.flush()
            sys.stdout.buffer.write(reply)
            sys.stdout.buffer.flush()


if __name__ == "__main__":
    if len(sys.argv) != 3:
        sys.exit("usage: live.py AIRPORT LOG <COMMANDS")
    try:
        main(*sys.argv[1:])
    except KeyboardInterrupt:
        sys.exit(130)
    except (OSError, ValueError, MemoryError) as error:
        sys.exit(f"live: {error}")
