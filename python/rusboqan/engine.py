"""The engine behind a handle of the shared library."""

from __future__ import annotations

import ctypes
import os
import threading
from operator import index
from pathlib import Path
from types import TracebackType
from typing import Callable, NoReturn, TypeVar

from .asked import Asked, Heads
from .errors import AirportRefused
from .library import NO_MEMORY, NO_START, bytes_at, later_call, library, version_text
from .reply import Comment, Reply
from .tables import Explanation, PlanRow, plan_rows

SOUND, REFUSED, TOO_LARGE, MEMORY = range(4)
# The word of a rule has at most so many bytes.
LONGEST_RULE = 64
Found = TypeVar("Found")


def version() -> str:
    """The version of the shared library, as `1.2.3`."""
    return version_text(library().rusboqan_version())


class Engine:
    """One engine over one airport: it answers commands in turn, as `taxi route` does.

    Threads may share it: one call at a time is made, and others wait. A signal handler that asks an engine while its own thread is in a
    call of that engine gets RuntimeError. So does a process that was forked and asks an engine of its parent. An engine can't be copied
    or pickled, which raises TypeError; `fork` makes a second one.

    Raises AirportRefused if the bytes are not an airport, MemoryError if memory runs out, and OSError if there is no fitting library.
    """

    def __init__(self, airport: bytes, library_path: str | os.PathLike[str] | None = None, *, keep_log: bool = True) -> None:
        self._handle: int | None = None
        if not isinstance(airport, bytes):
            raise TypeError(f"an airport is given as bytes, not as {type(airport).__name__}; Engine.of_file reads a file")
        self._airport = airport
        self._library_path = library_path
        self._calls = library(library_path)
        self._text = ctypes.c_void_p()
        self._lock = threading.RLock()
        self._is_inside = False
        self._process = os.getpid()
        self._log: list[bytes] | None = [] if keep_log else None
        self._lines = self._commands = self._line_of_command = 0
        self._heads = Heads(airport)
        self._handle = self._opened()

    @classmethod
    def of_file(cls, path: str | os.PathLike[str], library_path: str | os.PathLike[str] | None = None, *, keep_log: bool = True) -> Engine:
        """An engine over the airport of a file."""
        return cls(Path(path).read_bytes(), library_path, keep_log=keep_log)

    def _opened(self) -> int | None:
        """The handle of a new engine. Raises what the library says of bytes that it does not take."""
        handle, record = ctypes.c_void_p(), ctypes.c_uint32()
        if self._calls.rusboqan_open(self._airport, len(self._airport), ctypes.byref(handle)):
            return handle.value
        why = self._calls.rusboqan_why(self._airport, len(self._airport), ctypes.byref(record))
        if why == REFUSED:
            raise AirportRefused(record.value, self._rule())
        if why == TOO_LARGE:
            raise AirportRefused(None)
        raise MemoryError

    def _rule(self) -> str | None:
        """The word of the rule that the airport breaks, as far as the library tells it."""
        if not hasattr(self._calls, "rusboqan_rule"):
            return None
        room = ctypes.create_string_buffer(LONGEST_RULE)
        length = self._calls.rusboqan_rule(self._airport, len(self._airport), room, len(room))
        return room.raw[:length].decode() or None

    def answer(self, command: str | bytes) -> Reply:
        """The reply to one command, a line with or without its line end. A comment or a blank line gets a Comment, which is false."""
        line = line_of(command)
        text, number, count = self._alone(self._answered, line)
        asked = Asked(line, number, count, self._heads)
        return Reply(text, asked) if text else Comment(text, asked)

    def answer_bytes(self, line: bytes) -> bytes:
        """The text of the reply; b"" if the line is a comment or blank. Raises ValueError if the engine is closed."""
        if not isinstance(line, bytes):
            raise TypeError(f"a line is bytes, not {type(line).__name__}")
        return self._alone(self._answered, line_of(line))[0]

    @property
    def log(self) -> tuple[bytes, ...]:
        """The commands that were answered, in their order, without line ends. Those that were refused for want of memory are left out."""
        # A forked process reads what its parent had, and can't wait for the parent's threads.
        return self._alone(self._logged) if self._process == os.getpid() else self._logged()

    def _logged(self) -> tuple[bytes, ...]:
        if self._log is None:
            raise ValueError("the engine keeps no log, as it was opened with keep_log=False")
        return tuple(self._log)

    def fork(self) -> Engine:
        """A second engine in the same state, made by answering the log again. What it is asked from then on does not touch this one.
        A process that was forked makes an engine of its own by it. Raises MemoryError if memory runs out."""
        log = self.log
        second = Engine(self._airport, self._library_path)
        for line in log:
            if second.answer_bytes(line) == b"refused memory\n":
                second.close()
                raise MemoryError
        return second

    def json(self, line: int | None = None) -> str:
        """The last command and its reply as `taxi-tools json` writes it, with its line feed. `line` is the number of the command's line in
        a file; without it, lines are counted from the opening of the engine. An empty text if there was no command yet."""
        return self._alone(self._told, "rusboqan_json", self._line_of_command if line is None else index(line)).decode()

    def plan(self) -> list[PlanRow]:
        """What is in force: a row for each step of each flight, and for each work party. Times are seconds."""
        return plan_rows(self.plan_csv())

    def plan_csv(self, start: str = "") -> bytes:
        """The same as the table that `taxi-tools plan` writes. With `start`, the civil time of second 0, its times are civil times. Raises
        ValueError if `start` is no civil time."""
        if not isinstance(start, str):
            raise TypeError(f"a start is str, not {type(start).__name__}")
        words = start.encode()
        return self._alone(self._told, "rusboqan_plan", words, len(words))

    def figures(self) -> dict[str, int]:
        """The numbers that `taxi-tools figures` writes, by the words before them, as `reply filed`."""
        lines = self._alone(self._told, "rusboqan_figures").decode().splitlines()
        return {words: int(number) for words, _, number in (line.rpartition(" ") for line in lines)}

    def checkpoint(self) -> bytes:
        """What is in force as a command file, as `taxi-tools checkpoint` writes it."""
        return self._alone(self._told, "rusboqan_checkpoint")

    def explain(self, command: str | bytes) -> Explanation:
        """Why this line would be answered as it would if it came next. It is not answered. This takes as long as all commands before."""
        line = line_of(command)
        return Explanation(self._alone(self._told, "rusboqan_explain", line, len(line)))

    def close(self) -> None:
        """Gives the memory back. A second call does nothing. In a process that was forked the parent's engine is let go as it is."""
        if self._handle is not None and self._process == os.getpid():
            self._alone(self._closed)
        self._handle = None

    def _alone(self, call: Callable[..., Found], *given: object) -> Found:
        """Makes a call that nothing else may come between: no other thread, and no signal handler of this one."""
        if self._process != os.getpid():
            raise RuntimeError("this engine is of another process: after a fork, fork() of it makes one for this process")
        # The lock lets its own thread in again, so that a signal handler comes as far as the test and does not wait for itself.
        with self._lock:
            if self._is_inside:
                raise RuntimeError("the engine is in a call of this very thread: a signal handler can't ask it now")
            try:
                self._is_inside = True
                return call(*given)
            finally:
                self._is_inside = False

    def _answered(self, line: bytes) -> tuple[bytes, int, int]:
        """The text of the reply, and which line and which command it answers."""
        if self._handle is None:
            raise ValueError("the engine is closed")
        self._note(line)
        text = b""
        if self._calls.rusboqan_answer(self._handle, line, len(line)):
            # The engine lends its reply until the next call, so the bytes are taken at once.
            length = self._calls.rusboqan_text(self._handle, ctypes.byref(self._text))
            text = bytes_at(self._text.value, length)
            if self._log is not None and text == b"refused memory\n":
                self._log.pop()
        return text, self._lines, self._commands

    def _note(self, line: bytes) -> None:
        """Counts and logs a line. This comes before the call, for what a signal handler raises comes when the call has had its effect."""
        self._lines += 1
        if is_command(line):
            self._commands += 1
            self._line_of_command = self._lines
            if self._log is not None:
                self._log.append(line)

    def _told(self, name: str, *given: object) -> bytes:
        """A copy of the text that a call makes."""
        if self._handle is None:
            raise ValueError("the engine is closed")
        length = later_call(self._calls, name)(self._handle, *given)
        if length == NO_MEMORY:
            raise MemoryError("memory ran out, for this text or for a command before")
        if length == NO_START:
            raise ValueError("the start is no civil time of a year before 2999")
        length = self._calls.rusboqan_told(self._handle, ctypes.byref(self._text))
        return bytes_at(self._text.value, length)

    def _closed(self) -> None:
        handle, self._handle = self._handle, None
        if handle is not None:
            self._calls.rusboqan_close(handle)

    def __enter__(self) -> Engine:
        return self

    def __exit__(self, kind: type[BaseException] | None, error: BaseException | None, trace: TracebackType | None) -> None:
        self.close()

    def __del__(self) -> None:
        if getattr(self, "_handle", None) is not None:
            self.close()

    def __reduce_ex__(self, protocol: object) -> NoReturn:
        raise TypeError("an engine can't be copied or pickled: fork() makes a second one in the same state")


def line_of(command: str | bytes) -> bytes:
    """The bytes of a line without its line end, as a run reads it."""
    if not isinstance(command, (str, bytes)):
        raise TypeError(f"a command is str or bytes, not {type(command).__name__}")
    line = command.encode() if isinstance(command, str) else command
    line = line.removesuffix(b"\n").removesuffix(b"\r")
    if b"\n" in line:
        raise ValueError("one line is answered at a time")
    return line


def is_command(line: bytes) -> bool:
    """Whether a line is answered: it is neither a comment nor blank."""
    return not line.startswith(b"#") and line.strip(b" \t") != b""
