"""The shared library and the types of its calls."""

from __future__ import annotations

import ctypes
import functools
import os
from pathlib import Path
from typing import Any

# The version of this package. A library fits if its first number is the same.
VERSION = "1.3.0"

_handle, _size, _bytes = ctypes.c_void_p, ctypes.c_size_t, ctypes.c_char_p
_out = ctypes.POINTER(ctypes.c_void_p)

# The calls that each library of this major version has, with what they take and give.
CALLS: dict[str, tuple[list[Any], Any]] = {
    "rusboqan_version": ([], ctypes.c_uint32),
    "rusboqan_open": ([_bytes, _size, _out], ctypes.c_bool),
    "rusboqan_why": ([_bytes, _size, ctypes.POINTER(ctypes.c_uint32)], ctypes.c_uint8),
    "rusboqan_answer": ([_handle, _bytes, _size], _size),
    "rusboqan_text": ([_handle, _out], _size),
    "rusboqan_close": ([_handle], None),
}

# Those that came with 1.3.0. An older library works without them.
LATER_CALLS: dict[str, tuple[list[Any], Any]] = {
    "rusboqan_rule": ([_bytes, _size, _bytes, _size], _size),
    "rusboqan_json": ([_handle, ctypes.c_uint64], _size),
    "rusboqan_plan": ([_handle, _bytes, _size], _size),
    "rusboqan_figures": ([_handle], _size),
    "rusboqan_checkpoint": ([_handle], _size),
    "rusboqan_explain": ([_handle, _bytes, _size], _size),
    "rusboqan_told": ([_handle, _out], _size),
}

# What a call that makes a text gives in place of a length, if it makes none.
NO_MEMORY = ctypes.c_size_t(-1).value
NO_START = ctypes.c_size_t(-2).value

# From this many bytes on, a length is no C int, and `ctypes.string_at` of many a Python loses its higher part.
TOO_LONG_FOR_AN_INT = 1 << 31


def version_text(number: int) -> str:
    """A version as `1.2.3`, of its number 10203."""
    return f"{number // 10000}.{number // 100 % 100}.{number % 100}"


def library(path: str | os.PathLike[str] | None = None) -> ctypes.CDLL:
    """The shared library: that of the path, or of the variable RUSBOQAN_LIBRARY, or beside this package, or where the system looks."""
    beside = Path(__file__).with_name("librusboqan.so")
    return _loaded(os.fspath(path or os.environ.get("RUSBOQAN_LIBRARY") or (beside if beside.exists() else "librusboqan.so")))


@functools.lru_cache(maxsize=None)
def _loaded(name: str) -> ctypes.CDLL:
    """The library of this name. Raises OSError if it can't be loaded, or is of another major version."""
    try:
        calls = ctypes.CDLL(name)
    except OSError as error:
        raise OSError(f"{error}; RUSBOQAN_LIBRARY may say where the library is") from None
    for call, (given, result) in CALLS.items():
        declare(calls, call, given, result)
    for call, (given, result) in LATER_CALLS.items():
        if hasattr(calls, call):
            declare(calls, call, given, result)
    number = calls.rusboqan_version()
    if version_text(number).split(".")[0] != VERSION.split(".")[0]:
        raise OSError(f"{name} is of version {version_text(number)}, and this package is of version {VERSION}: their first numbers differ")
    return calls


def declare(calls: ctypes.CDLL, name: str, given: list[Any], result: Any) -> None:
    """Tells the types of a call. Raises OSError if the library hasn't got it."""
    try:
        call = getattr(calls, name)
    except AttributeError:
        raise OSError(f"{calls._name} is no library of Rusboqan: it has no call {name}") from None
    call.argtypes, call.restype = given, result


def later_call(calls: ctypes.CDLL, name: str) -> Any:
    """A call that an older library lacks. Raises NotImplementedError if this one does."""
    if not hasattr(calls, name):
        raise NotImplementedError(f"the library is of version {version_text(calls.rusboqan_version())}, which has no call {name}")
    return getattr(calls, name)


def bytes_at(address: int | None, length: int) -> bytes:
    """A copy of so many bytes at an address."""
    if not length or not address:
        return b""
    if length < TOO_LONG_FOR_AN_INT:
        return ctypes.string_at(address, length)
    return bytes((ctypes.c_char * length).from_address(address))
