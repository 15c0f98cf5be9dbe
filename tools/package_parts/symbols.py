"""What a program or a library needs of the system that runs it."""
from __future__ import annotations

import os
import re
import subprocess

from endings import Stopped


def read_elf(path: str, *flags: str) -> str:
    """What `readelf` says of a file."""
    try:
        plain = {**os.environ, "LC_ALL": "C"}
        ran = subprocess.run(["readelf", "--wide", *flags, path], capture_output=True, text=True, check=False, env=plain)
    except OSError:
        raise Stopped("readelf is needed, of the package binutils") from None
    if ran.returncode:
        raise Stopped(f"{path} is no program and no library that readelf can read")
    return ran.stdout


def libraries_of(path: str) -> list[str]:
    """The libraries that a file names."""
    return re.findall(r"\(NEEDED\).*\[(.*)\]", read_elf(path, "--dynamic"))


def glibc_of(path: str) -> tuple[int, int]:
    """The highest version of the C library's symbols that a file names; (2, 0) where it names none."""
    needs = read_elf(path, "--version-info").partition("Version needs section")[2]
    return max(((int(major), int(minor)) for major, minor in re.findall(r"\bGLIBC_(\d+)\.(\d+)", needs)), default=(2, 0))


def logic_of(path: str) -> str:
    """What the toolchain wrote of itself into a file's section of comments."""
    found = re.findall(r"^  \[ *[0-9a-f]+\]  (.*(?:rattle|logic).*)$", read_elf(path, "--string-dump=.comment"), re.M)
    return "; ".join(found) or "nothing"
