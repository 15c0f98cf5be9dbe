"""What a package is made of: the version, the commit, the day, and the checksum of each source."""
from __future__ import annotations

import hashlib
import os
import re
import subprocess
from dataclasses import dataclass, field
from datetime import datetime, timezone

from endings import Stopped

# Folders that hold no source.
MADE = {"out", "__pycache__", ".git", "build"}


@dataclass(frozen=True)
class Identity:
    """The sources of a package. `commit` has a word behind it where files differ from it."""

    top: str
    version: str
    commit: str
    epoch: int
    sources: dict[str, str] = field(repr=False)

    @property
    def day(self) -> str:
        """The day of the sources, as 2026-12-02."""
        return self.moment[:10]

    @property
    def moment(self) -> str:
        """The moment of the sources, in UTC."""
        return datetime.fromtimestamp(self.epoch, timezone.utc).isoformat()

    @property
    def digest(self) -> str:
        """One checksum for all sources."""
        return hashlib.sha256(sums(self.sources).encode()).hexdigest()


def sums(of: dict[str, str]) -> str:
    """Checksums in the form that `sha256sum --check` reads."""
    return "".join(f"{checksum}  {name}\n" for name, checksum in sorted(of.items()))


def checksum(path: str) -> str:
    """The SHA-256 of a file."""
    with open(path, "rb") as file:
        return hashlib.sha256(file.read()).hexdigest()


def version_of(top: str) -> str:
    """The version, which the first heading of CHANGELOG.md says."""
    with open(f"{top}/CHANGELOG.md", encoding="utf-8") as file:
        found = re.search(r"^## (\d+\.\d+\.\d+)\b", file.read(), re.M)
    if not found:
        raise Stopped("CHANGELOG.md has no heading with a version")
    return found[1]


def git(top: str, *words: str) -> str | None:
    """What git says, or None where this is no checkout."""
    try:
        ran = subprocess.run(["git", "-C", top, *words], capture_output=True, text=True, check=False)
    except OSError:
        return None
    return ran.stdout if ran.returncode == 0 else None


def walked(top: str) -> list[str]:
    """The files below a folder, without what is made of them."""
    found = []
    for folder, folders, names in os.walk(top):
        folders[:] = [it for it in folders if it not in MADE and not it.startswith(".")]
        found += [os.path.relpath(f"{folder}/{it}", top) for it in names if not it.endswith(".pyc")]
    return found


def source_files(top: str) -> list[str]:
    """The sources: those that git knows, or all files where this is no checkout."""
    known = git(top, "ls-files", "-z")
    names = walked(top) if known is None else known.split("\0")
    return sorted(it for it in names if it and os.path.isfile(f"{top}/{it}"))


def epoch_of(top: str) -> int:
    """The second that every file of a package bears: SOURCE_DATE_EPOCH, or else that of the commit."""
    given = os.environ.get("SOURCE_DATE_EPOCH") or git(top, "log", "-1", "--format=%ct")
    # (a zip file knows no time before 1980)
    return max(int(given), 315532800) if given and given.strip().isdigit() else 315532800


def identity_of(top: str) -> Identity:
    """What the sources below a folder are."""
    commit = (git(top, "rev-parse", "HEAD") or "unknown").strip()
    if git(top, "status", "--porcelain", "--untracked-files=no"):
        commit += ", with changes that are not committed"
    return Identity(top, version_of(top), commit, epoch_of(top), {it: checksum(f"{top}/{it}") for it in source_files(top)})
