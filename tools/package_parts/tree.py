"""The files of a package, each by its place, with its bytes or where it leads to."""
from __future__ import annotations

import gzip
import io
import os
import tarfile
from dataclasses import dataclass


@dataclass(frozen=True)
class Entry:
    """A file with its bytes, or a link with where it leads to."""

    data: bytes = b""
    link: str | None = None
    is_program: bool = False

    def as_program(self) -> Entry:
        """The same bytes as a program that can be run."""
        return Entry(self.data, None, True)

    def as_data(self) -> Entry:
        """The same bytes as a file that is read alone."""
        return Entry(self.data, None, False)


class Tree(dict):
    """Entries by their places. A folder is there by what it holds."""

    def add(self, place: str, data: bytes | str, is_program: bool = False) -> None:
        """Adds a file of these bytes."""
        self[place] = Entry(data.encode() if isinstance(data, str) else data, None, is_program)

    def add_file(self, place: str, source: str) -> None:
        """Adds a file as it is on the disk."""
        with open(source, "rb") as file:
            self[place] = Entry(file.read(), None, os.access(source, os.X_OK))

    def add_link(self, place: str, target: str) -> None:
        """Adds a link. Its target is told from the link's own folder, so the whole can be moved."""
        self[place] = Entry(b"", target)

    def below(self, folder: str) -> Tree:
        """The same entries in a folder."""
        return Tree({f"{folder}/{place}": entry for place, entry in self.items()})

    def write(self, folder: str, epoch: int | None = None) -> None:
        """Writes all of it below a folder of the disk. What was at a place is replaced."""
        for place, entry in sorted(self.items()):
            path = f"{folder}/{place}"
            os.makedirs(os.path.dirname(path), exist_ok=True)
            if os.path.lexists(path):
                os.remove(path)
            if entry.link:
                os.symlink(entry.link, path)
                continue
            with open(path, "wb") as out:
                out.write(entry.data)
            os.chmod(path, 0o755 if entry.is_program else 0o644)
        if epoch is not None:
            set_times(folder, epoch)

    def tar(self, path: str, epoch: int) -> None:
        """Writes it as a compressed tar file, whose bytes follow from its entries and the second alone."""
        # (the header of a compressed file would have its name and a time of its own)
        with open(path, "wb") as raw, gzip.GzipFile("", "wb", 9, raw, mtime=epoch) as packed:
            with tarfile.open(fileobj=packed, mode="w", format=tarfile.GNU_FORMAT) as out:
                for place, entry in sorted(self.items()):
                    out.addfile(_member(place, entry, epoch), io.BytesIO(entry.data))


def _member(place: str, entry: Entry, epoch: int) -> tarfile.TarInfo:
    """The header of one entry."""
    member = tarfile.TarInfo(place)
    member.mtime, member.uname, member.gname = epoch, "root", "root"
    member.mode = 0o755 if entry.is_program else 0o644
    if entry.link:
        member.type, member.linkname, member.mode = tarfile.SYMTYPE, entry.link, 0o777
    else:
        member.size = len(entry.data)
    return member


def set_times(folder: str, epoch: int) -> None:
    """Gives every file and folder the same second."""
    for at, folders, names in os.walk(folder):
        for it in (*folders, *names):
            os.utime(f"{at}/{it}", (epoch, epoch), follow_symlinks=False)
    os.utime(folder, (epoch, epoch))
