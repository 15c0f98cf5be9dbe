"""The wheel for Python: the module with the library beside it, and both programs as commands."""
from __future__ import annotations

import base64
import hashlib
import os
import time
import zipfile

from . import layout
from .built import PROGRAMS, Built
from .identity import Identity
from .proof import highest
from .tree import Entry, Tree

METADATA = """Metadata-Version: 2.1
Name: rusboqan
Version: {version}
Summary: A verified airport taxi router: its engine in your own process, and its programs
License: MIT OR Apache-2.0
Requires-Python: >=3.9
Classifier: Operating System :: POSIX :: Linux
Classifier: Programming Language :: Python :: 3
Classifier: Typing :: Typed
Description-Content-Type: text/markdown

`from rusboqan import Engine` opens an engine over an airport file. The commands `taxi` and `taxi-tools` are installed too; both tell
their forms with `--help`. `rusboqan/SOURCES.txt` says what this package is made of.

{claim}
"""
WHEEL = "Wheel-Version: 1.0\nGenerator: rusboqan\nRoot-Is-Purelib: false\nTag: {tag}\n"
# The commands that pip makes call these, and they become the programs at once.
COMMANDS = '''"""The commands `taxi` and `taxi-tools`: each becomes the program that lies beside this file."""

import os
import sys
from pathlib import Path


def run(name: str) -> None:
    """Becomes the launcher of a program. Returns only by an exit."""
    try:
        os.execv(Path(__file__).with_name(name), [name, *sys.argv[1:]])
    except OSError as error:
        print(f"{name}: cannot be run ({error.strerror})", file=sys.stderr)
        sys.exit(70)


def taxi() -> None:
    """The command `taxi`."""
    run("taxi")


def taxi_tools() -> None:
    """The command `taxi-tools`."""
    run("taxi-tools")
'''
# What of the launchers' folder they need beside the programs.
LAUNCHED = (*PROGRAMS, "libexec/", "tools/launch", "tools/refused/forms.ere", "CHANGELOG.md")


def tag(built: Built) -> str:
    """Which systems the wheel is for, by the C library that the programs need."""
    major, minor = highest(built)
    return f"py3-none-manylinux_{major}_{minor}_x86_64"


def wheel_tree(identity: Identity, built: Built, sources: str) -> Tree:
    """The files of the wheel, but for the list of them."""
    tree, about = Tree(), f"rusboqan-{identity.version}.dist-info"
    layout.add_sources(tree, identity, "python/rusboqan", "rusboqan")
    tree.add_file("rusboqan/librusboqan.so", built.path("librusboqan.so"))
    tree["rusboqan/librusboqan.so"] = tree["rusboqan/librusboqan.so"].as_data()
    programs = layout.home(identity, built)
    kept = Tree({place: it for place, it in programs.items() if place.startswith(LAUNCHED)})
    tree.update(kept.below("rusboqan/programs"))
    tree.add("rusboqan/programs/__init__.py", COMMANDS)
    tree.add("rusboqan/SOURCES.txt", sources)
    for name in ("LICENSE-APACHE", "LICENSE-MIT"):
        tree.add_file(f"{about}/{name}", f"{identity.top}/{name}")
    tree.add(f"{about}/METADATA", METADATA.format(version=identity.version, claim=built.claim))
    tree.add(f"{about}/WHEEL", WHEEL.format(tag=tag(built)))
    tree.add(f"{about}/entry_points.txt", "[console_scripts]\ntaxi = rusboqan.programs:taxi\ntaxi-tools = rusboqan.programs:taxi_tools\n")
    return tree


def record_of(tree: Tree, name: str) -> str:
    """The list of the wheel's files with their checksums, itself without one."""
    lines = []
    for place, entry in sorted(tree.items()):
        digest = base64.urlsafe_b64encode(hashlib.sha256(entry.data).digest()).rstrip(b"=").decode()
        lines.append(f"{place},sha256={digest},{len(entry.data)}\n")
    return "".join(lines) + f"{name},,\n"


def member_of(place: str, entry: Entry, epoch: int) -> zipfile.ZipInfo:
    """The header of a file. A zip file tells even seconds alone."""
    member = zipfile.ZipInfo(place, time.gmtime(epoch)[:6])
    member.external_attr = (0o100755 if entry.is_program else 0o100644) << 16
    member.compress_type = zipfile.ZIP_DEFLATED
    return member


def write_wheel(identity: Identity, built: Built, sources: str, out: str) -> str:
    """Writes the wheel into a folder; gives its name."""
    name = f"rusboqan-{identity.version}-{tag(built)}.whl"
    tree, record = wheel_tree(identity, built, sources), f"rusboqan-{identity.version}.dist-info/RECORD"
    tree.add(record, record_of(tree, record))
    with zipfile.ZipFile(os.path.join(out, name), "w") as file:
        for place, entry in sorted(tree.items(), key=lambda it: (".dist-info/" in it[0], it[0])):
            file.writestr(member_of(place, entry, identity.epoch), entry.data)
    return name
