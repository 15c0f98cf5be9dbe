"""The Debian package, made by `dpkg-deb`."""
from __future__ import annotations

import gzip
import hashlib
import os
import tempfile
import textwrap
from datetime import datetime, timezone
from email.utils import format_datetime

from endings import Stopped

from . import layout
from .built import Built, call
from .identity import Identity
from .proof import ELF_FILES, highest
from .symbols import libraries_of
from .tree import Tree, set_times

# Which package has a library that a program names.
PACKAGES = {"libc.so.6": "libc6", "libm.so.6": "libc6", "libgcc_s.so.1": "libgcc-s1", "ld-linux-x86-64.so.2": "libc6"}
DOC = "usr/share/doc/rusboqan"
CONTROL = """Package: rusboqan
Version: {version}
Architecture: amd64
Maintainer: {maintainer}
Installed-Size: {size}
Depends: {depends}
Section: science
Priority: optional
Multi-Arch: no
Description: verified airport taxi router
 Rusboqan finds routes for aircraft on the ground of an airport. It answers
 commands one by one, each by the best route among the flights in force.
 A checker confirms a transcript without searching.
 .
{claim}
 .
 This package has the programs taxi and taxi-tools, the library for C and
 C++, the Python module rusboqan, and scripts that make pages of a day.
"""
COPYRIGHT = """Format: https://www.debian.org/doc/packaging-manuals/copyright-format/1.0/
Upstream-Name: rusboqan

Files: *
Copyright: {copyright}
License: Expat or Apache-2.0

License: Expat
{mit}

License: Apache-2.0
 On Debian systems the full text of the Apache License, Version 2.0, is in
 /usr/share/common-licenses/Apache-2.0.
"""
CHANGELOG = """rusboqan ({version}) unstable; urgency=medium

  * What changed is told in {doc}/CHANGELOG.md.gz.

 -- {maintainer}  {when}
"""
# The programs and the library are as the toolchain made them, so that their checksums can be compared.
# Python keeps compiled files beside the module. They come and go with the package.
INSTALLED = """#!/bin/sh
set -e
if [ "$1" = configure ] && command -v py3compile >/dev/null; then
  py3compile -p rusboqan
fi
"""
REMOVING = """#!/bin/sh
set -e
if command -v py3clean >/dev/null; then
  py3clean -p rusboqan
fi
"""
OVERRIDES = """# The programs and the library are as the toolchain built them, so that their checksums can be compared.
rusboqan: unstripped-binary-or-object
rusboqan: unstripped-static-library
# One package has all: programs, library, headers and module.
rusboqan: package-name-doesnt-match-sonames
rusboqan: link-to-shared-library-in-wrong-package
"""


def maintainer() -> str:
    """Who made the package, by the variables that Debian's tools read."""
    return f"{os.environ.get('DEBFULLNAME', 'Unknown')} <{os.environ.get('DEBEMAIL', 'unknown@invalid.invalid')}>"


def depends_on(built: Built) -> str:
    """What the package needs, by the libraries that its files name."""
    names = {it for name in ELF_FILES for it in libraries_of(built.path(name))}
    unknown = sorted(names - set(PACKAGES))
    if unknown:
        raise Stopped(f"no Debian package is known that has {', '.join(unknown)}")
    version = ".".join(map(str, highest(built)))
    needs = {f"libc6 (>= {version})" if PACKAGES[it] == "libc6" else PACKAGES[it] for it in names}
    return ", ".join(sorted({*needs, f"libc6 (>= {version})", "python3 (>= 3.9)"}))


def packed(text: bytes, epoch: int) -> bytes:
    """A compressed file with no time of its own."""
    return gzip.compress(text, 9, mtime=epoch)


def documents(identity: Identity, sources: str) -> Tree:
    """The pages, the licences and the changes."""
    tree, pages = Tree(), Tree()
    layout.add_sources(pages, identity, "docs")
    pages.add_file("README.md", f"{identity.top}/README.md")
    tree.update(pages.below(DOC))
    with open(f"{identity.top}/LICENSE-MIT", encoding="utf-8") as file:
        mit = file.read().strip().splitlines()
    holder = next(it for it in mit if it.startswith("Copyright")).removeprefix("Copyright (c)").strip()
    told = textwrap.indent("\n".join(it or "." for it in mit[2:]), " ")
    tree.add(f"{DOC}/copyright", COPYRIGHT.format(copyright=holder, mit=told))
    with open(f"{identity.top}/CHANGELOG.md", "rb") as file:
        tree.add(f"{DOC}/CHANGELOG.md.gz", packed(file.read(), identity.epoch))
    when = format_datetime(datetime.fromtimestamp(identity.epoch, timezone.utc))
    history = CHANGELOG.format(version=identity.version, maintainer=maintainer(), when=when, doc="/" + DOC)
    tree.add(f"{DOC}/changelog.gz", packed(history.encode(), identity.epoch))
    tree.add(f"{DOC}/SOURCES.txt", sources)
    return tree


def debian_tree(identity: Identity, built: Built, sources: str) -> Tree:
    """The files of the package below the root."""
    tree = Tree()
    for place, entry in layout.of_system(identity, built, layout.SYSTEM).below("usr").items():
        if place.startswith("usr/share/man/"):
            tree.add(f"{place}.gz", packed(entry.data, identity.epoch))
        elif place.startswith("usr/share/zsh/"):
            tree[place.replace("site-functions", "vendor-completions")] = entry
        else:
            tree[place] = entry
    layout.add_sources(tree, identity, "python/rusboqan", "usr/lib/python3/dist-packages/rusboqan")
    module = "usr/lib/python3/dist-packages/rusboqan/librusboqan.so"
    tree.add_link(module, f"../../../{layout.SYSTEM.libraries.removeprefix('lib/')}/librusboqan.so.{identity.version.split('.')[0]}")
    tree.update(documents(identity, sources))
    tree.add("usr/share/lintian/overrides/rusboqan", OVERRIDES)
    return tree


def controls(identity: Identity, built: Built, tree: Tree) -> Tree:
    """The files that tell of the package."""
    size = sum(len(it.data) for it in tree.values()) // 1024
    major = identity.version.split(".")[0]
    claim = textwrap.fill(built.claim, 76, initial_indent=" ", subsequent_indent=" ")
    words = {"maintainer": maintainer(), "size": size, "depends": depends_on(built), "version": identity.version, "claim": claim}
    listed = [f"{hashlib.md5(it.data).hexdigest()}  {place}\n" for place, it in sorted(tree.items()) if not it.link]
    told = Tree()
    told.add("DEBIAN/control", CONTROL.format(**words))
    told.add("DEBIAN/md5sums", "".join(listed))
    told.add("DEBIAN/shlibs", f"librusboqan {major} rusboqan (>= {identity.version})\n")
    told.add("DEBIAN/triggers", "activate-noawait ldconfig\n")
    told.add("DEBIAN/postinst", INSTALLED, is_program=True)
    told.add("DEBIAN/prerm", REMOVING, is_program=True)
    return told


def write_debian(identity: Identity, built: Built, sources: str, out: str) -> str:
    """Writes the package into a folder; gives its name."""
    name = f"rusboqan_{identity.version}_amd64.deb"
    tree = debian_tree(identity, built, sources)
    tree.update(controls(identity, built, tree))
    with tempfile.TemporaryDirectory(prefix="rusboqan-deb-") as folder:
        os.chmod(folder, 0o755)
        tree.write(folder, identity.epoch)
        words = ("dpkg-deb", "--root-owner-group", "--threads-max=1", "-Zxz", "--build", folder, os.path.join(out, name))
        call(*words, more={"SOURCE_DATE_EPOCH": str(identity.epoch)})
    return name
