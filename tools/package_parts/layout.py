"""Where each file lies: in an unpacked tar, and below the folder of a system such as /usr or a PREFIX."""
from __future__ import annotations

import re
from dataclasses import dataclass

from .built import PROGRAMS, Built
from .identity import Identity
from .tree import Tree

# Scripts that make packages or build, which need the sources, and their tests.
LEFT_OUT = ("tools/tests/", "python/tests/", "tools/package_parts/", "tools/build_program")
COMPLETIONS = {"bash-completion/completions/": ".bash", "zsh/site-functions/_": ".zsh"}
PAGES = {"taxi.1": 1, "taxi-tools.1": 1, "rusboqan.3": 3}
PKG_CONFIG = """prefix={prefix}
libdir=${{prefix}}/{libraries}
includedir=${{prefix}}/include

Name: rusboqan
Description: A verified airport taxi router
Version: {version}
Cflags: -I${{includedir}}
Libs: -L${{libdir}} {run_path}-lrusboqan
"""


@dataclass(frozen=True)
class Place:
    """How the library lies: its folder, and what rusboqan.pc says of its place. A `prefix` that is found from the file can be moved."""

    libraries: str = "lib"
    prefix: str = "${pcfiledir}/../.."
    # A program finds a library beside rusboqan.pc by this, and one of the system without it.
    run_path: str = "-Wl,-rpath,${libdir} "


HERE = Place()
SYSTEM = Place("lib/x86_64-linux-gnu", "/usr", "")


def add_sources(tree: Tree, identity: Identity, folder: str, place: str | None = None) -> None:
    """Adds what git knows below a folder, at a place of its own if one is given."""
    for name in identity.sources:
        if name.startswith(f"{folder}/") and not name.startswith(LEFT_OUT):
            tree.add_file((place or folder) + name[len(folder):], f"{identity.top}/{name}")


def home(identity: Identity, built: Built) -> Tree:
    """The launchers, the programs behind them, and the scripts and examples beside them."""
    tree = Tree()
    for name in PROGRAMS:
        tree.add_file(name, f"{identity.top}/{name}")
        tree.add_file(f"libexec/{name}", built.path(name))
        tree[f"libexec/{name}"] = tree[f"libexec/{name}"].as_program()
    for folder in ("tools", "examples"):
        add_sources(tree, identity, folder)
    tree.add_file("CHANGELOG.md", f"{identity.top}/CHANGELOG.md")
    return tree


def library(identity: Identity, built: Built, place: Place) -> Tree:
    """The library, static and shared, its headers and rusboqan.pc."""
    tree, at, version = Tree(), place.libraries, identity.version
    add_sources(tree, identity, "include")
    tree.add_file(f"{at}/librusboqan.a", built.path("librusboqan.a"))
    tree.add_file(f"{at}/librusboqan.so.{version}", built.path("librusboqan.so"))
    for place_of in (f"{at}/librusboqan.a", f"{at}/librusboqan.so.{version}"):
        tree[place_of] = tree[place_of].as_data()
    tree.add_link(f"{at}/librusboqan.so.{version.split('.')[0]}", f"librusboqan.so.{version}")
    tree.add_link(f"{at}/librusboqan.so", f"librusboqan.so.{version.split('.')[0]}")
    words = {"prefix": place.prefix, "libraries": at, "version": version, "run_path": place.run_path}
    tree.add(f"{at}/pkgconfig/rusboqan.pc", PKG_CONFIG.format(**words))
    return tree


def calls_of(top: str) -> str:
    """The declarations of the header, one a line."""
    with open(f"{top}/include/rusboqan.h", encoding="utf-8") as file:
        text = re.sub(r"/\*.*?\*/", "", file.read(), flags=re.S)
    return "\n".join(re.sub(r"\s+", " ", it) for it in re.findall(r"^\w[\w ]* \**rusboqan_\w+\([^)]*\);", text, re.M))


def helps(identity: Identity) -> Tree:
    """The man pages and the completions of shells."""
    tree, top = Tree(), f"{identity.top}/tools/package_parts/pages"
    words = {"@VERSION@": identity.version, "@DAY@": identity.day, "@CALLS@": calls_of(identity.top)}
    for page, section in PAGES.items():
        with open(f"{top}/{page}", encoding="utf-8") as file:
            text = re.sub(r"@[A-Z]+@", lambda found: words[found[0]], file.read())
        tree.add(f"share/man/man{section}/{page}", text)
    for folder, end in COMPLETIONS.items():
        for name in PROGRAMS:
            tree.add_file(f"share/{folder}{name}", f"{top}/{name}{end}")
    return tree


def of_system(identity: Identity, built: Built, place: Place) -> Tree:
    """Everything as it lies below /usr or a PREFIX."""
    tree = library(identity, built, place)
    tree.update(home(identity, built).below("lib/rusboqan"))
    tree.update(helps(identity))
    for name in PROGRAMS:
        tree.add_link(f"bin/{name}", f"../lib/rusboqan/{name}")
    return tree


def of_tar(identity: Identity, built: Built, sources: str) -> Tree:
    """Everything as it lies in an unpacked tar, which can be moved as a whole."""
    tree = home(identity, built)
    tree.update(library(identity, built, HERE))
    tree.update(helps(identity))
    for folder in ("docs", "python"):
        add_sources(tree, identity, folder)
    for name in ("README.md", "LICENSE-APACHE", "LICENSE-MIT"):
        tree.add_file(name, f"{identity.top}/{name}")
    for name in PROGRAMS:
        tree.add_link(f"bin/{name}", f"../{name}")
    tree.add_link("python/rusboqan/librusboqan.so", "../../lib/librusboqan.so")
    tree.add("SOURCES.txt", sources)
    return tree
