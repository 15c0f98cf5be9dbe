"""The programs and the library of a package: those that are proved here, or those of a folder."""
from __future__ import annotations

import os
import shutil
import subprocess
import sys
from dataclasses import dataclass

from endings import Stopped

from .gate import BUILT, NOT_BUILT, Gate, passed_gate, run_gate, toolchain
from .identity import Identity

# The calls of the library are all that its shared form shows.
SHOWN = "RUSBOQAN_%s {\n  global: rusboqan_*;\n  local: *;\n};\n"
PROGRAMS = ("taxi", "taxi-tools")
ARCHIVE = "crates/taxi_library/out/libtaxi_library.a"
NOT_PASSED = """rt ci has not passed these sources here, or the library is not built: --build does both.
package: That takes an hour and a half from nothing, by estimate, on four processors of 2.5 GHz, and 4.2 GB for the largest proof."""
PROVED = "Every function of the programs is proved correct. PROOF.txt beside the package says what shows that."
UNPROVED = "This package was made of programs given by hand. Nothing shows that they are proved."
NEWER = ("crates.txt", "crates/*/src", "crates/*/specs")


@dataclass(frozen=True)
class Built:
    """A folder with taxi, taxi-tools, librusboqan.a and librusboqan.so, and the run of `rt ci` that passed them, if one did."""

    folder: str
    origin: str
    gate: Gate | None = None

    def path(self, name: str) -> str:
        """Where a file of the folder is."""
        return f"{self.folder}/{name}"

    @property
    def claim(self) -> str:
        """What the description of a package may say of proofs."""
        return PROVED if self.gate else UNPROVED


def call(*words: str, given: str | None = None, more: dict[str, str] | None = None) -> str:
    """What a command of the machine writes, with more variables if need be. Its failure is a problem of one line."""
    try:
        ran = subprocess.run(words, input=given, capture_output=True, text=True, check=False, env={**os.environ, **(more or {})})
    except OSError as error:
        raise Stopped(f"{words[0]} cannot be run ({error.strerror})") from None
    if ran.returncode:
        last = (ran.stderr or ran.stdout).strip().splitlines()
        raise Stopped(f"{words[0]} ended with status {ran.returncode}: {last[-1] if last else 'it says nothing'}")
    return ran.stdout


def share(static: str, shared: str, major: str) -> None:
    """Links the shared form of the library."""
    script = f"{shared}.map"
    with open(script, "w", encoding="ascii") as out:
        out.write(SHOWN % major)
    compiler = os.environ.get("CC", "cc")
    call(compiler, "-shared", "-s", "-o", shared, f"-Wl,-soname,librusboqan.so.{major}", f"-Wl,--version-script={script}",
         "-Wl,--no-undefined,-z,relro,-z,now,-z,noexecstack", "-Wl,--whole-archive", static, "-Wl,--no-whole-archive")
    os.remove(script)


def join_archives(joined: str, parts: list[str]) -> None:
    """One static library of several."""
    call("ar", "-M", given="".join([f"CREATE {joined}\n", *(f"ADDLIB {it}\n" for it in parts), "SAVE\nEND\n"]))
    # The members' times and owners are those of the build; a package has none.
    call("objcopy", "--enable-deterministic-archives", joined)


def of_folder(folder: str, made: str, major: str) -> Built:
    """What a folder holds, with nothing known of it."""
    for name in (*PROGRAMS, "librusboqan.a"):
        if not os.path.isfile(f"{folder}/{name}"):
            raise Stopped(f"{folder}/{name}: there is no such file; the folder of --programs holds taxi, taxi-tools and librusboqan.a")
        shutil.copyfile(f"{folder}/{name}", f"{made}/{name}")
    share(f"{made}/librusboqan.a", f"{made}/librusboqan.so", major)
    return Built(made, "files given by hand: nothing here shows that they were built of these sources, or that they are proved")


def has_newer(top: str, made: str) -> bool:
    """Whether a file isn't there, or a source is newer than it."""
    find = f'cd "$1" && find {" ".join(NEWER)} -newer "$2" -print -quit'
    return not os.path.exists(made) or bool(call("sh", "-c", find, "sh", top, made))


def passed(identity: Identity, made: str, is_asked: bool) -> Built:
    """What `rt ci` passed and built, and the library over it. Builds what is missing only if that is asked for."""
    top, gate = identity.top, passed_gate(identity)
    archive = f"{top}/{ARCHIVE}"
    if not is_asked and (not gate or has_newer(top, archive)):
        raise Stopped(NOT_PASSED, NOT_BUILT)
    gate = gate or run_gate(identity)
    build(top, ["taxi_library"] if has_newer(top, archive) else [])
    collect(identity, made)
    return Built(made, "built of these sources, once rt ci had passed them; PROOF.txt beside the packages says when", gate)


def compiled(identity: Identity, made: str, is_asked: bool) -> Built:
    """What the toolchain built of these sources, which is proved crate by crate. `rt ci` need not have run."""
    files = {os.path.basename(os.path.dirname(os.path.dirname(it))): it for it in (*BUILT.values(), ARCHIVE)}
    missing = [crate for crate, path in files.items() if has_newer(identity.top, f"{identity.top}/{path}")]
    if missing and not is_asked:
        subprocess.run([f"{identity.top}/tools/build_program", *missing], check=False)
        raise Stopped(f"{', '.join(missing)}: not built; add --build to do so", NOT_BUILT)
    build(identity.top, missing)
    collect(identity, made)
    return Built(made, "built of these sources by the toolchain, crate by crate")


def build(top: str, crates: list[str]) -> None:
    """Proves and builds crates."""
    if crates:
        toolchain()
    if crates and subprocess.run([f"{top}/tools/build_program", "--build", *crates], check=False).returncode:
        raise Stopped(f"{', '.join(crates)}: could not be built", NOT_BUILT)


def collect(identity: Identity, made: str) -> None:
    """Copies what is built, joins the library with what it needs of the toolchain, three functions over malloc, and links it."""
    for name, path in BUILT.items():
        shutil.copyfile(f"{identity.top}/{path}", f"{made}/{name}")
    heap = f"{os.path.dirname(call('rt', 'doc').strip())}/c/liblibc_c.a"
    join_archives(f"{made}/librusboqan.a", [f"{identity.top}/{ARCHIVE}", heap])
    share(f"{made}/librusboqan.a", f"{made}/librusboqan.so", identity.version.split(".")[0])
