"""The texts that say what a package is made of, and what shows that it is proved."""
from __future__ import annotations

from .built import PROGRAMS, Built
from .gate import logic_number
from .identity import Identity, checksum, sums
from .symbols import glibc_of, libraries_of, logic_of

ELF_FILES = (*PROGRAMS, "librusboqan.so")
SOURCES = """Rusboqan {version}

commit     {commit}
sources    {digest}
           (the SHA-256 of the list of their checksums, which PROOF.txt has)
toolchain  {toolchain}
programs   {origin}

{files}
{needs}
"""
PROVED = """What shows that these programs are proved

{ended}  rt ci passed these sources, and wrote:

{said}

logic      {logic}
           Each program names the logic of its proof: `readelf -p .comment FILE`.

This page is as good as whoever made it. To see for yourself, take the sources of the commit above and the same toolchain.
`sha256sum --check` over the list below compares the sources. `rt ci` at their top proves everything again. `./package OUT`
then makes the packages again. Compare their checksums with SHA256SUMS.
"""
NOT_PROVED = """Nothing here shows that these programs are proved

They were handed to ./package as files. It knows neither what they were built of, nor whether `rt ci` passed it.
"""


def highest(built: Built) -> tuple[int, int]:
    """The version of the C library that the programs and the library need."""
    return max(glibc_of(built.path(name)) for name in ELF_FILES)


def needs(built: Built) -> str:
    """What each program and the library need, a line each."""
    lines = []
    for name in ELF_FILES:
        version = ".".join(map(str, glibc_of(built.path(name))))
        lines.append(f"{name} needs {', '.join(libraries_of(built.path(name)))}; its highest symbol version is GLIBC_{version}")
    return "\n".join(lines)


def sources_text(identity: Identity, built: Built) -> str:
    """SOURCES.txt, which every package holds. It tells no moment, so the same commit and programs give the same bytes."""
    files = {name: checksum(built.path(name)) for name in (*ELF_FILES, "librusboqan.a")}
    words = {"toolchain": built.gate.toolchain if built.gate else "not known", "origin": built.origin, "files": sums(files)}
    return SOURCES.format(version=identity.version, commit=identity.commit, digest=identity.digest, needs=needs(built), **words)


def proof_text(identity: Identity, built: Built) -> str:
    """PROOF.txt, which lies beside the packages."""
    if built.gate:
        said = "\n".join(f"    {line}" for line in built.gate.said)
        told = PROVED.format(ended=built.gate.ended, said=said, logic=logic_number(built.gate.toolchain))
    else:
        told = NOT_PROVED
    marks = "\n".join(f"{name}: .comment has {logic_of(built.path(name))}" for name in PROGRAMS)
    return f"{sources_text(identity, built)}\n{told}\n{marks}\n\nThe SHA-256 of each source:\n\n{sums(identity.sources)}"
