"""What `rt ci` said of these sources: kept in out/rt-ci.json, and asked again only where the sources or what it built have changed."""
from __future__ import annotations

import json
import os
import re
import subprocess
import sys
from dataclasses import asdict, dataclass
from datetime import datetime, timezone

from endings import Stopped

from .identity import Identity, checksum

# The programs as `rt ci` builds them, each by its name.
BUILT = {"taxi": "crates/taxi_cli/out/taxi_cli", "taxi-tools": "crates/taxi_tools/out/taxi_tools"}
NOT_BUILT = 70


@dataclass(frozen=True)
class Gate:
    """One run of `rt ci` that passed."""

    sources: str
    toolchain: str
    ended: str
    said: list[str]
    programs: dict[str, str]


def toolchain() -> str:
    """The toolchain's identity line."""
    try:
        ran = subprocess.run(["rt", "version"], capture_output=True, text=True, check=False)
    except OSError:
        raise Stopped("the toolchain's command rt is not on the PATH", NOT_BUILT) from None
    return ran.stdout.strip()


def logic_number(line: str) -> str:
    """The number of the logic in the toolchain's identity line."""
    found = re.search(r"\blogic (\w+)", line)
    return found[1] if found else "unknown"


def built_now(top: str) -> dict[str, str]:
    """The checksums of the programs that are there."""
    return {name: checksum(f"{top}/{path}") for name, path in BUILT.items() if os.path.exists(f"{top}/{path}")}


def passed_gate(identity: Identity) -> Gate | None:
    """The run that passed these very sources and built these very programs, if one is on record."""
    try:
        with open(f"{identity.top}/out/rt-ci.json", encoding="utf-8") as file:
            gate = Gate(**json.load(file))
    except (OSError, ValueError, TypeError):
        return None
    fits = gate.sources == proved_digest(identity) and gate.toolchain == toolchain()
    return gate if fits and gate.programs == built_now(identity.top) and len(gate.programs) == len(BUILT) else None


def proved_digest(identity: Identity) -> str:
    """One checksum for what `rt ci` reads: a page of docs/ changes nothing that it says."""
    names = ("crates/", "crates.txt", "HANDLES")
    return Identity("", "", "", 0, {name: it for name, it in identity.sources.items() if name.startswith(names)}).digest


def run_gate(identity: Identity) -> Gate:
    """Runs `rt ci`, and keeps what it said where it passed."""
    line = toolchain()
    os.makedirs(f"{identity.top}/out", exist_ok=True)
    log = f"{identity.top}/out/rt-ci.log"
    print("package: rt ci runs, and writes to out/rt-ci.log", file=sys.stderr)
    with open(log, "w", encoding="utf-8") as out:
        status = subprocess.run(["rt", "ci"], cwd=identity.top, stdin=subprocess.DEVNULL, stdout=out, stderr=out, check=False).returncode
    with open(log, encoding="utf-8", errors="replace") as file:
        said = [it.rstrip() for it in file if re.search(r"\d+ passed, \d+ failed|^rt: ok", it)]
    if status or not said:
        raise Stopped(f"rt ci ended with status {status}; the end of out/rt-ci.log says why")
    ended = datetime.now(timezone.utc).isoformat(timespec="seconds")
    gate = Gate(proved_digest(identity), line, ended, said, built_now(identity.top))
    with open(f"{identity.top}/out/rt-ci.json", "w", encoding="utf-8") as out:
        json.dump(asdict(gate), out, indent=1)
    return gate
