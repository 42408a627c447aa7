"""Finds the census program: the one installed beside `haul`, or the one in the checkout that `haul`
runs from."""

from __future__ import annotations

import os
import subprocess
import sys
from pathlib import Path

from haul.census.children import NoCensus, start_child

# A release has several census programs, each for a level of x86-64 processors. This shell script
# prints the path of the program that fits this processor.
SHELL = ["/bin/sh", "-c"]
CHOOSES = 'libexec=$1; . "$libexec/processor.sh"; printf %s "$program"'


def find_beside() -> str | None:
    """Returns the path of the census program that is installed beside `haul`, or of the one in the
    same checkout, which bin/census builds if necessary. Returns `None` if there is neither."""
    starter = Path(sys.argv[0]).resolve().parent / "census"
    if not os.access(starter, os.X_OK):
        return None
    top = starter.parent.parent
    # If possible, the result is the program itself and not the script `census` that starts it,
    # since there may be thousands of calls.
    if (top / "libexec" / "gokzerd" / "processor.sh").is_file():
        return choose_for_processor(starter, top / "libexec" / "gokzerd")
    if not (starter.parent / "built.bash").is_file():
        return str(starter)
    # bin/census builds the program if necessary.
    with start_child([str(starter), "--version"], subprocess.DEVNULL, None) as launcher:
        launcher.wait()
    if launcher.returncode != 0:
        raise NoCensus.at(str(starter))
    return str(top / "crates" / "census" / "out" / "census")


def choose_for_processor(starter: Path, libexec: Path) -> str:
    """Returns the path of the program that a release has for this processor."""
    with start_child([*SHELL, CHOOSES, "sh", str(libexec)], subprocess.PIPE, None) as shell:
        chosen = shell.communicate()[0]
    if shell.returncode != 0:
        raise NoCensus.at(str(starter))
    return os.fsdecode(chosen)
