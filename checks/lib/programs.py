"""The programs for both levels of processors, which more than one check needs."""

from __future__ import annotations

import fcntl
import os
import subprocess
import sys
from pathlib import Path

from checks.lib.program import TOP

# The folder of the programs, which git ignores.
PROGRAMS = TOP / "crates" / "census" / "out" / "programs"
# The path of the file with the output of `rt ci`, or empty if there is none. With this file, the
# programs are built from the libraries that `rt ci` has proved.
CI_LOG = os.environ.get("CI_LOG", "")


def find_programs() -> Path | None:
    """Returns the folder with the programs, or `None` if they can't be built.

    The first check that needs the programs builds them with bin/programs, from what `rt ci` has
    proved. If there is no `CI_LOG`, or if this fails, bin/programs builds them from what is kept,
    and proves the rest.
    """
    PROGRAMS.parent.mkdir(parents=True, exist_ok=True)
    with PROGRAMS.with_name("programs.lock").open("w") as lock:
        fcntl.flock(lock, fcntl.LOCK_EX)
        if call_programs("--look", str(PROGRAMS), stderr=subprocess.DEVNULL):
            return PROGRAMS
        return PROGRAMS if build_programs(PROGRAMS) else None


def build_programs(folder: Path, *options: str) -> bool:
    """Builds the programs, with further options of bin/programs. Returns whether that succeeds."""
    if CI_LOG and call_programs(*options, "--of-ci", CI_LOG, str(folder)):
        return True
    return call_programs(*options, str(folder))


def call_programs(*words: str, stderr: int | None = None) -> bool:
    """Calls bin/programs, whose output goes to standard error. Returns whether it succeeds."""
    call = [str(TOP / "bin" / "programs"), *words]
    ended = subprocess.run(
        call, stdin=subprocess.DEVNULL, stdout=sys.stderr, stderr=stderr, check=False
    )
    return ended.returncode == 0
