"""The program under test.

`LAUNCHER` is the command that starts the program, and `CENSUS` is the program's file. If the
environment variable CENSUS names another program, both are that program.
"""

from __future__ import annotations

import os
import subprocess
from pathlib import Path

from checks.lib.count import Count

TOP = Path(__file__).resolve().parents[2]
OTHER = os.environ.get("CENSUS", "")
LAUNCHER = os.path.realpath(OTHER or TOP / "bin" / "census")
CENSUS = os.path.realpath(OTHER or TOP / "crates" / "census" / "out" / "census")
PROCESSORS = len(os.sched_getaffinity(0))


def need_program() -> None:
    """Builds the program if it isn't built. Ends the check if the program doesn't run."""
    if subprocess.run([LAUNCHER, "run", "0"], input=b"", check=False).returncode != 0:
        count = Count()
        count.check("the program", "it could not be built, or doesn't run")
        count.end()
