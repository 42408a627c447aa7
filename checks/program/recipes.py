"""Functions with which checks/program/cluster calls the recipes in cluster/ and checks them."""

from __future__ import annotations

import re
import shutil
import subprocess
from pathlib import Path

from checks.lib.commands import Ended, read_files, run, with_variables
from checks.lib.count import Count
from checks.lib.program import CENSUS, LAUNCHER, TOP

WORKER = re.compile(rb" worker=[0-9]+ ")
# The first lines of a script that a recipe calls in place of the program. Before a recipe takes a
# part, it calls the program with `--count 0` to check the arguments. The script accepts them.
STUB = '#!/bin/sh\ncase "$*" in *"--count 0"*) exit 0 ;; esac\n'


class Recipes:
    """The recipes, and the folder in which the checks make files."""

    def __init__(self, room: Path, count: Count) -> None:
        self.room, self.count = room, count

    def call(
        self, recipe: str, *words: str | Path, cwd: Path = TOP, census: str | Path = LAUNCHER
    ) -> Ended:
        """Calls a recipe, which calls the program `census`."""
        return self.call_with(recipe, *words, cwd=cwd, CENSUS=str(census))

    def call_with(self, recipe: str, *words: str | Path, cwd: Path = TOP, **changes: str) -> Ended:
        variables = {"CENSUS": LAUNCHER} | changes
        return run([TOP / "cluster" / recipe, *words], cwd=cwd, env=with_variables(**variables))

    def call_on_full_device(self, recipe: str, *words: str | Path) -> Ended:
        """Calls a recipe whose standard output is a full device."""
        shell = ["sh", "-c", 'exec "$0" "$@" > /dev/full']
        environment = with_variables(CENSUS=LAUNCHER)
        return run([*shell, TOP / "cluster" / recipe, *words], cwd=TOP, env=environment)

    def begin(
        self, recipe: str, *words: str | Path, census: str | Path = LAUNCHER
    ) -> subprocess.Popen[bytes]:
        """Starts a recipe, and discards what it prints."""
        return subprocess.Popen(
            [TOP / "cluster" / recipe, *words],
            cwd=TOP,
            env=with_variables(CENSUS=str(census)),
            stdin=subprocess.DEVNULL,
            stdout=subprocess.DEVNULL,
            stderr=subprocess.DEVNULL,
        )

    # ---- Checks

    def well(self, name: str, ended: Ended) -> None:
        """Counts a check that a call ended with status 0."""
        self.count.check(name, ended.fault())

    def refuses(self, name: str, out: Path, recipe: str, *words: str | Path) -> None:
        """Counts checks that a call fails, with one line that names the recipe, and leaves the
        folder as it was."""
        before = read_files(out)
        said = self.call(recipe, *words)
        self.count.holds(f"{name}: refused", said.status != 0, said)
        lines = said.error_lines()
        is_told = len(lines) == 1 and lines[0].startswith(f"{recipe}: ")
        self.count.holds(f"{name}: with one line", is_told, said)
        is_unchanged = read_files(out) == before and not said.output
        self.count.holds(f"{name}: nothing is written", is_unchanged, said)


# ---- The program, and the contents of folders


def census(*words: str) -> bytes:
    """Returns what the program prints."""
    return run([CENSUS, *words]).output


def work(*words: str) -> bytes:
    """Returns the report lines of `work` with worker 1."""
    return census("work", "--worker=1", *words)


def as_of_one_worker(lines: bytes) -> bytes:
    return WORKER.sub(b" worker=1 ", lines)


def read_lines(folder: Path) -> bytes:
    """Returns the lines of all parts in a folder, in the order of the parts, as if worker 1 had
    written them all."""
    parts = sorted(folder.rglob("*.lines"), key=lambda path: int(path.stem))
    return as_of_one_worker(b"".join(part.read_bytes() for part in parts))


def list_names(folder: Path, pattern: str = "*") -> list[str]:
    return sorted(path.name for path in folder.glob(pattern))


def has_slurm() -> bool:
    return bool(shutil.which("sbatch")) and run(["sinfo"]).status == 0
