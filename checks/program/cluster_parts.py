"""Tests cluster/part, which makes the report lines of one part of a census; cluster/take-part,
which takes the haul of one part; and cluster/take-with-slurm, which takes the hauls of all parts
and joins them.
"""

from __future__ import annotations

import os
import re
import stat
import time
from collections.abc import Callable
from pathlib import Path

from checks.lib.commands import run, write_script
from checks.lib.program import LAUNCHER
from checks.program.recipes import (
    STUB,
    Recipes,
    as_of_one_worker,
    census,
    has_slurm,
    list_names,
    work,
)

# After this time, `wait_until` gives up. Everything that it waits for happens sooner, unless
# something is wrong.
MOST_SECONDS = 60
# A date long past, in seconds since 1970. A file keeps this date if it isn't written again.
OLD = 978_307_200
# The number of checks in `try_slurm`: one for each of four hauls, and three for each of two calls
# that are refused.
CHECKS_WITH_SLURM = 10


def wait_until(is_so: Callable[[], bool]) -> bool:
    """Waits until something has happened. Returns whether it has."""
    end = time.monotonic() + MOST_SECONDS
    while not is_so():
        if time.monotonic() > end:
            return False
        time.sleep(0.02)
    return True


def write_failing(recipes: Recipes) -> Path:
    """Writes a program that fails for each part."""
    return write_script(recipes.room / "fails", f"{STUB}exit 4\n")


# ---- Lines


def try_part(recipes: Recipes) -> None:
    count, out = recipes.count, recipes.room / "part"
    recipes.well("a part", recipes.call("part", out, "7", "3", "2"))
    lines = as_of_one_worker((out / "2.lines").read_bytes())
    count.equal("it has its line", lines, work("--first=6", "--count=1"))
    recipes.refuses("a part past the last", out, "part", out, "7", "3", "3")
    (out / "1.lines").write_bytes((out / "2.lines").read_bytes())
    recipes.refuses("lines of another part", out, "part", out, "7", "3", "1")
    (out / "1.lines").rename(out / "1.part")
    what = "lines of another part that was killed"
    recipes.refuses(what, out, "part", out, "7", "3", "1")
    failed = recipes.call("part", out, "7", "3", "0", census=write_failing(recipes))
    count.equal("a part that fails", failed[:2], (4, b""))
    count.equal("it leaves no empty file", list_names(out), ["1.part", "2.lines", "job"])
    none = recipes.room / "none"
    recipes.refuses("gather, without a folder", none, "gather", none, "7")
    other = recipes.room / "a=b"
    other.mkdir()
    (other / "2.lines").write_bytes((out / "2.lines").read_bytes())
    gathered = recipes.call("gather", other, "1", "--first", "6").output
    wanted = census("take", "--first=6", "--count=1")
    count.equal("gather takes the words that parts can't", gathered, wanted)
    told = recipes.call("gather", "a=b", "7", cwd=recipes.room)
    is_read = "@NUM_SOUPS 1" in told.lines()
    count.holds("gather reads a folder with = in its name", is_read, told)


def try_two_at_once(recipes: Recipes) -> None:
    """Starts a second call for a part while the first one runs. `part` must refuse the second call.
    With `take-part`, both calls must make the haul."""
    count, out = recipes.count, recipes.room / "twice"
    begun, goes_on = recipes.room / "begun", recipes.room / "go"
    waits = f'touch "{begun}"\nuntil [ -e "{goes_on}" ]; do sleep 0.02; done\n'
    waiting = write_script(recipes.room / "waits", f'{STUB}{waits}exec "{LAUNCHER}" "$@"\n')
    part = (out, "3", "3", "0")
    first = recipes.begin("part", *part, census=waiting)
    count.holds("a part begins", wait_until(begun.exists))
    what = "a part that another call is taking"
    recipes.refuses(what, out, "part", *part)
    told = recipes.call("part", *part)
    line = "part: another call is at work on part 0"
    count.equal("a line says which", told.error_lines(), [line])
    first.kill()
    first.wait()
    recipes.refuses("a part whose program goes on", out, "part", *part)
    goes_on.touch()
    is_taken = wait_until(lambda: recipes.call("part", *part).status == 0)
    count.holds("a part after that", is_taken)
    lines = (out / "0.lines").read_bytes()
    count.equal("a part after that: its lines", lines, work("--count=3"))
    count.equal("a part after that: no other file", list_names(out), ["0.lines", "job"])
    goes_on.unlink()
    (out / "0.lines").unlink()
    calls = [recipes.begin("take-part", *part, census=waiting) for _ in range(2)]
    count.holds("two hauls of a part", wait_until(lambda: len(list_names(out, "0.taking.*")) == 2))
    goes_on.touch()
    for number, call in enumerate(calls, 1):
        count.equal(f"two hauls of a part: call {number}", call.wait(), 0)
    haul = (out / "0.haul").read_bytes()
    count.equal("two hauls of a part: the haul", haul, census("take", "--count=3"))
    names = list_names(out)
    count.equal("two hauls of a part: no other file", names, ["0.haul", "job"])
    modes = [stat.S_IMODE((out / name).stat().st_mode) for name in names]
    count.equal("two hauls of a part: others may read it", modes[0], modes[1])


# ---- Hauls


def try_hauls(recipes: Recipes) -> None:
    """Takes the hauls of parts. Each must be what `take` prints for the soups of the part, and a
    complete part must not be taken again. With Slurm, the hauls of all parts are also joined, and
    the census grows."""
    count, out = recipes.count, recipes.room / "hauls"
    recipes.well("hauls: one part", recipes.call("take-part", out, "7", "3", "1"))
    haul = census("take", "--first=3", "--count=3")
    count.equal("hauls: it is its haul", (out / "1.haul").read_bytes(), haul)
    count.equal("hauls: nothing else is there", list_names(out), ["1.haul", "job"])
    recipes.refuses("hauls: a part past the last", out, "take-part", out, "7", "3", "3")
    words = ["7", "3", "0", "--seed", "alpha"]
    recipes.refuses("hauls: other words", out, "take-part", out, *words)
    for seed in ("a>b", "$(x)", "NUMBER", "{}"):
        try_haul_of_seed(recipes, seed)
    crew = recipes.room / "crew"
    taken = recipes.call("take-part", crew, "7", "3", "1", "--workers", "2")
    recipes.well("hauls: workers", taken)
    of_crew = (crew / "1.haul").read_bytes()
    count.equal("hauls: the haul with workers is the same", of_crew, haul)
    try_refused_hauls(recipes, out)
    (failing, again) = (write_failing(recipes), out / "1.haul")
    failed = recipes.call("take-part", out, "7", "3", "0", census=failing)
    count.equal("hauls: a part that fails", failed[:2], (4, b""))
    count.equal("hauls: it leaves no file", list_names(out), ["1.haul", "job"])
    os.utime(again, (OLD, OLD))
    recipes.well("hauls: the part again", recipes.call("take-part", out, "7", "3", "1"))
    count.equal("hauls: it is left alone", again.stat().st_mtime, OLD)
    if has_slurm():
        try_slurm(recipes, out)
    else:
        count.skip("hauls with Slurm", "Slurm isn't installed", CHECKS_WITH_SLURM)


def try_haul_of_seed(recipes: Recipes, seed: str) -> None:
    out = recipes.room / f"a haul {seed}"
    taken = recipes.call("take-part", out, "7", "3", "2", "--seed", seed)
    recipes.well(f"hauls: the seed {seed}", taken)
    haul = census("take", "--first=6", "--count=1", "--seed", seed)
    recipes.count.equal(f"hauls: the haul of {seed}", (out / "2.haul").read_bytes(), haul)


def try_refused_hauls(recipes: Recipes, out: Path) -> None:
    count, none = recipes.count, recipes.room / "none"
    words = ["7", "3", "0", "--worker", "1"]
    what = "hauls: --worker, which is for lines"
    recipes.refuses(what, none, "take-part", none, *words)
    many = recipes.call("take-part", none, "7", "3", "0", "--workers", "17")
    count.equal("hauls: seventeen workers", many[:2], (2, b""))
    count.holds("hauls: the program says so", b"--workers" in many.errors, many)
    count.holds("hauls: no folder is made", not none.exists())


def try_slurm(recipes: Recipes, out: Path) -> None:
    count, none = recipes.count, recipes.room / "none"
    taken = recipes.call("take-with-slurm", out, "7", "3").output
    count.equal("hauls: with Slurm", taken, census("take", "--count=7"))
    taken = recipes.call("take-with-slurm", out, "10", "3").output
    count.equal("hauls: the census grows", taken, census("take", "--count=10"))
    odd = recipes.room / "a haul %a"
    taken = recipes.call("take-with-slurm", odd, "7", "3", "--seed", "$(x)").output
    wanted = census("take", "--count=7", "--seed", "$(x)")
    count.equal("hauls: with Slurm, a seed and a folder", taken, wanted)
    crews = recipes.room / "crews"
    taken = recipes.call("take-with-slurm", crews, "7", "3", "--workers", "2").output
    count.equal("hauls: with Slurm and workers", taken, census("take", "--count=7"))
    # One soup in each part, and one part more than an array may have.
    shown = os.fsdecode(run(["scontrol", "show", "config"]).output)
    found = re.search(r"^MaxArraySize *= *([0-9]+)$", shown, re.MULTILINE)
    total = str(int(found[1]) + 1) if found else ""
    for recipe in ("with-slurm", "take-with-slurm"):
        what = f"{recipe}: an array that is too long"
        recipes.refuses(what, none, recipe, none, total, "1")
