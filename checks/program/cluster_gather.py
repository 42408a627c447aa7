"""Tests cluster/gather, which gathers each file by itself and joins the hauls. If something is wrong,
it gathers all lines with one call."""

from __future__ import annotations

import re
from pathlib import Path

from checks.lib.commands import Ended, write_script
from checks.lib.program import LAUNCHER
from checks.program.recipes import Recipes, census

SEED = ["--seed", "NAME{}"]
# The number of calls of the program for the four parts of ten soups: one for each part, and one
# that checks the arguments.
CALLS_OF_PARTS = 5
OPTIONS = [
    "--first 1",
    "--workers 3",
    "--nonsense",
    "--count 3",
    "--also x",
    "--first 1099511627776",
    "--also 10+2",
    "--rule b36s23",
    "--stride=7",
    "--progress",
]
COUNTS = ["0", "3", "9", "11", "16777216", "16777217", "x", "+10", ""]
# Other arguments that give the same ten soups.
SETS = ["8 --also 8+2", "0 --also=0+4,4+6", "9 --first=1 --also 0+1"]
# A program that writes its arguments to a file, and then calls another program with them.
NOTES = '#!/bin/sh\necho "$*" >> "%s"\nexec "%s" "$@"\n'
# The beginning of an error line from a tool that `gather` calls, and not from `census`.
OTHER_PROGRAM = re.compile(r"(xargs|awk|sh):")


class Gathered:
    """The lines of ten soups, and calls of `gather` for them."""

    def __init__(self, recipes: Recipes) -> None:
        self.recipes, self.count = recipes, recipes.count
        self.out, self.calls = recipes.room / "gathers", recipes.room / "calls"
        self.notes = write_script(recipes.room / "notes", NOTES % (self.calls, LAUNCHER))
        recipes.call("with-xargs", self.out, "10", "3", *SEED)

    def try_alone(self, name: str, *words: str) -> Ended:
        """Checks that `gather` prints the same and ends with the same status, whether it can join
        hauls or not. In one call it can't, since the program that joins hauls fails. Returns how
        the other call ended."""
        alone = self.recipes.call_with("gather", self.out, *words, HAUL="/bin/false")
        together = self.recipes.call("gather", self.out, *words)
        self.count.equal(f"gather, {name}: the same status", together.status, alone.status)
        self.count.equal(f"gather, {name}: the same haul", together.output, alone.output)
        self.count.equal(f"gather, {name}: the same lines", together.errors, alone.errors)
        others = [line for line in together.error_lines() if OTHER_PROGRAM.match(line)]
        self.count.equal(f"gather, {name}: no line of another program", others, [])
        return together

    def try_calls(self, name: str, wanted: int, *words: str) -> None:
        """Checks how often `gather` calls the program, which shows whether it joins hauls."""
        self.calls.write_text("")
        self.recipes.call("gather", self.out, *words, census=self.notes)
        calls = self.calls.read_text().count("\n")
        self.count.equal(f"gather, {name}: calls of the program", calls, wanted)


def try_gather(recipes: Recipes) -> None:
    gathered = Gathered(recipes)
    count, out = recipes.count, gathered.out
    told = gathered.try_alone("right lines", "10", *SEED)
    haul = census("take", "--count=10", *SEED)
    count.equal("gather, right lines: it is the haul", told.output, haul)
    gathered.try_calls("right lines", CALLS_OF_PARTS, "10", *SEED)
    (out / "3.lines").rename(out / "3.part")
    what = "a complete part that isn't renamed"
    gathered.try_calls(what, CALLS_OF_PARTS, "10", *SEED)
    (out / "7.part").touch()
    gathered.try_calls("an empty part", CALLS_OF_PARTS, "10", *SEED)
    lines = (out / "2.lines").read_bytes()
    (out / "2.lines").write_bytes(lines.removesuffix(b"\n"))
    gathered.try_calls("no line feed at the end", CALLS_OF_PARTS, "10", *SEED)
    gathered.try_alone("no line feed at the end", "10", *SEED)
    try_options(gathered)
    try_full_device(recipes, out)
    try_wrong_lines(gathered)


def try_options(gathered: Gathered) -> None:
    for options in OPTIONS:
        gathered.try_alone(options, "10", *SEED, *options.split())
    for number in COUNTS:
        gathered.try_alone(f"COUNT '{number}'", number, *SEED)
    for words in SETS:
        gathered.try_alone(words, *words.split(), *SEED)
        gathered.try_calls(words, CALLS_OF_PARTS, *words.split(), *SEED)


def try_full_device(recipes: Recipes, out: Path) -> None:
    told = recipes.call_on_full_device("gather", out, "10", *SEED)
    recipes.count.equal("gather, a full device: the status", told.status, 5)
    line = b"census: write failed\n"
    recipes.count.equal("gather, a full device: the line", told.errors, line)


def try_wrong_lines(gathered: Gathered) -> None:
    """Checks lines that are wrong, missing, repeated or damaged, and a single file or none."""
    out = gathered.out
    file = out / "1.lines"
    lines = file.read_bytes().splitlines(True)
    lines[0] = re.sub(rb" at=[0-9]* ", b" at=0 ", lines[0])
    file.write_bytes(b"".join(lines))
    gathered.try_alone("a wrong line", "10", *SEED)
    file.write_bytes(b"".join(lines[1:]))
    gathered.try_alone("a missing line", "10", *SEED)
    (out / "9.lines").write_bytes((out / "0.lines").read_bytes())
    gathered.try_alone("lines that come twice", "10", *SEED)
    with (out / "0.lines").open("ab") as stream:
        stream.write(b"x\n")
    gathered.try_alone("a bad line", "10", *SEED)
    for path in [*out.glob("*.lines"), out / "7.part"]:
        path.unlink()
    gathered.try_alone("one file", "10", *SEED)
    gathered.try_calls("one file", 1, "10", *SEED)
    (out / "3.part").unlink()
    gathered.try_alone("no file", "10", *SEED)
