"""Searches the code for calls that may take memory. If a number says how much memory a call
requests, the call must be in the table of allocations.md.

The calls that may allocate are read from the toolchain's sources, and each of them that the code
uses must be known to this module.
"""

from __future__ import annotations

import re
import shutil
import sys
from collections import Counter
from collections.abc import Iterable, Iterator
from pathlib import Path

from checks.lib.count import Count
from checks.lib.program import TOP
from checks.lib.rust import Token
from checks.repository.product_code import OPEN, Code, File

LIST = TOP / "checks" / "repository" / "allocations.md"

# Names of calls that may take memory, and whether a number says how much memory such a call
# requests. Each such call in the code must be here. A function of the repository may have the same
# name.
KNOWN = {
    "with_capacity": True,
    "reserve": True,
    "ruled": True,
    "vec": True,
    "collect": True,
    "extend": True,
    "repeat": True,
    "resize": True,
    "resize_with": True,
    "try_reserve": True,
    "reserve_exact": True,
    "try_reserve_exact": True,
    "from_elem": True,
    "extend_from_slice": False,
    "from_array": False,
    "from_slice": False,
    "from_str": False,
    "to_string": False,
    "format": False,
    "insert": False,
    "push": False,
    "push_str": False,
    "new": False,
    "of_words": False,
    "sort_by_key": False,
    "sort_unstable": False,
    "spawn_with": False,
    "now": False,
    "elapsed": False,
    "parse": False,
    "output": False,
    "error": False,
    "arg": False,
    "args": False,
    "help": False,
    "subcommand": False,
    "free": False,
    "text_of": False,
    "with_rule": False,
    "read": False,
    "read_to_end": False,
    "write": False,
    "flush": False,
    "print": False,
    "println": False,
    "from": False,
    "copy": False,
    "pop": False,
    "take": False,
    "open": False,
    "show": False,
    "run": False,
    "blank": False,
    "status": False,
    "split": False,
    "start": False,
    "shift": False,
    "of": False,
    "next": False,
    "next_line": False,
    "make_room": False,
    "lay": False,
    "join": False,
    "cut": False,
}
# The libraries that a crate can use without naming them in crates.txt.
STANDARD = ("core", "std", "std_alloc", "std_collections", "std_heap", "std_io", "io")
TAKES = re.compile(
    r"AllocError|AllocFailed|TryReserveError|SpawnError|io::Result|io::Error|\balloc: "
)
FUNCTION = re.compile(r"\bfn (\w+)([^{;]*)")


def libraries() -> set[str]:
    """Returns the names of the toolchain's libraries that the crates use."""
    named = set(STANDARD)
    for line in (TOP / "crates.txt").read_text().splitlines():
        if not line.startswith("#") and ":" in line:
            named |= set(line.partition(":")[2].split())
    return {name for name in named if not (TOP / "crates" / name).is_dir()}


def memory_takers() -> set[str]:
    """Returns the names of the libraries' functions that may allocate memory, according to their
    results and arguments.
    """
    rt = shutil.which("rt")
    if not rt:
        sys.exit(
            "errors: there is no command rt on the PATH, beside which the libraries' sources are"
        )
    kit = Path(rt).resolve().parent.parent / "rattle"
    takers = {"vec", "collect", "repeat", "from_elem"}
    for library in sorted(libraries()):
        for path in (kit / library / "src").glob("**/*.rt"):
            source = re.sub(r"//[^\n]*", "", path.read_text())
            takers |= {name for name, more in FUNCTION.findall(source) if TAKES.search(more)}
    return takers


def calls_in(code: Code, own: set[str]) -> Iterator[Token]:
    """Yields the names of called functions and macros. The repository's own functions are left out
    if they aren't called on a type or a value.
    """
    for place, token in enumerate(code[:-1]):
        if re.fullmatch(r"[^\W\d]\w*", token) and code[place - 1] != "fn":
            if token in own and code[place - 1] not in (".", "::"):
                continue
            if (
                code[place + 1] == "("
                or code[place + 1 : place + 3] == ["::", "<"]
                or (code[place + 1] == "!" and code[place + 2] in OPEN)
            ):
                yield token


def defined_in(codes: Iterable[Code]) -> set[str]:
    """Returns the names of the repository's own functions."""
    return {after for code in codes for token, after in zip(code, code[1:]) if token == "fn"}


def listed() -> Counter[tuple[str, str]]:
    """Returns the file and the line of code of each row of the list. Each row must have a bound."""
    rows: Counter[tuple[str, str]] = Counter()
    for line in LIST.read_text().splitlines():
        cells = [cell.strip().replace(r"\|", "|") for cell in re.split(r"(?<!\\)\|", line)[1:-1]]
        if len(cells) == 3 and cells[1].startswith("`"):
            if not cells[2]:
                sys.exit(f"errors: no bound is given for {cells[1]} of {cells[0]}")
            rows[cells[0], cells[1].strip("`").strip()] += 1
    return rows


# A file, and one of its lines in which a number says how much memory is requested.
Row = tuple[str, str]


def look_for_calls(file: File, own: set[str], takers: set[str], asked: Counter[Row]) -> list[str]:
    """Returns the calls of a file that may take memory and aren't known here. Counts, in `asked`,
    the lines of the file in which a number says how much memory is requested.
    """
    faults = []
    for token in calls_in(file.code, own):
        if token in takers and token not in KNOWN:
            faults.append(
                f"{file.name}:{token.line + 1}: `{token}` may take memory, and isn't known here"
            )
        if KNOWN.get(token):
            asked[file.name, file.lines[token.line].strip()] += 1
    return faults


def compare_list(asked: Counter[Row], known: Counter[Row], count: Count) -> None:
    """Compares checks/repository/allocations.md with the lines of the code in which a number says
    how much memory is requested.
    """
    for file, line in sorted((asked - known).elements()):
        count.check(
            "not in checks/repository/allocations.md",
            "| {} | `{}` | |".format(file, line.replace("|", r"\|")),
        )
    for file, line in sorted((known - asked).elements()):
        count.check("in checks/repository/allocations.md, and not in the code", f"{file}: {line}")
    for file, line in (asked & known).elements():
        count.check(f"{file}: {line}")


def compare_calls(files: Iterable[File], count: Count) -> None:
    """Compares the calls of all files with allocations.md."""
    takers, asked = memory_takers(), Counter[Row]()
    # Each call that is `True` in `KNOWN` belongs to the libraries. If `memory_takers` misses one,
    # it may miss others, too.
    count.check(
        "calls that may take memory",
        ", ".join(
            sorted(name for name, by_number in KNOWN.items() if by_number and name not in takers)
        ),
    )
    files = list(files)
    own = defined_in(file.code for file in files)
    for file in files:
        count.check(f"{file.name}: calls", "\n".join(look_for_calls(file, own, takers, asked)))
    compare_list(asked, listed(), count)
