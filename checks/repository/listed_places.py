"""Searches the code for places that no contract judges, and compares them with the tables of
places.md.

A contract says what a call returns, but not that it ends soon, that it leaks nothing, or that a
sleeping thread is woken. So these places are listed, each with a reason: loops that may not end and
numbers of 2^32 or more, which could be the bound of a loop; the code that makes a witness of a
failure, such as an `OutOfMemory`; the steps on memory that threads share, in the order of the
source; the fields that a hand-written `drop` doesn't drop; and the lines of `main`.
"""

from __future__ import annotations

import re
from collections import Counter, defaultdict
from collections.abc import Iterable, Iterator
from typing import NamedTuple

from checks.lib.count import Count
from checks.lib.program import TOP
from checks.lib.rust import Token
from checks.repository.product_code import Code, File, closing

LIST = TOP / "checks" / "repository" / "places.md"

# The headings of the tables.
LOOPS = "Loops that may not end, and large numbers"
WITNESSES = "Failures"
STEPS = "Steps of threads"
DROPS = "Fields that a written `drop` leaves"
MAIN = "The lines of `main`"
HEADINGS = [LOOPS, WITNESSES, STEPS, DROPS, MAIN]

# The smallest number that counts as large.
LARGE = 2**32


class Place(NamedTuple):
    heading: str
    file: str
    line: str


# ---- Loops


def value_of(token: str) -> int | None:
    """Returns the value of a literal, or `None` if the token isn't a number."""
    found = re.fullmatch(
        r"(0x[0-9a-fA-F_]+|0o[0-7_]+|0b[01_]+|[0-9][0-9_]*?)_?([iu](8|16|32|64|128|size))?", token
    )
    return int(found[1].replace("_", ""), 0) if found else None


def is_large(code: Code, place: int) -> bool:
    """Checks whether the token at `place` begins a number of 2^32 or more, or is the `MAX` or the
    `BITS` of a type of more than 16 bits."""
    if code[place] in ("MAX", "BITS") and code[place - 1] == "::":
        return code[place - 2] not in ("u8", "i8", "u16", "i16")
    value = value_of(code[place])
    if value is None:
        return False
    if code[place + 1 : place + 3] == ["<", "<"]:
        value <<= min(value_of(code[place + 3]) or 0, 127)
    return value >= LARGE


def loops_in(file: File) -> Iterator[Token]:
    for place, token in enumerate(file.code):
        if token == "forever" and file.code[place + 1] == "(" or is_large(file.code, place):
            yield token


# ---- Failures

MADE = {"WriteError", "ReadError", "OutOfMemory"}
# The files that define these types. There, `Self` can stand for such a type.
WITNESS_FILES = ("plane_core/output.rt", "pattern_commands/read_error.rt", "memory/lib.rt")


def witnesses_in(file: File) -> Iterator[Token]:
    """Yields the tokens at which a witness is made: its fields are given, or a call returns it."""
    for place, token in enumerate(file.code):
        before, after = file.code[max(place - 2, 0) : place], file.code[place + 1 : place + 3]
        is_witness = token in MADE or token == "Self" and file.name in WITNESS_FILES
        if is_witness and after[:1] == ["{"]:
            if before != ["-", ">"] and before[-1:] not in (["struct"], ["impl"], ["for"]):
                yield token
        elif token in MADE and after[:1] == ["::"] or token == "no_room" and before[-1:] != ["fn"]:
            yield token


# ---- Threads

# The calls in the crate `handover` that are steps on shared memory, that wait, or that wake a
# thread.
CALLS = {
    "load",
    "store",
    "swap",
    "fetch_add",
    "fetch_sub",
    "compare_exchange",
    "park",
    "park_timeout",
    "wake_one",
    "wake_all",
    "count",
    "notify",
    "notify_sometimes",
    "sleep_while",
    "sleep_briefly_while",
    "put",
    "try_present",
    "try_receive",
}


def steps_in(file: File) -> Iterator[Token]:
    code = file.code
    for place, token in enumerate(code):
        is_call = code[place - 1] == "." and code[place + 1 : place + 2] == ["("]
        if token == "SeqCst" or file.name.startswith("handover/") and is_call and token in CALLS:
            yield token


def orderings_in(file: File) -> Iterator[tuple[Token, str]]:
    """Yields the orderings of atomic steps that aren't `SeqCst`."""
    for place, token in enumerate(file.code):
        if token in ("Relaxed", "Acquire", "Release", "AcqRel"):
            yield token, f"`{token}`: each step is `SeqCst`"


# ---- Leaks

LEAKS = {"forget", "ManuallyDrop", "MaybeUninit", "leak", "into_raw"}


def leaks_in(file: File) -> Iterator[tuple[Token, str]]:
    """Yields the tokens at which a value could leak, each with the reason."""
    for token in file.code:
        if token in LEAKS:
            yield token, f"`{token}` leaks"
    for place, body in written_drops(file.code):
        why = fault_of_drop(body)
        if why:
            yield file.code[place], why


def written_drops(code: Code) -> Iterator[tuple[int, Code]]:
    """Yields the place of each `impl` of `Drop`, and the body of its `drop`."""
    for place, token in enumerate(code):
        if token == "Drop" and code[place + 1] == "for":
            start = code.index(Token("{"), place)
            inner = code[start + 1 : closing(code, start)]
            begin = inner.index(Token("{"))
            yield place, inner[begin + 1 : closing(inner, begin)]


def fields_of_drop(body: Code) -> list[list[Token]] | None:
    """Returns the parts of the `let` pattern with which a `drop` destructures `self`, or `None` if
    the body doesn't begin with such a `let`.
    """
    if body[:1] != ["let"] or "{" not in body or body[:3][2:] != ["{"]:
        return None
    end = closing(body, 2)
    if body[end + 1 : end + 4] != ["=", "self", ";"]:
        return None
    parts: list[list[Token]] = [[]]
    for token in body[3:end]:
        if token == ",":
            parts.append([])
        else:
            parts[-1].append(token)
    return [part for part in parts if part]


def fault_of_drop(body: Code) -> str:
    """Returns what is wrong with the body of a hand-written `drop`, or an empty text. The body must
    destructure `self`, and then drop each field that the pattern binds, once and in order.
    """
    fields = fields_of_drop(body)
    if fields is None or any(len(field) != 1 and field[1:] != [":", "_"] for field in fields):
        return "a written `drop` that doesn't name all fields"
    named = [field[0] for field in fields if len(field) == 1]
    wanted = [token for name in named for token in ("drop", "(", name, ")", ";")]
    end = closing(body, 2) + 4
    return "" if body[end:] == wanted else "a written `drop` that doesn't drop all fields, in order"


def left_in(file: File) -> Iterator[Token]:
    """Yields the fields that a hand-written `drop` doesn't drop, because they are plain data."""
    for _, body in written_drops(file.code):
        for field in fields_of_drop(body) or []:
            if len(field) > 1:
                yield field[0]


# ---- main


def lines_of_main(file: File) -> Iterator[Token]:
    """Yields each word in the functions of the program's main file, so that each line with a word
    has to be listed."""
    if file.name == "census/main.rt":
        start = file.code.index(Token("fn"))
        yield from (token for token in file.code[start:] if re.match(r"\w", token))


# ---- Comparing

SEARCHES = {
    LOOPS: loops_in,
    WITNESSES: witnesses_in,
    STEPS: steps_in,
    DROPS: left_in,
    MAIN: lines_of_main,
}


def places_in(file: File) -> Iterator[Place]:
    """Yields the places of a file that must be listed: each line at most once under a heading."""
    for heading, search in SEARCHES.items():
        last = -1
        for token in search(file):
            if token.line != last:
                last = token.line
                yield Place(heading, file.name, file.lines[token.line].strip())


def listed_places() -> Iterator[tuple[Place, str]]:
    """Yields the rows of the tables, each with its reason."""
    heading = ""
    for line in LIST.read_text().splitlines():
        if line.startswith("## "):
            heading = line.removeprefix("## ")
        cells = [cell.strip().replace(r"\|", "|") for cell in re.split(r"(?<!\\)\|", line)[1:-1]]
        if len(cells) == 3 and cells[1].startswith("`"):
            yield Place(heading, cells[0], cells[1].strip("`").strip()), cells[2]


def by_file(places: Iterable[Place]) -> dict[tuple[str, str], list[str]]:
    lines: dict[tuple[str, str], list[str]] = defaultdict(list)
    for place in places:
        lines[place.heading, place.file].append(place.line)
    return lines


def difference(file: str, found: list[str], listed: list[str]) -> str:
    """Returns how the lines found in a file differ from the lines that a table lists, or nothing if
    they are the same in the same order. A line that isn't listed is returned as a row without a
    reason.
    """
    if found == listed:
        return ""
    more, less = Counter(found) - Counter(listed), Counter(listed) - Counter(found)
    if not more and not less:
        return "the lines are in another order"
    rows = ["| {} | `{}` | |".format(file, line.replace("|", r"\|")) for line in more.elements()]
    gone = [f"not in the code: {line}" for line in less.elements()]
    return "\n".join(["it isn't up to date", *rows, *gone])


def compare_places(files: Iterable[File], count: Count) -> None:
    """Compares the places in the files with the rows of places.md. Each row needs a reason."""
    found = by_file(place for file in files for place in places_in(file))
    rows = list(listed_places())
    for place, reason in rows:
        count.check(f"{place.file}: {place.line}", "" if reason else "no reason is given")
    listed = by_file(place for place, _ in rows)
    for key in sorted(found.keys() | listed.keys()):
        heading, file = key
        count.check(
            f"checks/repository/places.md, {heading}, {file}",
            difference(file, found.get(key, []), listed.get(key, [])),
        )
