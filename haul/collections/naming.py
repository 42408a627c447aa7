"""Finds the codes of patterns with names, by `census name`."""

from __future__ import annotations

import re
from collections.abc import Callable, Iterable, Iterator
from concurrent.futures import ThreadPoolExecutor
from dataclasses import dataclass, field
from itertools import islice

from haul.census.bounded import BoundedCensus, Bounds, Undecided
from haul.census.client import Census, Ended
from haul.collections.pattern_files import Found, NamedCode, NamedPattern, PassedOver
from haul.names.user_names import Naming
from haul.patterns.rules import LIFE
from haul.plurals import write_count

# How many seconds there are for a pattern, and how many patterns are read ahead for each worker.
SECONDS, AHEAD = 10, 50
ONE_OBJECT = re.compile(rb"settled 0\n([a-z0-9_]+) 1\n")
NOT_ONE = "not one object in its first generation"


@dataclass
class Namings:
    """The names that were found in a collection, by rule, and how many files were passed over."""

    file: str
    report: Callable[[PassedOver], None]
    found: dict[str, list[Naming]] = field(default_factory=dict)
    passed_over: int = 0

    def add(self, rule: str, code: str, name: str) -> None:
        self.found.setdefault(rule, []).append(Naming(code, name, self.file))

    def pass_over(self, one: PassedOver) -> None:
        self.passed_over += 1
        self.report(one)


def find_namings(census: Census, things: Iterable[Found], namings: Namings) -> None:
    """Finds the codes of all patterns. Several calls of `census` run at a time."""
    patterns = find_patterns(things, namings)
    done = 0
    with ThreadPoolExecutor(census.workers) as pool:
        while batch := list(islice(patterns, AHEAD * census.workers)):
            for one, code in zip(batch, pool.map(lambda it: find_code(census, it), batch)):
                if code is None:
                    namings.pass_over(PassedOver(one.name, NOT_ONE))
                else:
                    namings.add(one.rule, code, one.name)
            done += len(batch)
            census.terminal.show_progress(write_count(done, "pattern"))
    census.terminal.show_progress("")


def find_patterns(things: Iterable[Found], namings: Namings) -> Iterator[NamedPattern]:
    """Yields the patterns, and adds everything else to `namings`."""
    for one in things:
        if isinstance(one, NamedPattern):
            yield one
        elif isinstance(one, NamedCode):
            namings.add(LIFE, one.code, one.name)
        else:
            namings.pass_over(one)


def find_code(census: Census, pattern: NamedPattern) -> str | None:
    """Returns the code of a pattern, or `None` if it isn't a single object in its first
    generation."""
    text = "".join(f"{row}\n" for row in pattern.rows).encode("ascii")
    try:
        said = BoundedCensus(census, Bounds(SECONDS)).ask(
            ["name", f"--rule={pattern.rule}", "--limit=0"], text
        )
    except (Ended, Undecided):
        return None
    found = ONE_OBJECT.fullmatch(said)
    return found[1].decode("ascii") if found else None
