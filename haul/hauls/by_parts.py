"""Separates the objects of a haul into their parts, and counts the parts instead of the objects."""

from __future__ import annotations

import os
from collections import defaultdict
from collections.abc import Iterable
from concurrent.futures import ThreadPoolExecutor
from contextlib import suppress
from dataclasses import replace
from functools import partial

from haul.census.client import ask_all
from haul.census.forks import work_apart
from haul.formats.haul import MOST_SAMPLES, Haul
from haul.life.generations import read_rule
from haul.life.parts import Separation, Separator
from haul.terminal import Terminal

# The progress line is updated after this many objects.
OBJECTS_BETWEEN_PROGRESS = 500
# If there are at least `MANY_OBJECTS` objects, child processes separate them, in shares of at most
# `OBJECTS_IN_A_SHARE` objects. With fewer objects, this wouldn't save time.
MANY_OBJECTS, OBJECTS_IN_A_SHARE = 6000, 3000


class Objects:
    """The objects of one haul. Each is separated at most once, when it is first needed."""

    def __init__(self, haul: Haul, terminal: Terminal) -> None:
        self.haul = haul
        self.terminal = terminal
        self.separator = Separator(read_rule(haul.job.rule))
        self.known: dict[str, Separation] = {}

    def separate(self, code: str) -> Separation:
        if code not in self.known:
            # apgsearch has already separated its objects.
            self.known[code] = (
                Separation((code,)) if self.haul.apgsearch else self.separator.separate(code)
            )
        return self.known[code]

    def separate_all(self, codes: Iterable[str]) -> dict[str, Separation]:
        """Returns the separations of these objects. Shows progress on a terminal."""
        codes = list(dict.fromkeys(codes))
        left = [code for code in codes if code not in self.known]
        if len(left) >= MANY_OBJECTS and not self.haul.apgsearch:
            self.separate_apart(left)
        else:
            self.separate_here(left)
        self.terminal.show_progress("")
        return {code: self.known[code] for code in codes}

    def separate_here(self, codes: list[str]) -> None:
        for done in range(0, len(codes), OBJECTS_BETWEEN_PROGRESS):
            self.show_progress(done, codes)
            for code in codes[done : done + OBJECTS_BETWEEN_PROGRESS]:
                self.separate(code)

    def separate_apart(self, codes: list[str]) -> None:
        """Separates objects with all processors. Neighbours in the list are often alike and take a
        similar time, so each share has objects from all places of the list."""
        number = -(-len(codes) // OBJECTS_IN_A_SHARE)
        shares = [codes[place::number] for place in range(number)]
        self.show_progress(0, codes)
        with ThreadPoolExecutor(len(os.sched_getaffinity(0))) as pool:
            done = 0
            for share, found in zip(
                shares, ask_all(pool, self.separate_share, shares), strict=True
            ):
                self.known.update(zip(share, found, strict=True))
                done += len(share)
                self.show_progress(done, codes)

    def separate_share(self, codes: list[str]) -> list[Separation]:
        """Separates objects in a child process, or in this process if the child can't be started,
        fails or is killed."""
        with suppress(OSError):
            return work_apart(partial(self.separate_list, codes))
        return self.separate_list(codes)

    def separate_list(self, codes: list[str]) -> list[Separation]:
        return [self.separator.separate(code) for code in codes]

    def show_progress(self, done: int, codes: list[str]) -> None:
        self.terminal.show_progress(f"{done} of {len(codes)} objects separated")

    def by_parts(self) -> Haul:
        """Returns the haul with each object replaced by its parts. The samples of a part are the
        three lowest samples of the objects that have it. A haul of apgsearch is returned
        unchanged."""
        if self.haul.apgsearch:
            return self.haul
        totals: defaultdict[str, int] = defaultdict(int)
        samples: defaultdict[str, set[int]] = defaultdict(set)
        for code, separation in self.separate_all(self.haul.totals).items():
            for part in separation.parts:
                totals[part] += self.haul.totals[code]
                samples[part].update(self.haul.samples[code])
        codes = sorted(totals)
        return replace(
            self.haul,
            totals={code: totals[code] for code in codes},
            samples={code: sorted(samples[code])[:MOST_SAMPLES] for code in codes},
        )
