"""The counter with which each check file in Python counts and prints its results."""

from __future__ import annotations

import os
import sys
from collections.abc import Callable, Iterable
from dataclasses import dataclass
from typing import NoReturn

# In CI, `lack` counts a missing package as a failure, so that its checks aren't skipped unnoticed.
IN_CI = os.environ.get("CI") == "true"


@dataclass
class Count:
    """The numbers of checks that passed, failed or were skipped."""

    passed: int = 0
    failed: int = 0
    skipped: int = 0

    def check(self, name: str, fault: str = "") -> None:
        """Counts a check. If there is a fault, the check failed and the fault is printed."""
        self.add([f"{name}: {fault}" if fault else ""])

    def equal(self, name: str, got: object, wanted: object) -> None:
        """Counts a check that two values are equal."""
        self.check(name, "" if got == wanted else f"{got!r}, and not {wanted!r}")

    def holds(self, name: str, condition: bool, seen: object = "") -> None:
        """Counts a check that a condition holds. If the check fails, `seen` is printed."""
        self.check(name, "" if condition else f"it doesn't hold{f': {seen}' if seen else ''}")

    def add(self, faults: Iterable[str]) -> None:
        """Counts checks by their faults. An empty fault means that its check passed. Any other
        fault names its check.
        """
        for fault in faults:
            if fault:
                print(f"FAILED: {fault}")
            self.failed += fault != ""
            self.passed += fault == ""

    def attempt(self, name: str, do: Callable[[], object]) -> None:
        """Does a part of the checks. If the part can't go on, for example because a file that it
        reads is missing, that counts as a failed check.
        """
        try:
            do()
        except (OSError, ValueError, LookupError) as error:
            self.check(name, f"it can't go on: {type(error).__name__}: {error}")

    def skip(self, what: str, why: str, checks: int = 1) -> None:
        """Counts checks that can't run here, and prints why."""
        print(f"skipped: {what}, since {why}")
        self.skipped += checks

    def lack(self, what: str, package: str, checks: int = 1) -> None:
        """Counts checks whose package isn't installed. In CI, they count as one check that failed.
        Otherwise, they are skipped.
        """
        if IN_CI:
            self.check(what, f"{package} isn't installed")
        else:
            self.skip(what, f"{package} isn't installed", checks)

    def end(self) -> NoReturn:
        """Prints the last line, and exits with status 0 if nothing failed."""
        print(f"{self.passed} passed, {self.failed} failed, {self.skipped} skipped")
        sys.exit(1 if self.failed else 0)
