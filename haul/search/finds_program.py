"""Calls the program of `haul search --finds` once for each find, one call at a time."""

from __future__ import annotations

import time
from collections import deque
from collections.abc import Callable

from haul.census.background import BackgroundProgram, StreamWaiter
from haul.census.launcher import DONE, FIND

# A call that runs longer than this is killed.
MOST_SECONDS = 60.0


class FindsProgram:
    """The pending calls, and the running one."""

    def __init__(
        self, waiter: StreamWaiter, program: str | None, complain: Callable[[str], None]
    ) -> None:
        """If there is no `program`, nothing is called. Failures are passed to `complain` as
        lines."""
        self.waiter = waiter
        self.program = program
        # Returns the fields as arguments of the program.
        self.show: Callable[[list[str]], list[str]] = list
        self.complain = complain
        self.waiting: deque[list[str]] = deque()
        self.running: BackgroundProgram | None = None
        # The arguments of the running call, and when it began, in seconds.
        self.arguments: list[str] = []
        self.began: float

    def add(self, arguments: list[str]) -> None:
        if self.program is not None:
            self.waiting.append(arguments)

    def is_done(self) -> bool:
        return self.left() == 0

    def left(self) -> int:
        """Returns the number of calls that haven't ended."""
        return len(self.waiting) + (self.running is not None)

    def list_open(self) -> list[list[str]]:
        """Returns the arguments of the calls that haven't ended."""
        return [*([self.arguments] if self.running is not None else []), *self.waiting]

    def step(self) -> None:
        """Starts the next call if none is running. Otherwise checks whether the running call has
        ended, and reports how if it failed. Kills a call that has run for `MOST_SECONDS`."""
        if self.running is None and self.waiting:
            self.begin(self.waiting.popleft())
        elif self.running is not None and self.running.is_ended():
            self.report(self.how_it_ended() or "was ended")
            self.running = None
        elif self.running is not None and time.monotonic() - self.began >= MOST_SECONDS:
            self.kill()
            self.report(f"ended after {MOST_SECONDS:.0f} seconds")

    def begin(self, arguments: list[str]) -> None:
        assert self.program is not None
        self.arguments = arguments
        try:
            self.running = BackgroundProgram(
                self.waiter, FIND, [self.program, *self.show(arguments)], None
            )
            self.began = time.monotonic()
        except OSError as error:
            self.report(error.strerror or "can't be started")

    def report(self, how: str) -> None:
        if how != DONE:
            self.complain(f"{self.program}: {how}")

    def end(self) -> None:
        """Ends the running call, and everything that it has started. If the program hadn't ended by
        itself, its call remains open, so that the next search makes it again."""
        if self.running is None:
            return
        self.running.kill()
        self.running.read_rest()
        how = self.how_it_ended()
        self.kill()
        if how:
            self.report(how)
        else:
            self.waiting.appendleft(self.arguments)

    def kill(self) -> None:
        assert self.running is not None
        self.running.end()
        self.running = None

    def how_it_ended(self) -> str:
        """Returns what the launcher said about the end of the program. It says nothing if it was
        itself ended before the program."""
        assert self.running is not None
        return self.running.printed.decode("utf-8", "replace").strip()
