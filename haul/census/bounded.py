"""Calls the census program within bounds of time and memory, since some patterns would take all of
it."""

from __future__ import annotations

import os
import resource
import select
import signal
import subprocess
import time
from collections.abc import Callable, Iterator
from contextlib import contextmanager, suppress
from dataclasses import dataclass, field
from functools import partial
from types import FrameType
from typing import IO, NoReturn, TypeVar

from haul.census.children import open_text, start_child
from haul.census.client import Census, check_ending
from haul.census.forks import work_apart
from haul.plurals import write_count

# The most bytes of memory of a process.
MOST_MEMORY = 2**30
# How many seconds there are for a soup, unless `--soup-seconds` is given.
SOUP_SECONDS = 60
# The exit status of `census` if it runs out of memory.
NO_MEMORY = 4
# The number of bytes that are read at a time.
BYTES_AT_A_TIME = 2**16

# The beginning of the reason if the time is up.
NO_ANSWER_IN = "no answer in "

Result = TypeVar("Result")


class Undecided(Exception):
    """Raised if a bound is exceeded. Says which one."""


class TimeIsUp(Exception):
    """Raised in a forked process that has no time left."""


@dataclass
class Bounds:
    """The bounds of what is found out about a soup. The time begins now."""

    # 0 stands for no bound.
    seconds: int
    begin: float = field(default_factory=time.monotonic)

    def left(self) -> float | None:
        """Returns how many seconds are left, or `None` if there is no bound. Raises `Undecided` if
        none are left."""
        if not self.seconds:
            return None
        left = self.begin + self.seconds - time.monotonic()
        if left <= 0:
            raise self.late()
        return left

    def late(self) -> Undecided:
        return Undecided(f"{NO_ANSWER_IN}{write_count(self.seconds, 'second')}")

    def work(self, work: Callable[[], Result]) -> Result:
        """Does work in a process of its own, and returns the result. Raises `Undecided` if it takes
        too much time or memory."""
        try:
            done = work_apart(partial(work_bounded, work, self.left()))
        except MemoryError:
            raise lack_memory() from None
        if done is None:
            raise self.late()
        return done[0]


def lack_memory() -> Undecided:
    return Undecided(f"no answer with {MOST_MEMORY // 2**30} GiB of memory")


def work_bounded(work: Callable[[], Result], seconds: float | None) -> tuple[Result] | None:
    """Does work in this process, which was forked for it. Returns `None` if the time is up. Raises
    `MemoryError` if it takes too much memory."""
    with suppress(OSError, ValueError):
        with open("/proc/self/statm", encoding="ascii") as file:
            used = int(file.read().split()[0]) * resource.getpagesize()
            resource.setrlimit(resource.RLIMIT_AS, (used + MOST_MEMORY, used + MOST_MEMORY))
    signal.signal(signal.SIGALRM, end_work)
    signal.setitimer(signal.ITIMER_REAL, seconds or 0)
    try:
        return (work(),)
    except TimeIsUp:
        return None
    finally:
        signal.setitimer(signal.ITIMER_REAL, 0)


def end_work(_number: int, _frame: FrameType | None) -> NoReturn:
    raise TimeIsUp


@dataclass(frozen=True)
class BoundedCensus:
    """The census program within bounds."""

    census: Census
    bounds: Bounds

    def ask(self, words: list[str], pattern: bytes) -> bytes:
        """Calls the program with a pattern on standard input, and returns what it prints."""
        with self.start(words, pattern) as program:
            return self.finish(program)

    def ask_unless(
        self, words: list[str], pattern: bytes, seconds: float, check: Callable[[], None]
    ) -> bytes:
        """Returns the same as `ask`. If that takes more than `seconds`, calls `check` meanwhile,
        which raises `Undecided` if there can be no answer."""
        with self.start(words, pattern) as program:
            try:
                printed, errors = program.communicate(timeout=seconds)
            except subprocess.TimeoutExpired:
                check()
                return self.finish(program)
            return check_bounded(program.returncode, printed, errors)

    def read_lines(self, words: list[str], pattern: bytes) -> Iterator[bytes]:
        """Calls the program, and yields each line that it prints as soon as it comes."""
        with self.start(words, pattern) as program:
            assert program.stdout and program.stderr
            yield from self.lines(program.stdout)
            self.finish(program)

    def lines(self, stream: IO[bytes]) -> Iterator[bytes]:
        """Yields the lines of a stream without their line feeds, as soon as they come."""
        poll = select.poll()
        poll.register(stream, select.POLLIN)
        begun = b""
        while True:
            left = self.bounds.left()
            if not poll.poll(None if left is None else left * 1000):
                raise self.bounds.late()
            piece = os.read(stream.fileno(), BYTES_AT_A_TIME)
            *lines, begun = (begun + piece).split(b"\n")
            yield from lines
            if not piece:
                yield from [begun] if begun else []
                return

    def finish(self, program: subprocess.Popen[bytes]) -> bytes:
        """Waits for the end of the program, and returns the rest of what it prints."""
        try:
            printed, errors = program.communicate(timeout=self.bounds.left())
        except subprocess.TimeoutExpired:
            raise self.bounds.late() from None
        return check_bounded(program.returncode, printed, errors)

    @contextmanager
    def start(self, words: list[str], pattern: bytes) -> Iterator[subprocess.Popen[bytes]]:
        """Starts the program. If it is still running when the context is left, it is ended."""
        with open_text(pattern) as read, start_child(
            [self.census.path, *words], subprocess.PIPE, subprocess.PIPE, read, MOST_MEMORY
        ) as program:
            try:
                yield program
            finally:
                if program.poll() is None:
                    program.terminate()


def check_bounded(status: int, printed: bytes, errors: bytes) -> bytes:
    """Returns what the program has printed. Raises `Undecided` if it ran out of memory, and `Ended`
    if it failed otherwise."""
    if status == NO_MEMORY:
        raise lack_memory()
    return check_ending(status, printed, errors)
