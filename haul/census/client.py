"""Calls the census program, which decides whether a haul is right and when a soup has settled."""

from __future__ import annotations

import os
import re
import shutil
import subprocess
import threading
from collections.abc import Callable, Iterator
from concurrent.futures import ThreadPoolExecutor
from typing import IO, TypeVar

from haul.census.children import NoCensus, NoThread, open_text, start_child, start_thread
from haul.census.command_lines import list_take_arguments, list_work_arguments
from haul.census.locate import find_beside
from haul.formats.haul import Job, Range
from haul.terminal import Terminal

# The program's exit statuses that are passed on. Every other status becomes `FAILED`, the status of
# a failed read or write.
PASSED_ON = (2, 3, 4, 5)
FAILED = 5

# The part of a report line that follows `soup=`: the soup's number, and what was found.
REPORT = re.compile(rb"([0-9]{1,13}) ([a-z0-9_=* ]+)")

# The most workers.
MOST_WORKERS = 1024

Asked = TypeVar("Asked")
Said = TypeVar("Said")


def count_processors() -> int:
    """Returns the default number of workers: one for each processor that this process may use, but
    at most `MOST_WORKERS`."""
    return min(MOST_WORKERS, len(os.sched_getaffinity(0)))


class Ended(Exception):
    """Raised if the program failed. Has the exit status for `haul`, and a line that says what went
    wrong."""

    def __init__(self, status: int, line: str) -> None:
        super().__init__(line)
        self.status = status if status in PASSED_ON else FAILED


class Census:
    """The census program at a path."""

    def __init__(self, path: str | None, terminal: Terminal, workers: int | None = None) -> None:
        """`workers` is the number of calls that run at a time, or of workers in a call: by default,
        one for each processor."""
        found = path or find_beside() or shutil.which("census")
        if found is None:
            raise NoCensus("no census beside this program or on the PATH")
        self.path = found
        self.workers = workers or count_processors()
        # The terminal on which progress is shown.
        self.terminal = terminal

    def ask(self, words: list[str], pattern: bytes = b"") -> bytes:
        """Calls the program with a pattern on standard input, and returns what it prints."""
        with open_text(pattern) as read, start_child(
            [self.path, *words], subprocess.PIPE, subprocess.PIPE, read
        ) as program:
            printed, errors = program.communicate()
        return check_ending(program.returncode, printed, errors)

    def ask_in_parts(
        self, ask: Callable[[list[Asked]], Said], asked: list[Asked], size: int, done_what: str
    ) -> Iterator[Said]:
        """Splits a list into parts of at most `size` elements, and calls `ask` with each part.
        Several calls run at a time, and their answers are yielded in order. `done_what` is the end
        of the progress line."""
        parts = [asked[start : start + size] for start in range(0, len(asked), size)]
        done = 0
        with ThreadPoolExecutor(min(self.workers, len(parts) or 1)) as pool:
            for part, said in zip(parts, ask_all(pool, ask, parts), strict=True):
                done += len(part)
                self.terminal.show_progress(f"{done} of {len(asked)} {done_what}")
                yield said
        self.terminal.show_progress("")

    def reports(self, job: Job, numbers: list[int]) -> dict[int, list[str]]:
        """Returns, from a single call, what each of these soups leaves: the fields of its report
        line after the number of the soup."""
        printed = self.ask(list_work_arguments(job, [(number, 1) for number in numbers]))
        start = f"report 2 rule={job.rule} profile={job.profile.format()} seed={job.seed}"
        before = f"{start} worker=1 soup=".encode("ascii")
        reports: dict[int, list[str]] = {}
        for line in printed.splitlines():
            found = REPORT.fullmatch(line.removeprefix(before))
            if found is None or not line.startswith(before):
                raise NoCensus.at(self.path)
            reports[int(found[1])] = found[2].decode("ascii").split(" ")
        if list(reports) != numbers:
            raise NoCensus.at(self.path)
        return reports

    def take(self, job: Job, ranges: list[Range], out: IO[bytes]) -> None:
        """Writes the haul of a set of soups to a file. The set must be small enough for one call.
        The program's progress line is shown on a terminal."""
        words = list_take_arguments(job, ranges, self.workers, self.terminal.is_interactive())
        with start_child([self.path, *words], subprocess.PIPE, subprocess.PIPE) as program:
            assert program.stdout and program.stderr
            errors = bytearray()
            watcher = threading.Thread(target=self.pass_progress_on, args=(program.stderr, errors))
            try:
                start_thread(watcher)
                shutil.copyfileobj(program.stdout, out)
            except BaseException:
                # Otherwise, the exception would be raised only after the program has run all its
                # soups.
                program.terminate()
                raise
            finally:
                if watcher.ident is not None:
                    watcher.join()
        check_ending(program.returncode, b"", bytes(errors))

    def pass_progress_on(self, stream: IO[bytes], errors: bytearray) -> None:
        """Shows the progress lines, which end in carriage returns, and keeps the rest in
        `errors`."""
        while piece := os.read(stream.fileno(), 4096):
            errors += piece
            shown, returned, rest = bytes(errors).rpartition(b"\r")
            if returned:
                self.terminal.pass_progress_on(shown + returned)
            errors[:] = rest


def ask_all(
    pool: ThreadPoolExecutor, ask: Callable[[list[Asked]], Said], parts: list[list[Asked]]
) -> Iterator[Said]:
    """Asks about all parts in the threads of a pool. Raises `NoThread` if a thread can't be
    started."""
    try:
        return pool.map(ask, parts)
    except RuntimeError as error:
        raise NoThread(str(error)) from None


def check_ending(status: int, printed: bytes, errors: bytes) -> bytes:
    if status != 0:
        lines = errors.decode("utf-8", "replace").strip().splitlines()
        how = f"ended with status {status}" if status > 0 else f"was ended by signal {-status}"
        raise Ended(status, lines[-1].removeprefix("census: ") if lines else f"census {how}")
    return printed
