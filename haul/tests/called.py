"""Functions that call the built census program, and `haul`, as a user would."""

from __future__ import annotations

import io
import os
import pty
import re
import signal
import subprocess
import sys
import threading
from collections.abc import Callable, Iterator
from contextlib import contextmanager, suppress
from functools import lru_cache
from pathlib import Path
from typing import BinaryIO, TextIO
from unittest.mock import patch

from haul.census.children import children
from haul.census.client import Census
from haul.cli import process
from haul.cli.main import main
from haul.terminal import Terminal
from haul.tests.forked import go_on

TOP = Path(__file__).resolve().parents[2]
CENSUS = str(TOP / "crates" / "census" / "out" / "census")
HAUL = str(TOP / "bin" / "haul")
# The path that `haul` would have if it were installed beside the built program. If `haul` is called
# by this path, no launcher checks whether the program must be built.
INSTALLED_HAUL = str(Path(CENSUS).with_name("haul"))
# The line in which `haul check` says what it has run. On a terminal, it follows an erased line.
SUMMARY = re.compile(
    "(?:^|(?<=\x1b\\[K))haul: .* run under b[0-9]*s[0-9]* in [0-9.]+ s\r?\n", re.MULTILINE
)
# A terminal that discards its output.
QUIET = Terminal(io.StringIO())


def census(*words: str) -> bytes:
    """Returns what a call of the built program prints."""
    return subprocess.run(
        [CENSUS, *words], stdin=subprocess.DEVNULL, stdout=subprocess.PIPE, check=True
    ).stdout


def census_of(pattern: bytes, *words: str) -> bytes:
    """Returns what a call of the built program prints about a pattern on standard input."""
    return subprocess.run(
        [CENSUS, *words], input=pattern, stdout=subprocess.PIPE, check=True
    ).stdout


def make_client(path: str = CENSUS) -> Census:
    """Returns a client of the built program, or of the program at `path`."""
    return Census(path, Terminal(sys.stderr))


@lru_cache
def taken(count: int) -> bytes:
    """Returns the haul of the first `count` soups of the empty seed."""
    return census("take", "--count", str(count))


def run(*words: str, text: bytes = b"", cwd: str | None = None) -> tuple[int, str, str]:
    """Calls `haul` in this process. Returns its status and what it prints to standard output and
    standard error. Some tests, such as those in test_packed.py, start `haul` in a process of its
    own instead."""
    output, errors = (
        io.TextIOWrapper(io.BytesIO(), "utf-8", "surrogateescape", "\n") for _ in range(2)
    )
    with patch.dict(os.environ, COLUMNS="80"):
        status = call(words, io.BytesIO(text), output, errors, cwd)
    return status, read_back(output), drop_summaries(read_back(errors))


def drop_summaries(errors: str) -> str:
    """Removes the lines in which `haul check` says what it has run, and for how many seconds."""
    return SUMMARY.sub("", errors)


def read_back(stream: io.TextIOWrapper) -> str:
    """Returns what was written to a text stream that is kept in memory."""
    stream.seek(0)
    return stream.read()


def call(
    words: tuple[str, ...],
    stdin: BinaryIO,
    stdout: TextIO,
    stderr: TextIO,
    cwd: str | None = None,
) -> int:
    """Calls `haul` in this process, in the folder `cwd`, and returns its status."""
    with patch.object(sys, "argv", [INSTALLED_HAUL, *words]), in_folder(cwd):
        try:
            return main(list(words), stdin, stdout, stderr)
        finally:
            # A search handles signals from then on. In this process, other tests follow it.
            children.stopping = None


@contextmanager
def in_folder(folder: str | None) -> Iterator[None]:
    before = os.getcwd()
    os.chdir(folder or before)
    try:
        yield
    finally:
        os.chdir(before)


def read_terminal(write: Callable[[TextIO], object]) -> bytes:
    """Calls a function with a terminal, and returns what it writes to the terminal."""
    ours, its = pty.openpty()
    pieces: list[bytes] = []

    def read() -> None:
        with suppress(OSError):
            while piece := os.read(ours, 65536):
                pieces.append(piece)

    reader = threading.Thread(target=read)
    reader.start()
    try:
        with open(its, "w", encoding="utf-8") as terminal:
            write(terminal)
    finally:
        reader.join()
        os.close(ours)
    return b"".join(pieces)


def as_haul(*words: str) -> Callable[[], None]:
    """Returns a `preexec_fn` that turns a process forked by `subprocess` into `haul` with these
    arguments. The tests of `haul search` use this, because starting Python takes longer than most
    of these tests."""
    # Another thread could hold a lock, which nobody would release in the new process.
    assert threading.active_count() == 1 and not children.running and children.stopping is None

    def work() -> int:
        # The same as in bin/haul.
        if signal.getsignal(signal.SIGINT) is not signal.SIG_IGN:
            signal.signal(signal.SIGINT, signal.SIG_DFL)
        sys.argv = [INSTALLED_HAUL, *words]
        process.main()

    return lambda: go_on(work)
