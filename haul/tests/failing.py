"""Makes calls of the operating system fail in processes that are forked from the tests."""

from __future__ import annotations

import os
import signal
from collections.abc import Callable, Iterator
from contextlib import ExitStack, contextmanager
from pathlib import Path
from unittest.mock import patch

# The functions of `os` that fail. `haul` and Python's library call them.
CALLS = ("open", "stat", "lstat", "fchmod", "fsync", "replace", "rename", "unlink", "read", "pipe")
REAL_STAT, REAL_OPEN, REAL_CLOSE = os.stat, os.open, os.close


def make(path: Path) -> None:
    """Makes an empty file, if it doesn't exist."""
    REAL_CLOSE(REAL_OPEN(path, os.O_WRONLY | os.O_CREAT))


def is_there(path: Path) -> bool:
    try:
        REAL_STAT(path)
    except FileNotFoundError:
        return False
    return True


class FailingCalls:
    """Makes calls fail in each forked process."""

    def __init__(
        self, number: int, error: int | None, is_single: bool, failed: Path, begins: Path | None
    ) -> None:
        self.number, self.error, self.is_single = number, error, is_single
        self.failed, self.begins = failed, begins
        self.parent = os.getpid()
        self.calls = 0

    def wrap(self, real: Callable[..., object]) -> Callable[..., object]:
        def call(*arguments: object, **options: object) -> object:
            is_child = os.getpid() != self.parent
            if is_child and (self.begins is None or is_there(self.begins)):
                self.calls += 1
                is_last = self.is_single and self.calls > self.number
                if self.calls >= self.number and not is_last:
                    make(self.failed)
                    self.fail()
            return real(*arguments, **options)

        return call

    def fail(self) -> None:
        if self.error is not None:
            raise OSError(self.error, os.strerror(self.error))
        os.kill(os.getpid(), signal.SIGKILL)
        signal.pause()


@contextmanager
def failing_calls(
    number: int, error: int | None, is_single: bool, failed: Path, begins: Path | None = None
) -> Iterator[None]:
    """Makes calls of the functions in `CALLS` fail in each process that is forked in this context:
    the call with the number `number`, and all later calls unless `is_single` is set. They fail with
    `error`. If `error` is `None`, the process is killed instead. Each process counts its calls,
    beginning with 1, from the moment when the file `begins` exists, or from the fork if `begins` is
    `None`. The file `failed` is made when a call fails."""
    failing = FailingCalls(number, error, is_single, failed, begins)
    with ExitStack() as stack:
        for name in CALLS:
            stack.enter_context(patch.object(os, name, failing.wrap(getattr(os, name))))
        yield
