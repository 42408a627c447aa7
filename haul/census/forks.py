"""Runs work in forked processes, so that it uses several processors."""

from __future__ import annotations

import os
import pickle
import signal
from collections.abc import Callable
from typing import NoReturn, TypeVar

from haul.census.children import children
from haul.census.launcher import PR_SET_PDEATHSIG, SIGKILL, call_prctl

Result = TypeVar("Result")
# The exit statuses of a process that has done its work, has run out of memory, or has failed
# otherwise.
DONE, NO_MEMORY, FAILED = 0, 4, 5


class Fork:
    """A forked process. `children` can end it like the other processes of its list."""

    def __init__(self, pid: int) -> None:
        self.pid = pid
        self.status: int | None = None

    def poll(self) -> int | None:
        """Returns how the process has ended, or `None` if it hasn't been waited for yet."""
        return self.status

    def wait(self) -> int:
        _, ended = os.waitpid(self.pid, 0)
        self.status = os.waitstatus_to_exitcode(ended)
        return self.status


def work_apart(work: Callable[[], Result]) -> Result:
    """Does the work in a process of its own, and returns the result. Raises `OSError` if no process
    can be started, or if the process fails or is killed, and `MemoryError` if it runs out of
    memory."""
    reading, writing = os.pipe()
    try:
        fork = children.add(lambda: begin_worker(work, writing))
    except OSError:
        os.close(reading)
        raise
    finally:
        os.close(writing)
    try:
        with open(reading, "rb") as pipe:
            printed = pipe.read()
    finally:
        status = fork.wait()
        children.remove(fork)
    if status == NO_MEMORY:
        raise MemoryError
    if status != DONE:
        raise OSError(None, "a process that was forked was ended")
    result: Result = pickle.loads(printed)
    return result


def begin_worker(work: Callable[[], object], writing: int) -> Fork:
    parent = os.getpid()
    pid = os.fork()
    if pid == 0:
        become_worker(work, writing, parent)
    return Fork(pid)


def become_worker(work: Callable[[], object], writing: int, parent: int) -> NoReturn:
    """Does the work, writes the result to a pipe, and ends this process. The process also ends when
    its parent does, and leaves Ctrl-C to the parent."""
    status = FAILED
    try:
        signal.set_wakeup_fd(-1)
        signal.signal(signal.SIGINT, signal.SIG_IGN)
        for number in (signal.SIGTERM, signal.SIGHUP):
            signal.signal(number, signal.SIG_DFL)
        call_prctl(PR_SET_PDEATHSIG, SIGKILL)
        if os.getppid() == parent:
            with open(writing, "wb") as pipe:
                pickle.dump(work(), pipe)
            status = DONE
    except MemoryError:
        status = NO_MEMORY
    finally:
        os._exit(status)
