"""Runs `haul` as a process: opens its standard streams, handles the signals that end it, and ends
with an exit status."""

from __future__ import annotations

import _thread
import os
import select
import signal
import sys
from collections.abc import Callable
from typing import NoReturn

from haul.census.children import NoThread, children
from haul.cli.main import describe_error
from haul.cli.main import main as run
from haul.cli.statuses import FAILED, NO_MEMORY
from haul.terminal import Terminal

# The signals that end this program, except for those that were ignored when it was started.
ENDING = (signal.SIGINT, signal.SIGTERM, signal.SIGHUP)
# The number that the work writes to a pipe when it is done. Each signal writes its own number to
# the same pipe. No signal has the number 0.
IS_DONE = 0
# The number that the work writes to the same pipe when it begins, and how many seconds it has for
# that. If there is enough memory, the work begins in time.
HAS_BEGUN, SECONDS_TO_BEGIN = 128, 10.0


def run_heeding_signals(work: Callable[[], int]) -> int:
    """Does the work in a separate thread, and returns its status. If a signal comes, the programs
    that were started are ended, and then the signal ends this process, too. If the work handles
    signals itself (`children.stopping`), it is notified instead, and decides whether it goes on.
    When the work has ended, the signal that it has noted as `number`, if any, ends this process.

    Python checks for signals between two steps of its main thread. If a signal came just before the
    main thread started to wait, Python would notice the signal only after the wait. Therefore the
    main thread waits for a byte from a pipe, to which each signal writes at once.
    """
    reading, writing = os.pipe()
    os.set_blocking(writing, False)
    signal.set_wakeup_fd(writing)
    for number in ENDING:
        if signal.getsignal(number) is not signal.SIG_IGN:
            signal.signal(number, lambda _number, _frame: None)
    # The status if the work fails unexpectedly.
    status = 1

    def do() -> None:
        nonlocal status
        os.write(writing, bytes([HAS_BEGUN]))
        try:
            status = work()
        finally:
            os.write(writing, bytes([IS_DONE]))

    begin_thread(do, reading)
    came = os.read(reading, 1)[0]
    while came != IS_DONE and children.stopping is not None and children.stopping.came(came):
        came = os.read(reading, 1)[0]
    if came == IS_DONE and children.stopping is not None and children.stopping.number is not None:
        came = children.stopping.number
    if came != IS_DONE:
        children.end()
        signal.signal(came, signal.SIG_DFL)
        os.kill(os.getpid(), came)
    return status


def begin_thread(do: Callable[[], None], reading: int) -> None:
    """Starts a thread that first writes a byte to a pipe. Raises `MemoryError` if no byte comes in
    time, since a thread that has no memory to begin ends silently. `threading` would wait forever
    for the start of such a thread."""
    try:
        _thread.start_new_thread(do, ())
    except RuntimeError as error:
        raise NoThread(str(error)) from None
    if not select.select([reading], [], [], SECONDS_TO_BEGIN)[0]:
        raise MemoryError
    came = os.read(reading, 1)[0]
    if came != HAS_BEGUN:
        # A signal came first. No other program has been started yet, so only this process is ended.
        signal.signal(came, signal.SIG_DFL)
        os.kill(os.getpid(), came)


def open_streams() -> None:
    """Makes standard output a buffered UTF-8 stream, regardless of the environment. File names are
    written byte for byte. If a standard stream is closed, reading from it or writing to it will
    fail, and no file that is opened later takes its place."""
    for number, stream in enumerate((sys.stdin, sys.stdout, sys.stderr)):
        if stream is None:
            # `os.open` uses the lowest free descriptor, which is `number`. Standard input is opened
            # for writing and the others for reading, so each use of them fails.
            os.open(os.devnull, os.O_WRONLY if number == 0 else os.O_RDONLY)
    if sys.stdin is None:
        sys.stdin = open(0, encoding="utf-8", closefd=False)
    sys.stdout = open(1, "w", encoding="utf-8", errors="surrogateescape", closefd=False)
    if sys.stderr is None:
        sys.stderr = open(2, "w", encoding="utf-8", closefd=False)


def main() -> NoReturn:
    """Runs the call of this process, and ends the process with the status of the call."""
    try:
        open_streams()
        status = run_heeding_signals(
            lambda: run(sys.argv[1:], sys.stdin.buffer, sys.stdout, sys.stderr)
        )
    except NoThread as error:
        status = fail(str(error), NO_MEMORY)
    except MemoryError:
        status = fail("out of memory", NO_MEMORY)
    except OSError as error:
        status = fail(describe_error(error), FAILED)
    # At a normal exit, Python would try again to write what couldn't be written.
    os._exit(status)


def fail(line: str, status: int) -> int:
    """Writes a line about the failure, and returns `status`."""
    Terminal(sys.stderr).complain(line)
    return status
