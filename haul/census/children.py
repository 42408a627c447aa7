"""The list of the processes that this process has started. All of them are started through this
module, so that none is missing from the list: if a signal ends this process, they are ended too."""

from __future__ import annotations

import os
import signal
import subprocess
import sys
import threading
from collections.abc import Callable, Iterator
from contextlib import contextmanager, suppress
from functools import cache
from importlib.resources import files
from typing import Protocol, TypeVar

from haul.census.launcher import CENSUS

# How many seconds `launcher.py` has after SIGTERM to kill its program and everything that the
# program has started. Then `launcher.py` itself is killed.
MOST_SECONDS_TO_END = 2.0
# The number of bytes that fit into a pipe before anyone reads from it, by default on Linux.
BYTES_OF_A_PIPE = 65_536


class NoThread(Exception):
    """Raised if a thread can't be started, because there is no memory for it or the system has
    reached its limit."""


@cache
def read_launcher() -> str:
    """Returns the text of `launcher.py`. It is read only once, since an installed `haul` is a
    single file, which may be replaced while this process runs."""
    return files("haul.census").joinpath("launcher.py").read_text("utf-8")


def list_starter_words(how: str, most_memory: int | None = None) -> list[str]:
    """Returns the words with which the command line of `launcher.py` begins. The words of the
    program to start must follow. The program gets at most `most_memory` bytes of memory, or any
    number if that is `None`."""
    # Without a PATH, `sys.executable` may be empty.
    python = sys.executable or os.readlink("/proc/self/exe")
    return [python, "-I", "-S", "-c", read_launcher(), how, str(os.getpid()), str(most_memory or 0)]


def start_thread(thread: threading.Thread) -> None:
    try:
        thread.start()
    except RuntimeError as error:
        raise NoThread(str(error)) from None


class SignalHandler(Protocol):
    """Work that ends by itself after a signal."""

    # The signal that must end this process after the work, or `None` if there was none. A signal
    # that only makes the work finish isn't noted here.
    number: int | None

    def came(self, number: int) -> bool:
        """Notes a signal. Returns whether the work may go on until it ends by itself."""


class Running(Protocol):
    """A process that was started by this one."""

    pid: int

    def poll(self) -> int | None:
        """Returns how the process has ended, or `None` if it is still running."""


Started = TypeVar("Started", bound=Running)


class Children:
    """The running processes that this process has started."""

    def __init__(self) -> None:
        self.running: list[Running] = []
        # Held while a process is started, so that every running process is known.
        self.starts = threading.Lock()
        # The work that is notified of signals and then ends by itself, or `None` if a signal ends
        # this process.
        self.stopping: SignalHandler | None = None

    def start(
        self,
        words: list[str],
        stdout: int,
        stderr: int | None,
        stdin: int = subprocess.DEVNULL,
        how: str = CENSUS,
        most_memory: int | None = None,
    ) -> subprocess.Popen[bytes]:
        """Starts a program with `launcher.py`, in the mode `how`. The launcher runs it in a session
        of its own, and ends it and everything that it has started when this process ends, even by
        SIGKILL. If `most_memory` is given, the program gets at most this many bytes of memory.
        Raises `OSError` if the launcher can't be started."""
        with block_interrupts():
            return self.add(
                lambda: subprocess.Popen(
                    [*list_starter_words(how, most_memory), *words],
                    stdin=stdin,
                    stdout=stdout,
                    stderr=stderr,
                    start_new_session=True,
                )
            )

    def add(self, start: Callable[[], Started]) -> Started:
        """Calls a function that starts a process, adds the process to the list, and returns it."""
        with self.starts:
            process = start()
            self.running.append(process)
        return process

    def remove(self, process: Running) -> None:
        """Forgets a process that has ended. It may have been forgotten before."""
        if process in self.running:
            self.running.remove(process)

    def heed(self, stopping: SignalHandler) -> None:
        """Passes each signal from now on to the work `stopping`, which then ends by itself."""
        self.stopping = stopping

    @contextmanager
    def track(self, program: subprocess.Popen[bytes]) -> Iterator[subprocess.Popen[bytes]]:
        """Keeps a started program in the list until it ends. It has ended when the context is
        left."""
        try:
            with program:
                yield program
        finally:
            self.remove(program)

    def end(self) -> None:
        """Ends all processes. No further process can start, since the lock isn't released."""
        self.starts.acquire()
        for program in list(self.running):
            if program.poll() is None:
                with suppress(ProcessLookupError):
                    os.kill(program.pid, signal.SIGTERM)


# The only instance, since a signal is for the whole process.
children = Children()


@contextmanager
def block_interrupts() -> Iterator[None]:
    """Blocks Ctrl-C while `launcher.py` is started, since Ctrl-C mustn't end `launcher.py` before
    it is in a session of its own. `launcher.py` drops a Ctrl-C that came before that."""
    mask = signal.pthread_sigmask(signal.SIG_BLOCK, {signal.SIGINT})
    try:
        yield
    finally:
        signal.pthread_sigmask(signal.SIG_SETMASK, mask)


def kill_apart(program: subprocess.Popen[bytes]) -> None:
    """Kills a program that `launcher.py` runs in a session of its own, and all processes that the
    program has started. The argument `program` is the process of `launcher.py` itself: on SIGTERM,
    it kills all the others, and then it is killed, too."""
    if program.poll() is None:
        program.terminate()
        # The program may have stopped the launcher.
        program.send_signal(signal.SIGCONT)
        with suppress(subprocess.TimeoutExpired):
            program.wait(MOST_SECONDS_TO_END)
    with suppress(ProcessLookupError, PermissionError):
        os.killpg(program.pid, signal.SIGKILL)


def measure_session(session: int) -> int:
    """Returns the number of bytes of memory that the processes of a session use."""
    pages = 0
    for name in filter(str.isdigit, os.listdir("/proc")):
        # The process may have ended meanwhile.
        with suppress(OSError), open(
            f"/proc/{name}/stat", encoding="utf-8", errors="replace"
        ) as file:
            # After the name, which is in parentheses: the state, the parent, the group, the session.
            fields = file.read().rpartition(")")[2].split()
            if int(fields[3]) == session:
                pages += int(fields[21])
    return pages * os.sysconf("SC_PAGE_SIZE")


class NoCensus(Exception):
    """Raised if there is no census program, or if the program doesn't answer like one."""

    @classmethod
    def at(cls, path: str) -> NoCensus:
        return cls(f"no census at {path}")


@contextmanager
def open_text(text: bytes) -> Iterator[int]:
    """Yields the reading end of a pipe that contains a text, or a file in memory if the text
    doesn't fit into a pipe."""
    if len(text) > BYTES_OF_A_PIPE:
        with os.fdopen(os.memfd_create("pattern"), "w+b") as file:
            file.write(text)
            file.seek(0)
            yield file.fileno()
        return
    read, written = os.pipe()
    try:
        with open(written, "wb") as pipe:
            pipe.write(text)
        yield read
    finally:
        os.close(read)


@contextmanager
def start_child(
    words: list[str],
    stdout: int,
    stderr: int | None,
    stdin: int = subprocess.DEVNULL,
    most_memory: int | None = None,
) -> Iterator[subprocess.Popen[bytes]]:
    """Starts a program with `Children.start`. The program has ended when the context is left. If
    `stderr` is `None`, the program writes to this process's standard error."""
    started = children.start(words, stdout, stderr, stdin, most_memory=most_memory)
    with children.track(started) as program:
        yield program
