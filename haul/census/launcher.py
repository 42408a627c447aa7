"""Starts a program that ends when `haul` ends, even if `haul` is killed. This is a tiny program of
its own, whose text `haul` passes to Python.

usage: python3 -I -S -c TEXT HOW PARENT MEMORY PROGRAM [ARGUMENT ..]

The launcher runs in its own session. PARENT is the process that started it. PROGRAM gets at most
MEMORY bytes of memory, or any number if MEMORY is 0. HOW is one of:

    census    runs PROGRAM, and ends in the same way
    find      runs PROGRAM with standard input and output closed, and prints `done` or what went
              wrong

When PROGRAM or `haul` ends, all processes that PROGRAM has started are killed, even those in
sessions of their own. It doesn't matter how `haul` ends, or whether PROGRAM has stopped the
launcher.
"""

from __future__ import annotations

import os
import sys

# Other modules are imported only where they are needed, since `haul` imports this module too, and
# importing `signal` takes longer than everything else.
SIGKILL = 9
# Options of the system call `prctl`. The first one sets which signal to send when the parent ends.
PR_SET_PDEATHSIG = 1
# With this option, orphaned descendants of the process become its children.
PR_SET_CHILD_SUBREAPER = 36
# The system's messages if a program can't be started because there is none at the path. After any
# other message, the exit status is `FAILED`.
NOT_THERE = (
    "No such file or directory",
    "Not a directory",
    "Permission denied",
    "Operation not permitted",
    "Exec format error",
    "Too many levels of symbolic links",
    "File name too long",
    "Invalid argument",
)
USAGE, FAILED = 2, 5
DONE = "done"
# The values of HOW.
CENSUS, FIND = "census", "find"


def drop_interrupts() -> None:
    """Drops a Ctrl-C that came before this process was in its own session, and lets later ones
    through. `haul` blocked the signal before it started this process."""
    # This is `signal` without its enums, which take long to import. mypy doesn't know it.
    import _signal  # type: ignore[import]

    if _signal.getsignal(_signal.SIGINT) != _signal.SIG_IGN:
        # Ignoring a signal drops it if it is pending.
        _signal.signal(_signal.SIGINT, _signal.SIG_IGN)
        _signal.signal(_signal.SIGINT, _signal.SIG_DFL)
    _signal.pthread_sigmask(_signal.SIG_UNBLOCK, [_signal.SIGINT])


def end_with(parent: int, number: int) -> None:
    """Makes the system send the signal `number` to this process when the parent ends. If the parent
    has ended already, ends this process at once."""
    call_prctl(PR_SET_PDEATHSIG, number)
    if os.getppid() != parent:
        os._exit(FAILED)


def call_prctl(option: int, value: int) -> None:
    import ctypes

    ctypes.CDLL(None).prctl(option, value)


def run_census(parent: int, memory: int, words: list[str]) -> None:
    ended, why = run_program(parent, memory, words, closes_streams=False)
    if why:
        name = os.fsencode(words[0])
        is_missing = why in NOT_THERE
        os.write(
            2,
            b"no census at " + name + b"\n" if is_missing else name + b": " + why.encode() + b"\n",
        )
        os._exit(USAGE if is_missing else FAILED)
    if ended < 0:
        import _signal

        # `haul` reports the signal that ended the program.
        if -ended != SIGKILL:
            _signal.signal(-ended, _signal.SIG_DFL)
        os.kill(os.getpid(), -ended)
    os._exit(ended)


def run_find(parent: int, memory: int, words: list[str]) -> None:
    ended, why = run_program(parent, memory, words, closes_streams=True)
    print(why or how_ended(ended), flush=True)
    end_session()


def run_program(
    parent: int, memory: int, words: list[str], closes_streams: bool
) -> tuple[int, str]:
    """Runs a program to its end, then ends all processes that it has left, even those in sessions
    of their own. Returns the program's exit status (below 0 for a signal), and the reason if it
    can't be started. If the parent ends, or if this process receives SIGTERM, kills the program,
    the processes that it has started, and this process."""
    import _signal

    def end_as_orphan(_number: int, _frame: object) -> None:
        if os.getppid() != parent:
            end_session()

    # Orphaned processes of the program become children of this one.
    call_prctl(PR_SET_CHILD_SUBREAPER, 1)
    _signal.signal(_signal.SIGTERM, lambda _number, _frame: end_session())
    # SIGCONT also reaches this process if the program has stopped it.
    _signal.signal(_signal.SIGCONT, end_as_orphan)
    end_with(parent, _signal.SIGCONT)
    itself = os.getpid()
    # This pipe is closed when the program starts. If it can't start, the reason is written first.
    reason, writing = os.pipe()
    program = os.fork()
    if program == 0:
        for number in (_signal.SIGTERM, _signal.SIGCONT):
            _signal.signal(number, _signal.SIG_DFL)
        if memory:
            import resource

            resource.setrlimit(resource.RLIMIT_AS, (memory, memory))
        become(itself, writing, words, closes_streams)
    os.close(writing)
    with open(reason, encoding="utf-8") as pipe:
        why = pipe.read()
    if not closes_streams and not why:
        # From here on, only the program has these streams, so `haul` notices when the program
        # closes them. They may be closed already.
        os.closerange(1, 3)
    _, ended = os.waitpid(program, 0)
    end_descendants()
    return os.waitstatus_to_exitcode(ended), why


def become(parent: int, writing: int, words: list[str], closes_streams: bool) -> None:
    """Replaces this process by a program. If that fails, writes the reason."""
    import _signal

    end_with(parent, SIGKILL)
    if closes_streams:
        os.close(0)
        os.close(1)
    # Python ignores these two signals, and programs that it starts would inherit that.
    for number in (_signal.SIGPIPE, _signal.SIGXFSZ):
        _signal.signal(number, _signal.SIG_DFL)
    try:
        os.execvp(words[0], words)
    except OSError as error:
        os.write(writing, (error.strerror or "can't be started").encode())
    os._exit(FAILED)


def end_session() -> None:
    """Kills all descendants, then all processes of this process group, including this one."""
    end_descendants()
    os.killpg(os.getpgrp(), SIGKILL)


def end_descendants() -> None:
    """Kills all children, and descendants that become children when their parents are killed, until
    none is left."""
    while has_children():
        for child in list_children():
            try:
                os.kill(child, SIGKILL)
            except (ProcessLookupError, PermissionError):
                pass
        try:
            os.waitpid(-1, 0)
        except ChildProcessError:
            return


def has_children() -> bool:
    """Checks whether there is a child that is running. Waits for those that have ended."""
    try:
        while os.waitpid(-1, os.WNOHANG)[0]:
            pass
    except ChildProcessError:
        return False
    return True


def list_children() -> list[int]:
    """Returns the processes whose parent is this one."""
    parent = str(os.getpid())
    found = []
    for name in os.listdir("/proc"):
        if name.isdigit():
            try:
                with open(f"/proc/{name}/stat", encoding="utf-8", errors="replace") as file:
                    if file.read().rpartition(")")[2].split()[1] == parent:
                        found.append(int(name))
            except OSError:
                pass
    return found


def how_ended(status: int) -> str:
    if status < 0:
        return f"was ended by signal {-status}"
    return f"ended with status {status}" if status else DONE


if __name__ == "__main__":
    drop_interrupts()
    run = run_find if sys.argv[1] == FIND else run_census
    run(int(sys.argv[2]), int(sys.argv[3]), sys.argv[4:])
