"""Processes that `subprocess` forks, and that go on with code of their parent instead of starting
another program."""

from __future__ import annotations

import gc
import os
import signal
import sys
import traceback
from collections.abc import Callable
from typing import NoReturn

# A forked process closes its files with the numbers 3 to `FILES - 1`.
FILES = 100


def go_on(work: Callable[[], int]) -> NoReturn:
    """Does the work as if Python had just been started for it, and ends the process with the status
    that the work returns. Call this from the `preexec_fn` of a call of `subprocess`. `subprocess`
    then takes this process for the program that it has started. The streams, the folder and the
    session of this process are those of the call, and its output and its end are treated like those
    of any program."""
    status = 1
    try:
        # Objects that are garbage now would close their files later, when other files have the
        # numbers of these files.
        gc.freeze()
        gc.enable()
        # `subprocess` waits until one of these files is closed, as happens when a program starts.
        os.closerange(3, FILES)
        for number in (signal.SIGPIPE, signal.SIGXFSZ):
            signal.signal(number, signal.SIG_IGN)
        sys.stdin = open(0, encoding="utf-8", closefd=False)
        sys.stdout = open(1, "w", encoding="utf-8", closefd=False)
        sys.stderr = open(
            2, "w", buffering=1, encoding="utf-8", errors="backslashreplace", closefd=False
        )
        status = work()
    except BaseException:
        traceback.print_exc()
    finally:
        os._exit(status)
