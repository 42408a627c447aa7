"""Runs tests on changed copies of `haul`, each in processes of its own."""

from __future__ import annotations

import ctypes
import os
import py_compile
import re
import resource
import shutil
import signal
import subprocess
import sys
import tempfile
import unittest
from collections.abc import Iterator
from functools import partial
from importlib import import_module
from importlib.util import cache_from_source
from multiprocessing import get_context
from pathlib import Path
from typing import NamedTuple

from haul.tests.forked import go_on

TOP = Path(__file__).resolve().parents[3]
PROGRAM = TOP / "crates" / "census" / "out" / "census"
# The line that `unittest` writes about a test that fails.
FAILED = re.compile(r"^(?:FAIL|ERROR): \w+ \(([\w.]+)\)", re.MULTILINE)
# How much longer than usual the tests of a changed program may take, and how much memory they may
# use, since such a program may run forever or ask for all memory.
MOST_SECONDS, MOST_BYTES = 15, 2**30
# An option of the system call `prctl`: this process becomes the parent of each descendant whose own
# parent has ended.
PR_SET_CHILD_SUBREAPER = 36


class Trial(NamedTuple):
    """A changed file, given by its path below haul/ and its new text, and the tests that may notice
    the change, each with the seconds that it takes."""

    file: str
    text: str
    tests: dict[str, float]


def make_copy(copy: Path) -> None:
    """Copies the files of this checkout that tests need. The launcher of the copy builds
    nothing."""
    for folder in ("haul", "release"):
        shutil.copytree(TOP / folder, copy / folder, ignore=shutil.ignore_patterns("__pycache__"))
    for folder in ("bin", "crates/census/out"):
        (copy / folder).mkdir(parents=True)
    shutil.copy(TOP / "bin" / "haul", copy / "bin" / "haul")
    (copy / "bin" / "built.bash").touch()
    (copy / "bin" / "census").write_text(f'#!/bin/sh\nexec "{PROGRAM}" "$@"\n')
    (copy / "bin" / "census").chmod(0o755)
    (copy / "crates" / "census" / "out" / "census").symlink_to(PROGRAM)
    for folder in ("docs", "examples", "reference"):
        (copy / folder).symlink_to(TOP / folder)


def compile_copy(copy: Path) -> None:
    """Makes a copy and compiles all its modules, so that no test has to. Python won't check whether
    a source file has changed since."""
    make_copy(copy)
    mode = py_compile.PycInvalidationMode.UNCHECKED_HASH
    for file in copy.glob("haul/**/*.py"):
        py_compile.compile(str(file), doraise=True, invalidation_mode=mode)


def try_all(trials: list[Trial], workers: int) -> Iterator[str | None]:
    """Yields what `find_noticing_test` returns for each trial."""
    with tempfile.TemporaryDirectory() as compiled:
        compile_copy(Path(compiled))
        # The workers are processes, since a process with running threads can't be forked safely.
        with get_context("fork").Pool(workers, load_libraries, [compiled]) as pool:
            yield from pool.imap(partial(find_noticing_test, compiled), trials)


def find_failing_tests(unchanged: Trial, workers: int) -> list[str]:
    """Returns the tests that fail on the unchanged file. Such a test would seem to notice every
    change."""
    trials = [unchanged._replace(tests={test: took}) for test, took in unchanged.tests.items()]
    seen = try_all(trials, workers)
    return [test for test, found in zip(unchanged.tests, seen, strict=True) if found is not None]


def find_noticing_test(compiled: str, trial: Trial) -> str | None:
    """Returns the first test that fails on the changed file, or `None` if all tests pass. Returns
    `time` if the tests take too long, and `start` if they can't start."""
    if not trial.tests:
        return None
    with tempfile.TemporaryDirectory(ignore_cleanup_errors=True) as folder:
        # Links take less time than copies. The changed file replaces its link.
        shutil.copytree(compiled, folder, symlinks=True, copy_function=os.link, dirs_exist_ok=True)
        changed = Path(folder) / "haul" / trial.file
        changed.unlink()
        changed.write_text(trial.text)
        Path(cache_from_source(str(changed))).unlink()
        with open(Path(folder) / "said", "w+b") as said:
            status = run_tests(Path(folder), trial.tests, said.fileno())
            said.seek(0)
            failed = FAILED.search(said.read().decode("utf-8", "replace"))
    if status is None:
        return "time"
    if status == 0:
        return None
    return failed[1] if failed and failed[1] in trial.tests else "start"


def run_tests(copy: Path, tests: dict[str, float], errors: int) -> int | None:
    """Returns the status of a copy's tests, or `None` if they take too long."""
    program = subprocess.Popen(
        ["unittest", *tests],
        cwd=copy,
        stdin=subprocess.DEVNULL,
        stdout=subprocess.DEVNULL,
        stderr=errors,
        start_new_session=True,
        preexec_fn=lambda: go_on(partial(run_tests_here, copy, list(tests))),
    )
    # While the tests run, SIGTERM also ends them. At any other time, it ends this process at once,
    # even if the process is waiting for a lock.
    signal.signal(signal.SIGTERM, end)
    try:
        return program.wait(MOST_SECONDS + sum(tests.values()))
    except subprocess.TimeoutExpired:
        return None
    finally:
        program.kill()
        program.wait()
        end_orphans()
        signal.signal(signal.SIGTERM, signal.SIG_DFL)


def run_tests_here(copy: Path, names: list[str]) -> int:
    """Runs the tests of a copy up to the first that fails, like
    `python3 -m unittest --failfast`."""
    resource.setrlimit(resource.RLIMIT_AS, (MOST_BYTES, MOST_BYTES))
    signal.signal(signal.SIGTERM, signal.SIG_DFL)
    forget_modules()
    os.environ.update({"PYTHONDONTWRITEBYTECODE": "1", "PYTHONPATH": str(copy)})
    sys.path.insert(0, str(copy))
    try:
        unittest.main(None, argv=["unittest", "--failfast", *names])
    except SystemExit as ended:
        return 1 if ended.code else 0
    return 1


def end_orphans() -> None:
    """Kills everything that a changed program has left running, in any session. Such processes have
    become children of this process."""
    while left := list_children():
        for number in left:
            os.kill(number, signal.SIGKILL)
            os.waitpid(number, 0)


def list_children() -> list[int]:
    paths = Path("/proc/self/task").glob("*/children")
    return [int(number) for path in paths for number in path.read_text().split()]


def load_libraries(compiled: str) -> None:
    """Imports what `haul` and its tests need of Python's library, once for all tests that are
    forked from here. The imports take longer than most tests."""
    signal.signal(signal.SIGTERM, signal.SIG_DFL)
    ctypes.CDLL(None).prctl(PR_SET_CHILD_SUBREAPER, 1)
    sys.path.insert(0, compiled)
    for name in ("haul.cli.process", "haul.tests.pages", "unittest.mock"):
        import_module(name)
    sys.path.remove(compiled)
    forget_modules()


def forget_modules() -> None:
    """Forgets the modules of this checkout, so that the next import takes the modules of a copy."""
    for name in list(sys.modules):
        if name.partition(".")[0] in ("haul", "release"):
            del sys.modules[name]


def end(_number: int, _frame: object) -> None:
    """Ends this process in an orderly way, together with the processes that it has started."""
    sys.exit(1)
