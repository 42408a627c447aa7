"""Finds out which tests run which lines, using `coverage` with a context for each test."""

from __future__ import annotations

import json
import os
import subprocess
import sys
import time
import unittest
from collections.abc import Iterator
from concurrent.futures import ThreadPoolExecutor
from pathlib import Path

TOP = Path(__file__).resolve().parents[3]
# The tests that run each line, such as `patterns/rle.py:12`, with the seconds that each test takes.
Lines = dict[str, dict[str, float]]

SETTINGS = """\
[run]
source = {copy}/haul
omit = {copy}/haul/tests/*
parallel = true
data_file = {data}/lines
context = ${{CONTEXT}}
disable_warnings = no-data-collected
"""
# The first thing that each Python process does. `haul` ends with `os._exit`, or with a signal that
# it sends to itself, and `coverage` then saves nothing unless it is told to.
START = """\
import os
import coverage

coverage.process_startup()
exit_at_once, kill = os._exit, os.kill


def keep():
    noted = coverage.Coverage.current()
    if noted is not None:
        noted.stop()
        noted.save()


def exit_after_keeping(status):
    keep()
    exit_at_once(status)


def kill_after_keeping(process, number):
    if process == os.getpid():
        keep()
    kill(process, number)


os._exit, os.kill = exit_after_keeping, kill_after_keeping
"""


def find_tests() -> list[str]:
    """Returns the names of all tests, except for those in test_mutants.py, which run tests
    themselves."""
    suite = unittest.defaultTestLoader.discover(str(TOP / "haul" / "tests"), top_level_dir=str(TOP))
    return [name for name in list_tests(suite) if ".test_mutants." not in name]


def list_tests(suite: unittest.TestSuite | unittest.TestCase) -> Iterator[str]:
    if isinstance(suite, unittest.TestCase):
        yield suite.id()
    else:
        for one in suite:
            yield from list_tests(one)


def note_lines(copy: Path, names: list[str], workers: int) -> Lines:
    """Runs each test in a copy of the checkout, and returns the tests that run each line."""
    from coverage import CoverageData  # type: ignore[import]

    data = copy / "coverage"
    data.mkdir()
    (data / "sitecustomize.py").write_text(START)
    (data / "settings").write_text(SETTINGS.format(copy=copy, data=data))
    with ThreadPoolExecutor(workers) as pool:
        took = dict(zip(names, pool.map(lambda name: run_noted(copy, name), names), strict=True))
    lines: Lines = {}
    for path in data.glob("lines.*"):
        noted = CoverageData(str(path))
        noted.read()
        for file in noted.measured_files():
            place = Path(file).relative_to(copy / "haul").as_posix()
            for line, contexts in noted.contexts_by_lineno(file).items():
                known = lines.setdefault(f"{place}:{line}", {})
                known.update((name, took[name]) for name in contexts if name in took)
    return lines


def run_noted(copy: Path, name: str) -> float:
    """Runs a test with `coverage`, and returns how long it took."""
    began = time.monotonic()
    data = copy / "coverage"
    environment = {
        **os.environ,
        "PYTHONDONTWRITEBYTECODE": "1",
        "PYTHONPATH": f"{data}:{copy}",
        "COVERAGE_PROCESS_START": str(data / "settings"),
        "CONTEXT": name,
    }
    ended = subprocess.run(
        [sys.executable, "-m", "unittest", name],
        cwd=copy,
        stdin=subprocess.DEVNULL,
        capture_output=True,
        check=False,
        env=environment,
    )
    if ended.returncode != 0:
        # The usual reason is that the test measures how long something takes.
        print(f"fails while its lines are noted: {name}", flush=True)
    return time.monotonic() - began


def read_or_note(kept: Path | None, copy: Path, workers: int) -> Lines:
    """Returns a record of which tests run each line. Reads the record from the file `kept` if there
    is such a file. Otherwise runs all tests, and writes the record to `kept` unless `kept` is
    `None`."""
    if kept is not None and kept.exists():
        lines: Lines = json.loads(kept.read_text())
        return lines
    lines = note_lines(copy, find_tests(), workers)
    if kept is not None:
        kept.write_text(json.dumps(lines))
    return lines
