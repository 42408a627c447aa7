"""Runs all tests. The last line is `N passed, M failed`, followed by `, K skipped` if tests were
skipped."""

import os
import sys
import tempfile
import unittest
from pathlib import Path

FOLDER = Path(__file__).resolve().parent

with tempfile.TemporaryDirectory(ignore_cleanup_errors=True) as compiled:
    # If Python mustn't write compiled modules beside the sources, it writes them to the temporary
    # folder, since each start of `haul` would otherwise compile all modules again.
    if os.environ.pop("PYTHONDONTWRITEBYTECODE", ""):
        os.environ["PYTHONPYCACHEPREFIX"] = compiled
    suite = unittest.defaultTestLoader.discover(str(FOLDER), top_level_dir=str(FOLDER.parents[1]))
    result = unittest.TextTestRunner(stream=sys.stdout).run(suite)
failed = len({test.id() for test, _ in result.failures + result.errors})
skipped = len(result.skipped)
counts = [f"{result.testsRun - failed - skipped} passed", f"{failed} failed"]
print(*counts, *([f"{skipped} skipped"] if skipped else []), sep=", ")
sys.exit(1 if failed or not result.testsRun else 0)
