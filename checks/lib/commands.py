"""Functions that run commands, list folders, and read and write files."""

from __future__ import annotations

import os
import subprocess
from collections.abc import Mapping, Sequence
from pathlib import Path
from typing import NamedTuple

from checks.lib.calls import shown

# No command takes longer than this unless it hangs.
MOST_SECONDS = 600.0


class Ended(NamedTuple):
    """How a command ended: its exit status, or minus the number of the signal that ended it, and
    what it printed."""

    status: int
    output: bytes
    errors: bytes

    def __repr__(self) -> str:
        return f"status {self.status}, {shown(self.output)}, {shown(self.errors)}"

    def lines(self) -> list[str]:
        return os.fsdecode(self.output).splitlines()

    def error_lines(self) -> list[str]:
        return os.fsdecode(self.errors).splitlines()

    def fault(self, status: int = 0) -> str:
        """Returns what is wrong, or nothing if the command ended with `status`."""
        if self.status == status:
            return ""
        return f"status {self.status}, and not {status}: {os.fsdecode(self.errors)[-300:]}"


def run(
    words: Sequence[str | Path],
    given: bytes = b"",
    cwd: str | Path | None = None,
    env: Mapping[str, str] | None = None,
    stdin: int | None = None,
    umask: int = -1,
    seconds: float = MOST_SECONDS,
) -> Ended:
    """Runs a command with `given`, or the open file `stdin`, as its standard input."""
    ended = subprocess.run(
        words,
        input=given if stdin is None else None,
        stdin=stdin,
        capture_output=True,
        cwd=cwd,
        env=env,
        umask=umask,
        timeout=seconds,
        check=False,
    )
    return Ended(ended.returncode, ended.stdout, ended.stderr)


def with_variables(**variables: str) -> dict[str, str]:
    """Returns the environment of this process with some variables changed."""
    return os.environ | variables


def list_contents(folder: Path) -> list[str]:
    """Returns the names of everything below a folder, in order."""
    return sorted(path.relative_to(folder).as_posix() for path in folder.rglob("*"))


def read_files(folder: Path) -> dict[str, bytes]:
    """Returns the contents of all files below a folder, by their names. A folder that doesn't exist
    has none."""
    return {
        path.relative_to(folder).as_posix(): path.read_bytes()
        for path in sorted(folder.rglob("*"))
        if path.is_file()
    }


def write_script(path: Path, text: str) -> Path:
    """Writes an executable file."""
    path.write_text(text)
    path.chmod(0o755)
    return path
