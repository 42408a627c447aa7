"""The folder of what the user has added to `haul`: names of objects, and lists of known codes.

The environment variable HAUL_DATA names the folder. If it is empty, what the user has added is
ignored, as with `--no-data`. If it isn't set, the folder is `haul` in $XDG_DATA_HOME, which is
~/.local/share by default.
"""

from __future__ import annotations

import fcntl
import os
from collections.abc import Iterator
from contextlib import contextmanager
from pathlib import Path

VARIABLE = "HAUL_DATA"
LOCK = "lock"


class Use:
    """Whether this call uses the folder."""

    is_on = True


def find_folder() -> Path | None:
    """Returns the folder, which may not exist, or `None` if it is ignored."""
    if not Use.is_on:
        return None
    named = os.environ.get(VARIABLE)
    if named is not None:
        return Path(named) if named else None
    home = os.environ.get("XDG_DATA_HOME", "")
    # The standard of these folders says that a relative path is ignored.
    return Path(home if os.path.isabs(home) else os.path.expanduser("~/.local/share")) / "haul"


@contextmanager
def locked(folder: Path) -> Iterator[None]:
    """Makes the folder, and waits until no other call changes what is in it."""
    folder.mkdir(parents=True, exist_ok=True)
    with (folder / LOCK).open("ab") as lock:
        fcntl.flock(lock, fcntl.LOCK_EX)
        yield


def replace_text(path: Path, text: str) -> None:
    """Replaces the text of a file in the folder, which must be locked. The file is whole at any
    time."""
    path.parent.mkdir(parents=True, exist_ok=True)
    new = path.with_name(f"{path.name}.new")
    with new.open("w", encoding="utf-8") as file:
        file.write(text)
        file.flush()
        os.fsync(file.fileno())
    os.replace(new, path)
