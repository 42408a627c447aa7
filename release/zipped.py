"""Packs the companion `haul` into a single file: the shell's lines of bin/haul, followed by a zip
archive that Python runs.

usage: python3 -I -S release/zipped.py > FILE

The shell replaces itself by Python before it reads the archive, and Python looks for an archive at
the end of the file that it runs. The archive has the rest of bin/haul as `__main__.py`, and the
package `haul` without its tests, with the tables of reference/. Nothing in it is compressed, so its
bytes don't depend on the version of zlib.
"""

from __future__ import annotations

import io
import re
import sys
import zipfile
from collections.abc import Iterable
from pathlib import Path

# The package, and the part of it that isn't packed.
PACKAGE, TESTS = "haul/", "haul/tests/"
# The folder of the reference census. In the archive it is a folder of the package.
REFERENCE, READ_ME = "reference/", "reference/README.md"
ENDINGS = (".py", ".html", ".css", ".js", ".tsv")
# The earliest date that a file in an archive can have.
DATE = (1980, 1, 1, 0, 0, 0)
# The mode of a text file, and the number that stands for Unix in a zip archive.
MODE, UNIX = 0o100644, 3
# The two lines of bin/haul that enclose the shell's part.
QUOTES = re.compile(r"^'''(?::')?\n", re.MULTILINE)
COMMENT = re.compile(r"^#.*\n", re.MULTILINE)
ABOUT = "# The companion `haul` of Gokzerd: these lines for the shell, and a zip archive for Python, which `unzip -l` lists.\n"


def is_packed(path: str) -> bool:
    """Checks whether the archive contains a file, given by its path in the repository."""
    if path.startswith(REFERENCE):
        return path != READ_ME
    return path.startswith(PACKAGE) and not path.startswith(TESTS) and path.endswith(ENDINGS)


def place_of(path: str) -> str:
    """Returns the place of a file in the archive."""
    return PACKAGE + path if path.startswith(REFERENCE) else path


def packed(top: Path, paths: Iterable[str]) -> bytes:
    """Returns `haul` as a single file, whose archive contains these files of a checkout."""
    head, shell, main = QUOTES.split((top / "bin" / "haul").read_text("utf-8"))
    files = {"__main__.py": main.encode()}
    files.update((place_of(path), (top / path).read_bytes()) for path in paths)
    made = io.BytesIO()
    made.write((head + ABOUT + COMMENT.sub("", shell)).encode())
    with zipfile.ZipFile(made, "w") as archive:
        for name, data in sorted(files.items()):
            entry = zipfile.ZipInfo(name, DATE)
            entry.create_system, entry.external_attr = UNIX, MODE << 16
            archive.writestr(entry, data)
    return made.getvalue()


def paths_in(top: Path) -> list[str]:
    """Returns the paths of the checkout's files that the archive contains."""
    paths = (
        path.relative_to(top).as_posix()
        for folder in (PACKAGE, REFERENCE)
        for path in (top / folder).rglob("*")
        if not path.is_dir()
    )
    return sorted(filter(is_packed, paths))


def main() -> None:
    top = Path(__file__).resolve().parents[1]
    sys.stdout.buffer.write(packed(top, paths_in(top)))


if __name__ == "__main__":
    main()
