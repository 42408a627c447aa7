"""The command line of `bin/release`."""

from __future__ import annotations

import argparse
import re
import sys
import tempfile
from pathlib import Path

from release import Failed
from release.checkout import Checkout, clean_checkout
from release.make import PROVENANCE, call_programs, files_of_release, write_release
from release.pack import differences

TOP = Path(__file__).resolve().parent.parent
DESCRIPTION = "Makes a release of a checkout without changes: an archive, a Debian package, PROVENANCE.txt and SHA256SUMS."
COMMIT = re.compile(r"^commit ([0-9a-f]{40}|[0-9a-f]{64})$", re.MULTILINE)


def parser() -> argparse.ArgumentParser:
    words = argparse.ArgumentParser(prog="bin/release", description=DESCRIPTION)
    words.add_argument(
        "--built",
        metavar="FOLDER",
        type=Path,
        help="take the programs that bin/programs has put into this folder",
    )
    words.add_argument(
        "--verify",
        metavar="FILE",
        nargs="+",
        type=Path,
        help="make the release anew and compare these files with it; PROVENANCE.txt beside each says of which commit it is",
    )
    words.add_argument(
        "folder", nargs="?", type=Path, help="where the files are put (default: dist)"
    )
    return words


def files_made(checkout: Checkout, built: Path | None) -> dict[str, bytes]:
    """Returns the files of the release. If `built` is `None`, the programs are built now."""
    if built is not None:
        call_programs(TOP, ["--look", str(built)])
        return files_of_release(checkout, built)
    with tempfile.TemporaryDirectory() as room:
        call_programs(TOP, [room])
        return files_of_release(checkout, Path(room))


def make(built: Path | None, folder: Path) -> int:
    write_release(files_made(clean_checkout(TOP), built), folder)
    print("No licence is given: the law allows no more than it does without one.")
    return 0


def look_at_commit(checkout: Checkout, file: Path) -> None:
    """Raises `Failed` unless the provenance beside a file names the commit that is checked out."""
    path = file.parent / PROVENANCE
    try:
        found = COMMIT.search(path.read_text(errors="replace"))
    except OSError:
        raise Failed(f"{file}: there is no {path}, which would say of which commit it is") from None
    if found is None:
        raise Failed(f"{file}: {path} names no commit")
    if found[1] != checkout.commit:
        raise Failed(
            f"{file}: it is of commit {found[1]}, and this checkout is of {checkout.commit}"
        )


def verify(built: Path | None, files: list[Path]) -> int:
    checkout = clean_checkout(TOP)
    given = {file: read(file) for file in files}
    for file in files:
        look_at_commit(checkout, file)
    made = files_made(checkout, built)
    status = 0
    for file, data in given.items():
        if file.name in made:
            found = differences(file.name, data, made[file.name])
        else:
            found = [f"the release of this commit has no such file, but {', '.join(made)}"]
        for line in found or ["the same"]:
            print(f"{file}: {line}")
        status = 1 if found else status
    return status


def read(file: Path) -> bytes:
    try:
        return file.read_bytes()
    except OSError as error:
        raise Failed(f"{file}: {error.strerror}") from None


def main() -> int:
    asked = parser().parse_args()
    if asked.verify and asked.folder:
        parser().error("--verify takes files alone")
    try:
        return (
            verify(asked.built, asked.verify)
            if asked.verify
            else make(asked.built, asked.folder or TOP / "dist")
        )
    except Failed as why:
        for line in why.args:
            print(f"release: {line}", file=sys.stderr)
        return why.status
    except OSError as error:
        print(f"release: {error.filename}: {error.strerror}", file=sys.stderr)
        return 1
    except KeyboardInterrupt:
        print("release: interrupted", file=sys.stderr)
        return 130
