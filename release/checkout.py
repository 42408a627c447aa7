"""The checkout from which a release is made: its commit, its version and its files."""

from __future__ import annotations

import hashlib
import os
import re
import subprocess
from dataclasses import dataclass
from pathlib import Path

from release import Failed

VERSION = re.compile(r'^VERSION = "([0-9]+\.[0-9]+\.[0-9]+)"$', re.MULTILINE)


@dataclass(frozen=True)
class Checkout:
    """A checkout without changes."""

    top: Path
    commit: str
    # The time of the commit, in seconds since 1970.
    date: int
    version: str
    # The files of the commit.
    files: frozenset[str]

    def sum_of_files(self) -> str:
        """Returns the SHA-256 of the list of the commit's files, each with its mode and its digest
        in git.
        """
        return hashlib.sha256(git(self.top, "ls-tree", "-r", self.commit)).hexdigest()


def clean_checkout(top: Path) -> Checkout:
    """Returns the checkout in a folder. Raises `Failed` if it differs from its commit."""
    commit = git(top, "rev-parse", "--verify", "HEAD^{commit}").decode().strip()
    above = git(top, "rev-parse", "--show-toplevel").decode().removesuffix("\n")
    if not os.path.samefile(above, top):
        raise Failed(f"{top} isn't the top of a checkout")
    # Each entry consists of two characters for the status, a blank, the path, and a NUL.
    said = git(
        top,
        "status",
        "--porcelain=v1",
        "-z",
        "--untracked-files=all",
        "--no-renames",
        "--ignore-submodules=none",
    )
    changed = sorted(os.fsdecode(entry[3:]) for entry in said.split(b"\0") if entry)
    if changed:
        raise Failed(
            *(f"{path} isn't as it is in commit {commit[:12]}" for path in changed),
            "the checkout has changes, so nothing is made of it",
        )
    date = int(git(top, "show", "--no-patch", "--format=%ct", commit))
    files = git(top, "ls-files", "-z").split(b"\0")
    return Checkout(
        top, commit, date, version_of(top), frozenset(os.fsdecode(file) for file in files if file)
    )


def version_of(top: Path) -> str:
    found = VERSION.search((top / "haul" / "__init__.py").read_text())
    if found is None:
        raise Failed("haul/__init__.py has no line with the version")
    return found[1]


def git(top: Path, *words: str) -> bytes:
    """Returns what git prints about a checkout, without changing the checkout."""
    # If a git hook calls this, the environment names another checkout, so git's variables are left
    # out.
    environment = {name: value for name, value in os.environ.items() if not name.startswith("GIT_")}
    environment |= {"GIT_OPTIONAL_LOCKS": "0", "LC_ALL": "C"}
    try:
        called = subprocess.run(
            ["git", "-C", str(top), *words],
            stdin=subprocess.DEVNULL,
            capture_output=True,
            env=environment,
            check=False,
        )
    except OSError:
        raise Failed("there is no git, which says what the checkout has") from None
    if called.returncode != 0:
        said = called.stderr.decode("utf-8", "replace").strip().splitlines()
        raise Failed(f"git {words[0]} failed in {top}: {said[-1] if said else called.returncode}")
    return called.stdout
