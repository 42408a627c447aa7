"""The class of a release that checks/build/releases makes and tests. Its functions clone the
checkout, make the release, and call commands where there is no toolchain."""

from __future__ import annotations

import os
import shutil
from collections.abc import Mapping
from pathlib import Path

from checks.lib.commands import Ended, read_files, run, with_variables
from checks.lib.count import Count
from checks.lib.program import TOP

GIT = ["git", "-c", "init.defaultBranch=main", "-c", "advice.detachedHead=false"]
MAINTAINERS = ["-c", "user.name=Gokzerd maintainers"]
MAINTAINERS += ["-c", "user.email=maintainers@users.noreply.gokzerd.example"]
# The settings of another user, which mustn't change a byte of a release.
OTHER_SETTINGS = {
    "TZ": "Asia/Tokyo",
    "LC_ALL": "C",
    "TAR_OPTIONS": "--format=pax",
    "GZIP": "-1",
}
SOUPS = "40"


class Trial:
    """A release that is tested, and the folder in which everything is made."""

    def __init__(self, room: Path, count: Count, version: str) -> None:
        self.room, self.count, self.version = room, count, version
        self.clone, self.dist = room / "clone", room / "dist"
        # The folder with the programs for the processor levels v2 and v3. checks/build/releases
        # sets it.
        self.programs = room / "no programs"
        self.archive_name = f"gokzerd-{version}-x86_64-linux.tar.gz"
        self.package_name = f"gokzerd_{version}_amd64.deb"
        # The folder that is unpacked from the archive.
        self.archive = room / "unpacked" / self.archive_name.removesuffix(".tar.gz")
        # The haul of `SOUPS` soups, and the path of a file with the same haul.
        self.haul, self.haul_file = b"", room / "wanted.haul"
        # The lines that bin/release printed when it made the release for the second time.
        self.said: list[str] = []
        self.bare = {"HOME": str(room / "home"), "LC_ALL": "C.UTF-8", "PATH": path_without_rt()}
        for folder in ("away", "home"):
            (room / folder).mkdir()

    def make_haul(self) -> None:
        """Takes the census of `SOUPS` soups with the program of this checkout."""
        program = self.programs / "census-v2"
        self.haul = run([program, "take", "--count", SOUPS]).output
        self.haul_file.write_bytes(self.haul)

    def archives(self) -> list[str]:
        """Returns the name of the archive and, if dpkg-deb is installed, that of the package."""
        return [self.archive_name, *([self.package_name] if shutil.which("dpkg-deb") else [])]

    def release(
        self,
        *words: str | Path,
        programs: Path | None = None,
        variables: Mapping[str, str] | None = None,
        umask: int = -1,
    ) -> Ended:
        """Calls bin/release of the clone."""
        built = programs or self.programs
        call: list[str | Path] = [self.clone / "bin/release", "--built", built, *words]
        return run(call, env=with_variables(**(variables or {})), umask=umask)

    def away(self, *words: str | Path, given: bytes = b"", **variables: str) -> Ended:
        """Calls a command in a folder that is empty at the first call. The command's environment
        has only `variables`, HOME, LC_ALL, and a PATH without a toolchain."""
        return run(words, given=given, cwd=self.room / "away", env=self.bare | variables)

    # ---- The clone

    def git(self, *words: str | Path) -> Ended:
        return run([*GIT, "-C", self.clone, *words])

    def make_clone(self) -> str:
        """Makes a clone of this checkout. If the checkout has changes, makes a new repository
        instead, and commits copies of the checkout's files there. Returns what is wrong."""
        changes = run([*GIT, "-C", TOP, "status", "--porcelain"])
        if changes.status == 0 and not changes.output:
            return run([*GIT, "clone", "-q", "--no-hardlinks", "--", TOP, self.clone]).fault()
        self.clone.mkdir()
        listing = ["ls-files", "-z", "--cached", "--others", "--exclude-standard"]
        for name in os.fsdecode(run([*GIT, "-C", TOP, *listing]).output).split("\0"):
            source, copy = TOP / name, self.clone / name
            if name and os.path.lexists(source):
                copy.parent.mkdir(parents=True, exist_ok=True)
                shutil.copy(source, copy, follow_symlinks=False)
        message = ["commit", "-qm", "what is tried"]
        calls = [self.git("init", "-q"), self.git("add", "-A"), self.git(*MAINTAINERS, *message)]
        return "".join(call.fault() for call in calls)

    def make_twice(self) -> str:
        """Makes a release, and makes it again with the settings of another user and from another
        folder. Returns what is wrong."""
        made = self.release(self.dist)
        moved = self.room / "moved clone"
        self.clone = self.clone.rename(moved)
        again = self.release(self.room / "again", variables=OTHER_SETTINGS, umask=0o77)
        self.said = again.lines()
        if made.status != 0 or again.status != 0:
            return made.fault() or again.fault()
        first, second = read_files(self.dist), read_files(self.room / "again")
        others = sorted(
            name for name in first.keys() | second.keys() if first.get(name) != second.get(name)
        )
        return f"other bytes: {others}" if others else ""


def path_without_rt() -> str:
    """Returns the PATH without folders that have a toolchain."""
    folders = [folder for folder in os.environ["PATH"].split(":") if folder]
    return ":".join(folder for folder in folders if not Path(folder, "rt").exists())
