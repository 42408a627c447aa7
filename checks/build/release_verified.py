"""Tests `bin/release --verify` on the files of a release, on damaged copies of them, and on a
checkout with changes."""

from __future__ import annotations

import re
import shutil
import subprocess
from pathlib import Path
from typing import NamedTuple

from checks.build.trial import Trial
from checks.lib.commands import Ended, run

SAME = ": the same"
NO_TOOLCHAIN = (
    b"census: the program isn't built from the sources that are here, and can't be: "
    b"there is no command rt on the PATH\n"
)


class Damaged(NamedTuple):
    """A damaged copy of a file, and a pattern of what must be said about it."""

    file: Path
    pattern: str


class Copies:
    """Copies of the folder with the release's files. Each copy has one damaged file. The copies
    differ in which file is damaged, or how."""

    def __init__(self, trial: Trial) -> None:
        self.trial = trial
        self.damaged: list[Damaged] = []

    def add(self, name: str, pattern: str) -> Path:
        """Makes a copy, whose file `name` is to be damaged, and returns its folder. What is said
        about that file must match `pattern`."""
        folder = self.trial.room / "copies" / str(len(self.damaged))
        shutil.copytree(self.trial.dist, folder)
        self.damaged.append(Damaged(folder / name, pattern))
        return folder

    def damage(self) -> None:
        trial = self.trial
        for name in trial.archives():
            size = (trial.dist / name).stat().st_size
            for place in (9, size // 2, size - 1):
                change_byte(self.add(name, "(it|.* (is|has|should)) ") / name, place)
        repack_archive(trial, self.add(trial.archive_name, ".*/bin/haul has another content"))
        provenance = (
            self.add("PROVENANCE.txt", "the line 'program x.*' should not be there")
            / "PROVENANCE.txt"
        )
        text = provenance.read_text()
        provenance.write_text(re.sub(r"^program .", "program x", text, flags=re.MULTILINE))
        other = "gokzerd-9.9.9-x86_64-linux.tar.gz"
        folder = self.add(other, ".*no such file")
        (folder / trial.archive_name).rename(folder / other)
        if trial.package_name in trial.archives():
            pattern = "DEBIAN/control has another content"
            repack_package(trial, self.add(trial.package_name, pattern))


def change_byte(file: Path, place: int) -> None:
    data = bytearray(file.read_bytes())
    data[place] = (data[place] + 1) % 256
    file.write_bytes(data)


def repack_archive(trial: Trial, folder: Path) -> None:
    """Changes a file of an archive, and packs it again."""
    archive, unpacked = folder / trial.archive_name, trial.room / "repacked"
    unpacked.mkdir()
    subprocess.run(["tar", "-xf", archive, "-C", unpacked], check=True)
    with (unpacked / trial.archive.name / "bin/haul").open("ab") as file:
        file.write(b"# more\n")
    packs: list[str | Path] = ["tar", "-czf", archive, "-C", unpacked, trial.archive.name]
    subprocess.run(packs, check=True)


def repack_package(trial: Trial, folder: Path) -> None:
    """Replaces the package by a package of another version, under the same name."""
    package, unpacked = folder / trial.package_name, trial.room / "other"
    subprocess.run(["dpkg-deb", "-R", package, unpacked], check=True)
    control = unpacked / "DEBIAN/control"
    text = control.read_text()
    control.write_text(re.sub(r"^Version: .*", "Version: 9.9.9", text, flags=re.MULTILINE))
    packs: list[str | Path] = [
        "dpkg-deb",
        "--root-owner-group",
        "-Zgzip",
        "--build",
        unpacked,
        package,
    ]
    subprocess.run(packs, check=True, stdout=subprocess.DEVNULL)


def count_verified(trial: Trial, name: str, said: Ended, status: int, end: str) -> None:
    """Counts a check that `--verify` ended with a status, and printed a line that ends with
    `end`."""
    lines = said.lines() + said.error_lines()
    is_right = said.status == status and any(line.endswith(end) for line in lines)
    trial.count.holds(name, is_right, said)


def try_verify(trial: Trial) -> None:
    """Checks a single call of `--verify` with the release's files and all damaged copies. It must
    say that only the release's files are the same as those that the checkout makes, and say what is
    wrong with each damaged file. A call with only the release's files must succeed."""
    copies = Copies(trial)
    copies.damage()
    made = sorted(trial.dist.iterdir())
    damaged = [copy.file for copy in copies.damaged]
    said = trial.release("--verify", *made, *damaged)
    count_verified(trial, "damaged copies", said, 1, SAME)
    same = [line for line in said.lines() if line.endswith(SAME)]
    only = "only what was made is the same"
    trial.count.equal(only, same, [f"{file}{SAME}" for file in made])
    for file, pattern in copies.damaged:
        line = re.compile(f"{re.escape(str(file))}: {pattern}")
        is_said = any(line.match(line_) for line_ in said.lines())
        trial.count.holds(f"damaged: {file.name}: {pattern}", is_said, said)
    count_verified(trial, "what was made", trial.release("--verify", *made), 0, SAME)
    try_provenance(trial, damaged[0].parent)


def try_provenance(trial: Trial, folder: Path) -> None:
    """Checks what is said about files without a PROVENANCE.txt, and about files of another
    commit."""
    provenance, archive = folder / "PROVENANCE.txt", folder / trial.archive_name
    provenance.unlink()
    said = trial.release("--verify", archive)
    end = f"there is no {provenance}, which would say of which commit it is"
    count_verified(trial, "no PROVENANCE.txt", said, 1, end)
    commit = trial.git("rev-parse", "HEAD").lines()[0]
    other = re.sub("[0-9]", "a", commit)
    text = (trial.dist / "PROVENANCE.txt").read_text()
    provenance.write_text(text.replace(f"commit {commit}", f"commit {other}"))
    said = trial.release("--verify", archive)
    end = f"it is of commit {other}, and this checkout is of {commit}"
    count_verified(trial, "another commit", said, 1, end)


def try_refusals(trial: Trial) -> None:
    """Checks that bin/release refuses a checkout with changes and changed programs, and that it
    can't verify a release without a toolchain."""
    count, none = trial.count, trial.room / "none"
    archive = trial.dist / trial.archive_name
    readme, more = trial.clone / "README.md", trial.clone / "haul/more.py"
    with readme.open("a") as file:
        file.write("more\n")
    more.touch()
    commit = trial.git("rev-parse", "HEAD").lines()[0][:12]
    said = trial.release("--verify", archive)
    end = f"README.md isn't as it is in commit {commit}"
    count_verified(trial, "a checkout with a changed file", said, 1, end)
    said = trial.release(none)
    is_refused = said.status != 0 and not none.exists()
    is_refused = is_refused and f"release: haul/more.py isn't as it is in commit {commit}" in (
        said.error_lines()
    )
    count.holds("nothing is made of it", is_refused, said)
    trial.git("checkout", "-q", "--", "README.md")
    more.unlink()
    try_other_programs(trial, none)
    bare = {"PATH": trial.bare["PATH"]}
    said = run([trial.clone / "bin/release", "--verify", archive], env=trial.bare | bare)
    count.equal("without a toolchain", said, Ended(70, b"", NO_TOOLCHAIN))
    count.equal("the clone is unchanged", trial.git("status", "--porcelain"), Ended(0, b"", b""))


def try_other_programs(trial: Trial, none: Path) -> None:
    programs = trial.room / "programs"
    shutil.copytree(trial.programs, programs)
    with (programs / "census-v3").open("ab") as file:
        file.write(b"more\n")
    said = trial.release(none, programs=programs)
    lines = [line for line in said.error_lines() if line.startswith("programs: ")]
    is_refused = said.status == 1 and len(lines) == 1 and lines[0].endswith(" census-v3")
    trial.count.holds("changed programs", is_refused and not none.exists(), said)
