"""Tests the package of a release, which is unpacked into an empty folder."""

from __future__ import annotations

import re
import shutil
from pathlib import Path

from checks.build.release_installed import Installed
from checks.build.trial import Trial
from checks.lib.commands import read_files, run

# The number of checks, apart from those of `Installed`.
CHECKS_OF_PACKAGE = 5
GLIBC = re.compile(rb"GLIBC_([0-9.]+[0-9])")
DEPENDS = re.compile(r"libc6 \(>= ([0-9.]*)\)")


def try_package(trial: Trial) -> None:
    count, package, folder = trial.count, trial.dist / trial.package_name, trial.room / "package"
    count.check("the package is unpacked", run(["dpkg-deb", "-x", package, folder]).fault())
    Installed(trial, "package", folder / "usr", folder / "usr/share/man/man1").try_all()
    programs = [read_files(top / "libexec") for top in (trial.archive, folder / "usr")]
    is_same = programs[0] == programs[1] and len(programs[0]) >= 3
    count.holds("the package has the programs of the archive", is_same)
    fields = run(["dpkg-deb", "-f", package, "Package", "Version", "Architecture"])
    wanted = ["Package: gokzerd", f"Version: {trial.version}", "Architecture: amd64"]
    count.equal("the package states its version", fields.lines(), wanted)
    count.check("it depends on a C library with all functions", fault_of_library(trial, package))
    if shutil.which("lintian"):
        said = run(["lintian", "--allow-root", package])
        count.equal("lintian reports nothing", said.output + said.errors, b"")
    else:
        count.skip("the package's form", "lintian isn't installed")


def fault_of_library(trial: Trial, package: Path) -> str:
    """Returns what is wrong if the programs call a function that needs a later version of the C
    library than the version that the package depends on."""
    found = DEPENDS.search(run(["dpkg-deb", "-f", package, "Depends"]).lines()[0])
    called = {
        version
        for level in ("v2", "v3")
        for version in GLIBC.findall((trial.programs / f"census-{level}").read_bytes())
    }
    if found is None or not called:
        return f"it depends on {found}, and calls functions of {called}"
    most = max(tuple(map(int, version.split(b"."))) for version in called)
    asked = tuple(map(int, found[1].split(".")))
    return "" if most <= asked else f"it depends on {asked}, and calls functions of {most}"
