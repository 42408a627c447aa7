"""Tests the package of a release in whole systems: Debian's stable and oldstable releases."""

from __future__ import annotations

import os
import shutil
import subprocess
from pathlib import Path

from checks.build.trial import SOUPS, Trial

RELEASES = ("stable", "oldstable")
# The number of checks for each release of Debian.
CHECKS = 2
MOST_SECONDS = 3600
MIRROR = "http://deb.debian.org/debian"
# As usual in Debian, the packages that a package recommends are installed with it.
CALLS = f"""\
cd /root && apt-get install -y -o APT::Install-Recommends=true ./gokzerd_*.deb &&
census take --count {SOUPS} > haul && haul check haul > checked
"""


def can_make() -> bool:
    tools = ("mmdebstrap", "dpkg-deb")
    return os.geteuid() == 0 and all(shutil.which(tool) for tool in tools)


class Debian:
    """A system of Debian, which is made while the release of Gokzerd is made. Then the package is
    installed in the system."""

    def __init__(self, trial: Trial, name: str) -> None:
        self.trial, self.name, self.room = trial, name, trial.room / name
        self.room.mkdir()
        (self.room / "calls").write_text(CALLS)
        hooks = [
            f"touch {self.room}/begun",
            f"until [ -e {trial.room}/package.made ]; do sleep 1; done",
            f"copy-in {trial.dist}/{trial.package_name} {self.room}/calls /root",
            'chroot "$1" sh /root/calls',
            f"copy-out /root/haul /root/checked {self.room}",
        ]
        words = ["timeout", str(MOST_SECONDS)]
        words += ["mmdebstrap", "--quiet", "--variant=minbase", "--format=null"]
        words += [f"--customize-hook={hook}" for hook in hooks]
        words += [name, "/dev/null", MIRROR]
        with (self.room / "said").open("wb") as said:
            self.process = subprocess.Popen(
                words, stdin=subprocess.DEVNULL, stdout=said, stderr=subprocess.STDOUT
            )

    def try_package(self) -> None:
        """Waits until the package has been tried, and counts the checks."""
        self.process.wait()
        count = self.trial.count
        lines = (self.room / "said").read_text(errors="replace").splitlines()
        if not (self.room / "begun").exists():
            why = f"it can't be made here: {lines[-1] if lines else ''}"
            count.skip(f"Debian {self.name}", why, CHECKS)
            return
        haul, checked = (read(self.room / name) for name in ("haul", "checked"))
        taken = haul == self.trial.haul
        count.holds(f"Debian {self.name}: installed, it takes the census", taken, lines[-5:])
        count.equal(f"Debian {self.name}: haul", checked, b"right\n")

    def end(self) -> None:
        """Ends the program that makes the system. That program ends the processes that it
        started."""
        if self.process.poll() is None:
            self.process.terminate()
            self.process.wait()


def read(path: Path) -> bytes:
    return path.read_bytes() if path.exists() else b""
