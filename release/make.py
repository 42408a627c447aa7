"""Makes the files of a release."""

from __future__ import annotations

import hashlib
import os
import signal
import subprocess
import sys
from pathlib import Path

from release import Failed
from release.checkout import Checkout
from release.contents import archive_tree, name_of, package_tree
from release.pack import archive, has_packer, package, packed_by

PROVENANCE, SUMS = "PROVENANCE.txt", "SHA256SUMS"


def sha256(data: bytes) -> str:
    return hashlib.sha256(data).hexdigest()


def call_programs(top: Path, words: list[str]) -> None:
    """Calls bin/programs, which reports errors itself."""
    # Ctrl-C also reaches bin/programs, which then ends the prover. Until that has happened, this
    # process ignores Ctrl-C and waits.
    before = signal.signal(signal.SIGINT, lambda _number, _frame: None)
    try:
        call = [str(top / "bin" / "programs"), *words]
        status = subprocess.run(call, stdin=subprocess.DEVNULL, check=False).returncode
    finally:
        signal.signal(signal.SIGINT, before)
    if status != 0:
        raise Failed(status=status if status > 0 else 128 - status)


def files_of_release(checkout: Checkout, programs: Path) -> dict[str, bytes]:
    """Returns the files of a release by name. The release is made of a checkout, and of the
    programs in the folder `programs`. There is no package if dpkg-deb isn't installed.
    """
    version = subprocess.run(
        [programs / "census-v2", "--version"], capture_output=True, check=False
    )
    said = version.stdout.decode("utf-8", "replace").removeprefix("census ").rstrip("\n")
    if said != checkout.version:
        raise Failed(
            f"the program says that it is of version {said}, and haul/__init__.py says {checkout.version}"
        )
    made = {f"{name_of(checkout)}.tar.gz": archive(archive_tree(checkout, programs), checkout.date)}
    if has_packer():
        tree = package_tree(checkout, programs)
        made[f"gokzerd_{checkout.version}_amd64.deb"] = package(tree, checkout.date)
    made[PROVENANCE] = provenance(checkout, programs, list(made)).encode()
    made[SUMS] = "".join(
        f"{sha256(data)}  {name}\n" for name, data in sorted(made.items())
    ).encode()
    return made


def provenance(checkout: Checkout, programs: Path, archives: list[str]) -> str:
    """Returns a text that says from what a release was made, with which tools, and how anyone can
    verify it.
    """
    lines = [f"Gokzerd {checkout.version}", "", f"commit {checkout.commit}"]
    lines.append(
        f"files {checkout.sum_of_files()} (the SHA-256 of what `git ls-tree -r` prints of the commit)"
    )
    toolchain = (programs / "from").read_text().partition("\n")[0]
    lines.append(f"toolchain {toolchain}")
    lines += [
        f"program {sha256((programs / f'census-{level}').read_bytes())} census-{level}"
        for level in ("v2", "v3")
    ]
    lines += [
        "",
        "What the prover said of each crate, and of the program for the processors of each level:",
        "",
        *(programs / "verdicts").read_text().splitlines(),
    ]
    lines += ["", "Packed by:", "", *packed_by()]
    lines += [
        "",
        "In a clone of the repository, with this file beside the archives, these two commands make all of it anew and compare:",
        "",
        f"git checkout {checkout.commit}",
        f"bin/release --verify {' '.join(f'FOLDER/{name}' for name in archives)}",
    ]
    return "".join(f"{line}\n" for line in lines)


def write_release(made: dict[str, bytes], folder: Path) -> None:
    """Writes the files into a folder. Each file gets its name only when it is complete."""
    try:
        folder.mkdir(parents=True, exist_ok=True)
        for name, data in made.items():
            next_one = folder / f".{name}.next"
            next_one.write_bytes(data)
            os.replace(next_one, folder / name)
    except OSError as error:
        raise Failed(f"{error.filename}: {error.strerror}") from None
    for name in made:
        print(folder / name)
    if not has_packer():
        print("release: there is no dpkg-deb, so no package was made", file=sys.stderr)
