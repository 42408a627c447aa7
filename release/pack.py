"""Packs the files of a release into an archive and a Debian package, and reads them again. The bytes
depend only on the files, the date, and the versions of zlib and dpkg-deb.
"""

from __future__ import annotations

import gzip
import hashlib
import io
import os
import shutil
import subprocess
import tarfile
import tempfile
import zlib
from dataclasses import dataclass
from pathlib import Path

from release import Failed

PACKER = "dpkg-deb"
PROGRAM, TEXT = 0o755, 0o644
BEST = 9


@dataclass(frozen=True)
class File:
    data: bytes
    mode: int


# The files of an archive or a package, by their places.
Tree = dict[str, File]


def gzipped(data: bytes) -> bytes:
    """Returns the data compressed with gzip, without a name or a date."""
    packed = io.BytesIO()
    with gzip.GzipFile(filename="", mode="wb", compresslevel=BEST, fileobj=packed, mtime=0) as file:
        file.write(data)
    return packed.getvalue()


def write_tree(tree: Tree, folder: Path) -> None:
    """Writes the files below a folder, with their modes, regardless of the umask."""
    for place, file in tree.items():
        path = folder / place
        path.parent.mkdir(parents=True, exist_ok=True)
        path.write_bytes(file.data)
        path.chmod(file.mode)
    for above, _, _ in os.walk(folder):
        os.chmod(above, PROGRAM)


def called(words: list[str | Path], date: int = 0) -> bytes:
    """Returns what a tool prints. Nothing in the caller's environment changes what it makes."""
    settings = {"LC_ALL": "C", "TZ": "UTC", "SOURCE_DATE_EPOCH": str(date)}
    settings["PATH"] = os.environ.get("PATH", "/usr/bin:/bin")
    try:
        ended = subprocess.run(words, capture_output=True, env=settings, check=False)
    except OSError:
        raise Failed(f"there is no {words[0]}, with which a release is packed") from None
    if ended.returncode != 0:
        said = ended.stderr.decode("utf-8", "replace").strip().splitlines()
        raise Failed(f"{words[0]} failed: {said[-1] if said else ended.returncode}")
    return ended.stdout


def archive(tree: Tree, date: int) -> bytes:
    """Returns a compressed archive of files. All have the same date and belong to user 0."""
    with tempfile.TemporaryDirectory() as room:
        write_tree(tree, Path(room))
        words: list[str | Path] = ["tar", "--create", "--format=ustar", "--sort=name"]
        words += [f"--mtime=@{date}", "--owner=0", "--group=0", "--numeric-owner", "-C", room]
        return gzipped(called([*words, *sorted(os.listdir(room))]))


def package(tree: Tree, date: int) -> bytes:
    """Returns a Debian package of files, which include the package's description."""
    with tempfile.TemporaryDirectory() as room:
        made = Path(room, "made.deb")
        write_tree(tree, Path(room, "tree"))
        words: list[str | Path] = [PACKER, "--root-owner-group", "-Zgzip", f"-z{BEST}"]
        called([*words, "--uniform-compression", "--build", f"{room}/tree", made], date)
        return made.read_bytes()


def has_packer() -> bool:
    return shutil.which(PACKER) is not None


def packed_by() -> list[str]:
    """Returns the versions of what packs a release."""
    dpkg = called([PACKER, "--version"]).decode().splitlines()[0] if has_packer() else "no dpkg-deb"
    return [f"zlib {zlib.ZLIB_RUNTIME_VERSION}", dpkg.rstrip(".")]


def differences(name: str, given: bytes, made: bytes) -> list[str]:
    """Returns how a file differs from the one that was made, or nothing if all bytes are the
    same.
    """
    if given == made:
        return []
    try:
        known, wanted = contents(name, given), contents(name, made)
    except (Failed, tarfile.TarError, OSError, EOFError, zlib.error) as error:
        return [f"it can't be read: {error}"]
    found = [f"{place} is missing" for place in sorted(wanted.keys() - known.keys())]
    found += [f"{place} should not be there" for place in sorted(known.keys() - wanted.keys())]
    for place in sorted(known.keys() & wanted.keys()):
        if known[place] != wanted[place]:
            found.append(f"{place} has another content, mode, owner or date")
    return found or ["it was packed otherwise, though each file in it is the same"]


def contents(name: str, data: bytes) -> dict[str, object]:
    """Returns what an archive or a package has at each place, and what a text has in each line."""
    if name.endswith(".tar.gz"):
        return members(gzip.decompress(data))
    if not name.endswith(".deb"):
        return {f"the line '{line}'": "" for line in data.decode("utf-8", "replace").splitlines()}
    with tempfile.NamedTemporaryFile() as file:
        file.write(data)
        file.flush()
        control, files = (
            members(called([PACKER, part, file.name]))
            for part in ("--ctrl-tarfile", "--fsys-tarfile")
        )
    return {f"DEBIAN/{place}": fact for place, fact in control.items()} | files


def members(data: bytes) -> dict[str, object]:
    """Returns the facts about each member of an archive that isn't compressed."""
    found: dict[str, object] = {}
    with tarfile.open(fileobj=io.BytesIO(data)) as file:
        for member in file:
            read = file.extractfile(member) if member.isreg() else None
            digest = hashlib.sha256(read.read()).hexdigest() if read else member.linkname
            owner = (member.uid, member.uname, member.gid, member.gname)
            facts = (digest, member.type, member.mode, owner, member.mtime)
            found[member.name.removeprefix("./")] = facts
    return found
