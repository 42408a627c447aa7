"""The contents of the archive and of the package: the place, the bytes and the mode of each
file.
"""

from __future__ import annotations

import hashlib
from email.utils import formatdate
from pathlib import Path

from release import Failed
from release.checkout import Checkout
from release.pack import PROGRAM, TEXT, File, Tree, gzipped
from release.pages import moved_page
from release.zipped import is_packed, packed

PAGES = [
    "README.md",
    "CHANGELOG.md",
    *(f"docs/{name}.md" for name in ("COMMANDS", "FORMATS", "PROFILE", "BOOK", "LIMITS")),
]
DOC = "share/doc/gokzerd"
LIBEXEC = "libexec/gokzerd"


def places_of(checkout: Checkout, zsh: str) -> dict[str, str]:
    """Maps each file of the repository that is installed as a separate file to its place below the
    folder of an installation. `zsh` is the name of the folder for zsh's completions, which depends
    on the system.
    """
    places = {"release/census": "bin/census", "release/processor.sh": f"{LIBEXEC}/processor.sh"}
    places |= {
        page: f"{DOC}/{page.rpartition('/')[2]}"
        for page in [*PAGES, "docs/page.png", "examples/100000.html"]
    }
    for name in ("census", "haul"):
        places[f"docs/man/{name}.1"] = f"share/man/man1/{name}.1"
        places[f"completions/{name}.bash"] = f"share/bash-completion/completions/{name}"
        places[f"completions/_{name}"] = f"share/zsh/{zsh}/_{name}"
        places[f"completions/{name}.fish"] = f"share/fish/vendor_completions.d/{name}.fish"
    places |= {
        file: f"share/census/{file}"
        for file in checkout.files
        if file.rpartition("/")[0] in ("cluster", "reference")
    }
    lacking = sorted(set(places) - checkout.files)
    if lacking:
        raise Failed(*(f"the commit has no file {file}" for file in lacking))
    return places


def installed(checkout: Checkout, programs: Path, zsh: str) -> Tree:
    """Returns the files below the folder in which a release is installed."""
    places = places_of(checkout, zsh)
    # Some pages link to folders, and to the page about the examples. In a release, a link to that
    # page leads to the only example.
    linked = {
        **places,
        "cluster": "share/census/cluster",
        "reference": "share/census/reference",
        "docs/man": "share/man/man1",
        "examples/README.md": f"{DOC}/100000.html",
    }
    tree: Tree = {}
    for path, place in places.items():
        file = checkout.top / path
        data = file.read_bytes()
        if path.endswith(".md"):
            data = moved_page(data.decode(), path, linked).encode()
        tree[place] = File(data, PROGRAM if file.stat().st_mode & 0o100 else TEXT)
    tree["bin/haul"] = File(packed(checkout.top, filter(is_packed, checkout.files)), PROGRAM)
    for name in ("census-v2", "census-v3"):
        tree[f"{LIBEXEC}/{name}"] = File((programs / name).read_bytes(), PROGRAM)
    return tree


def archive_tree(checkout: Checkout, programs: Path) -> Tree:
    """Returns the contents of the archive, below a folder with the release's name."""
    tree = installed(checkout, programs, "site-functions")
    tree["install"] = File((checkout.top / "bin" / "install").read_bytes(), PROGRAM)
    tree["uninstall"] = File((checkout.top / "release" / "uninstall").read_bytes(), PROGRAM)
    return {f"{name_of(checkout)}/{place}": file for place, file in tree.items()}


def name_of(checkout: Checkout) -> str:
    return f"gokzerd-{checkout.version}-x86_64-linux"


def package_tree(checkout: Checkout, programs: Path) -> Tree:
    """Returns the contents of the package: the installed files below /usr, in the form that Debian
    requires, and the package's description.
    """
    own = checkout.top / "release"
    tree = {}
    for place, file in installed(checkout, programs, "vendor-completions").items():
        if place.startswith("share/man/"):
            place, file = f"{place}.gz", File(gzipped(file.data), file.mode)
        tree[f"usr/{place}"] = file
    tree[f"usr/{DOC}/copyright"] = File((own / "copyright").read_bytes(), TEXT)
    tree[f"usr/{DOC}/changelog.gz"] = File(gzipped(debian_changelog(checkout)), TEXT)
    tree["usr/share/lintian/overrides/gokzerd"] = File(
        (own / "lintian-overrides").read_bytes(), TEXT
    )
    return tree | package_description(checkout, tree)


def package_description(checkout: Checkout, tree: Tree) -> Tree:
    folders = {folder for place in tree for folder in Path(place).parents}
    kilobytes = sum(-(-len(file.data) // 1024) for file in tree.values()) + len(folders)
    control = (checkout.top / "release" / "control").read_text()
    control = control.replace("Version: VERSION", f"Version: {checkout.version}").replace(
        "Installed-Size: SIZE", f"Installed-Size: {kilobytes}"
    )
    sums = "".join(
        f"{hashlib.md5(tree[place].data).hexdigest()}  {place}\n" for place in sorted(tree)
    )
    return {
        "DEBIAN/control": File(control.encode(), TEXT),
        "DEBIAN/md5sums": File(sums.encode(), TEXT),
    }


def maintainer(checkout: Checkout) -> str:
    for line in (checkout.top / "release" / "control").read_text().splitlines():
        if line.startswith("Maintainer: "):
            return line.removeprefix("Maintainer: ")
    raise Failed("release/control names no maintainer")


def debian_changelog(checkout: Checkout) -> bytes:
    """Returns the changelog for Debian's tools, which only refers to CHANGELOG.md beside it."""
    return (
        f"gokzerd ({checkout.version}) unstable; urgency=medium\n\n  * What has changed is in CHANGELOG.md, beside this file.\n\n"
        f" -- {maintainer(checkout)}  {formatdate(checkout.date)}\n"
    ).encode()
