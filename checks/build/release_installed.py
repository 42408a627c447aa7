"""Tests a release that is installed or unpacked in any folder: most commands of both programs, the
manuals, the links of the pages, and a recipe."""

from __future__ import annotations

import re
import shutil
import sys
from pathlib import Path

from checks.build.trial import SOUPS, Trial
from checks.lib.commands import Ended, run, write_script
from checks.lib.program import TOP

RIGHT = re.compile(rb"\A(9\+31: )?right\n\Z")
COMPARED = re.compile(rb"^xq4_153 +91 +91 .* glider$", re.MULTILINE)
LISTED = re.compile(rb"^ +[0-9]+ +xq4_153 +91 .* glider$", re.MULTILINE)
RARE = re.compile(rb"^xq7_3nw17862z6952 \(loafer\): none in 100000000 soups", re.MULTILINE)
SETTLED = re.compile(rb"^9 soups, 0 unsettled, . for good$", re.MULTILINE)
# A switch engine is left by this soup. The growth is that of the block-laying switch engine.
GROWING, GROWTH = "223932", re.compile(rb"^223932 linear growth: \+16 cells in 144 generations")
GLIDER = b"OOO\n..O\n.O.\n"
# The first soup of a search of ten soups, and the code of the object that the search finds.
FIRST, FIND = "23285", "xs12_330f96"
FIND_FIELDS = [FIND, "block and cap", "23290"]
# A script that appends its second argument to a file.
TELL = '#!/bin/sh\necho "$2" >> "%s"\n'


class Installed:
    """A release that is installed or unpacked below a folder."""

    def __init__(self, trial: Trial, name: str, prefix: Path, manuals: Path) -> None:
        self.trial, self.name, self.prefix, self.manuals = trial, name, prefix, manuals

    def holds(self, what: str, condition: bool, seen: object = "") -> None:
        self.trial.count.holds(f"{self.name}: {what}", condition, seen)

    def equal(self, what: str, got: Ended, output: bytes) -> None:
        """Counts a check that a call ended with status 0, and printed `output` and no errors."""
        self.trial.count.equal(f"{self.name}: {what}", got, Ended(0, output, b""))

    def finds(self, what: str, got: Ended, pattern: re.Pattern[bytes]) -> None:
        is_right = got.status == 0 and pattern.search(got.output) is not None
        self.holds(what, is_right, (got.status, got.errors, got.output[:300]))

    def census(self, *words: str | Path, given: bytes = b"") -> Ended:
        return self.trial.away(self.prefix / "bin/census", *words, given=given)

    def haul(self, *words: str | Path, given: bytes = b"") -> Ended:
        return self.trial.away(self.prefix / "bin/haul", *words, given=given)

    def try_all(self) -> None:
        self.try_census()
        self.try_views()
        self.try_patterns()
        self.try_one_file()
        for page in ("census", "haul"):
            self.try_manual(page)
        self.try_recipe()
        links = run([sys.executable, "-B", "-m", "checks.lib.links", self.prefix], cwd=TOP)
        is_right = links.status == 0 and not links.output
        self.holds("every link leads to a file and a place that exist", is_right, links)

    # ---- The two programs

    def try_census(self) -> None:
        version, haul, file = self.trial.version, self.trial.haul, self.trial.haul_file
        self.equal("census --version", self.census("--version"), f"census {version}\n".encode())
        self.equal("census take", self.census("take", "--count", SOUPS), haul)
        self.equal("haul --version", self.haul("--version"), f"haul {version}\n".encode())
        self.finds("haul check", self.haul("check", file), RIGHT)

    def try_views(self) -> None:
        file = self.trial.haul_file
        parts = [self.trial.room / name for name in ("first.haul", "second.haul")]
        for part, first, count in zip(parts, (0, 9), (9, 31), strict=True):
            taken = self.census("take", f"--first={first}", f"--count={count}")
            part.write_bytes(taken.output)
        self.equal("haul join", self.haul("join", *parts), self.trial.haul)
        index = self.trial.room / "index"
        index.write_bytes(self.haul("index", *parts).output)
        self.finds("haul index", self.haul("check", index, parts[1]), RIGHT)
        self.finds("haul compare", self.haul("compare", "--whole", file, file), COMPARED)
        self.finds("haul page", self.haul("page", file), re.compile(rb"xq4_153"))
        self.finds("haul rarity", self.haul("rarity", "loafer"), RARE)
        self.finds("haul table", self.haul("table", "--whole", file), LISTED)
        lines = self.census("work", "--count=9", "--worker=1").output
        self.finds("haul soups", self.haul("soups", given=lines), SETTLED)
        self.try_search()

    def try_search(self) -> None:
        """Checks that a search makes the haul of its soups, and calls a program for the find among
        them."""
        folder = self.trial.room / "searched"
        folder.mkdir()
        told, kept = folder / "told", folder / "haul"
        words = ["--seed", "", "--first", FIRST, "--until", "10", "--rarer", "10000"]
        calls: list[str | Path] = ["--finds", write_script(folder / "tell", TELL % told), kept]
        searched = self.haul("search", *words, *calls)
        wanted = self.census("take", "--first", FIRST, "--count", "10").output
        finds = [line.split("\t")[1:4] for line in searched.lines()]
        is_right = searched.status == 0 and finds == [FIND_FIELDS]
        is_right = is_right and kept.is_file() and kept.read_bytes() == wanted
        is_right = is_right and told.is_file() and told.read_text() == f"{FIND}\n"
        self.holds("haul search", is_right, searched)
        shutil.rmtree(folder)

    def try_patterns(self) -> None:
        soup = self.census("soup", "--seed", "k_abcdef", "12345").output
        self.holds("census soup", soup.count(b"\n") == 16, soup)
        self.equal("haul soup", self.haul("soup", "C1/k_abcdef12345"), soup)
        soup = self.census("soup", "1").output
        written = self.haul("rle", given=soup).output
        self.equal("haul rle and cells", self.haul("cells", given=written), soup)
        self.equal("census show", self.census("show", "xq4_153"), GLIDER)
        self.equal("census run", self.census("run", "4", given=GLIDER), GLIDER)
        self.equal("census name", self.census("name", given=GLIDER), b"settled 0\nxq4_153 1\n")
        self.finds("haul why", self.haul("why", GROWING), GROWTH)

    def try_one_file(self) -> None:
        files = [path for path in self.prefix.rglob("haul*") if path.is_file()]
        others = ("/man1/", "complet")
        kept = [path for path in files if not any(other in str(path) for other in others)]
        self.holds("haul is one file", kept == [self.prefix / "bin/haul"], kept)
        # In this copy, the script that starts the census program doesn't work.
        copy = self.trial.room / "no starter"
        shutil.copytree(self.prefix, copy, symlinks=True)
        write_script(copy / "bin/census", "#!/bin/sh\nexit 9\n")
        checked = self.trial.away(copy / "bin/haul", "check", self.trial.haul_file)
        self.finds("haul calls the program itself", checked, RIGHT)
        shutil.rmtree(copy)

    # ---- Manuals and recipes

    def try_manual(self, page: str) -> None:
        """Checks that `man` or `mandoc` can lay out a manual."""
        (file,) = self.manuals.glob(f"{page}.1*")
        for words in (["man", "-l"], ["mandoc"]):
            source = TOP / "docs" / "man" / f"{page}.1"
            if shutil.which(words[0]) and b"NAME" in run([*words, source]).output:
                shown = self.trial.away(*words, file)
                is_right = shown.status == 0 and b"EXIT STATUS" in shown.output
                self.holds(f"{' '.join(words)} {page}", is_right, shown.errors)
                return
        what = f"{self.name}: the manual of {page}"
        self.trial.count.skip(what, "neither man nor mandoc is installed")

    def try_recipe(self) -> None:
        recipes, lines = self.prefix / "share/census/cluster", f"{self.name} lines"
        taken = self.trial.away(recipes / "with-xargs", lines, SOUPS, "15")
        self.trial.count.check(f"{self.name}: a recipe", taken.fault())
        gathered = self.trial.away(recipes / "gather", lines, SOUPS)
        self.equal("what it gathers", gathered, self.trial.haul)
