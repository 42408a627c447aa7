"""Each command with each kind of file: it reads the file, or says in one line what the file looks
like."""

from __future__ import annotations

import gzip
import unittest
from functools import cache
from pathlib import Path
from tempfile import TemporaryDirectory

from haul.formats.recognition import FORMS, describe_other_form, find_form, recognize
from haul.tests.called import CENSUS, census, run, taken
from haul.tests.test_apgsearch import TEXT as APGSEARCH

# What a message says about each kind of file. The kinds that begin alike are told apart later.
LOOKS = {
    "haul": "a haul, which `haul table` and `haul check` read",
    "several": "more than one haul, which `haul join` adds up",
    "apgsearch": "a haul of apgsearch, which `haul table` and `haul check` read",
    "reports": "report lines, which `census gather`, `haul soups` and `haul why` read",
    "late": "the late soups of a search, which `haul soups` and `haul why` read",
    "finds": "finds that weren't printed, which the next `haul search` prints",
    "index": "an index, which `haul check` reads",
    "rle": "a pattern in RLE, which `haul cells` and `haul why --pattern` read",
    "plaintext": "a pattern in plaintext, which `haul rle` and `haul why --pattern` read",
    "coordinates": "coordinates of cells, which `haul rle` and `haul why --pattern` read",
    "csv": "comma-separated values, which a spreadsheet reads",
    "json": "JSON, which other programs read",
    "empty": "an empty text",
    "folder": "this is a folder; give the name of a file in it",
    "binary": "a binary file",
    "compressed": "a compressed file, which has to be unpacked first",
    "macrocell": "a macrocell file, which Golly can open and save as RLE",
}
# The calls of each command, where `@` is the file, and the kinds of files that it reads. An empty
# text is a pattern without live cells, or a file without report lines.
CALLS: dict[tuple[str, ...], set[str]] = {
    ("search", "--until=0", "@"): {"haul"},
    ("check", "@"): {"haul", "index"},
    ("check", "--samples", "@"): {"haul", "apgsearch"},
    ("check", "--random=1", "@"): {"haul", "index"},
    ("join", "@"): {"haul", "several"},
    ("index", "@"): {"haul"},
    ("compare", "@", "HAUL"): {"haul", "apgsearch"},
    ("compare", "HAUL", "@"): {"haul", "apgsearch"},
    ("table", "@"): {"haul", "apgsearch"},
    ("table", "--strict", "@"): {"haul"},
    ("page", "--play=0", "@"): {"haul", "apgsearch"},
    ("page", "--lives=@", "HAUL"): {"late"},
    ("soups", "@"): {"reports", "late", "empty"},
    ("why", "--most=0", "@"): {"reports", "late", "empty"},
    ("why", "--pattern=@", "--limit=101"): {"rle", "plaintext", "coordinates", "empty"},
    ("cells", "@"): {"rle", "plaintext", "empty"},
    ("rle", "@"): {"plaintext", "coordinates", "empty"},
}
WITH_CENSUS = ("search", "check", "page", "why")
# These kinds are refused for another reason than that they look like something else.
OTHER_REASONS = {
    ("check", "@", "apgsearch"): "a haul of apgsearch doesn't name its soups",
    ("check", "--random=1", "@", "apgsearch"): "a haul of apgsearch doesn't name its soups",
    ("check", "--samples", "@", "index"): "--samples needs hauls",
    ("table", "--strict", "@", "apgsearch"): "the totals of apgsearch are by parts already",
    ("index", "@", "apgsearch"): "a haul of apgsearch, which doesn't name its soups",
}
# These commands read hauls, so for them several hauls are too many.
READ_HAULS = ("search", "check", "index", "compare", "table")


@cache
def texts() -> dict[str, bytes]:
    """Returns a text of each kind."""
    haul, lines = taken(8), census("work", "--count=8", "--worker=1")
    job = b"rule=b3s23 profile=64,512,101,30300 seed="
    return {
        "haul": haul,
        "several": haul + census("take", "--first=8", "--count=8"),
        "apgsearch": APGSEARCH.encode("latin-1"),
        "reports": lines,
        "late": b"# late 0 since 0 left-out 0\n" + lines,
        "finds": b"# finds since 0 left-out 0 " + job + b"\n",
        "index": run("index", text=haul)[1].encode(),
        "rle": b"x = 3, y = 1, rule = B3/S23\n3o!\n",
        "plaintext": b"OOO\n",
        "coordinates": b"0 0\n1 0\n2 0\n",
        "csv": run("table", "--csv", text=haul)[1].encode(),
        "json": run("table", "--json", text=haul)[1].encode(),
        "empty": b"",
        "binary": bytes(range(1, 10)) + b"\n" + bytes(range(256)),
        "compressed": gzip.compress(haul),
        "macrocell": b"[M2] (golly 3.3)\n#R B3/S23\n$$$$*$\n",
    }


class Matrix(unittest.TestCase):
    def setUp(self) -> None:
        folder = TemporaryDirectory()
        self.addCleanup(folder.cleanup)
        self.folder = Path(folder.name)

    def put(self, kind: str) -> Path:
        """Writes a file of a kind, or makes a folder, and returns its path."""
        path = self.folder / kind
        if kind == "folder":
            path.mkdir(exist_ok=True)
        else:
            path.write_bytes(texts()[kind])
        return path

    def call(self, words: tuple[str, ...], path: Path) -> tuple[int, str, str]:
        haul = str(self.put("haul"))
        given = [word.replace("@", str(path)).replace("HAUL", haul) for word in words]
        if words[0] in WITH_CENSUS:
            given += ["--census", CENSUS]
        return run(*given)

    def reads_hauls(self, words: tuple[str, ...]) -> bool:
        return words[0] in READ_HAULS or words[:2] == ("page", "--play=0")

    def test_each_command_with_each_kind(self) -> None:
        for words, accepted in CALLS.items():
            for kind, looks in LOOKS.items():
                with self.subTest(words=words, kind=kind):
                    path = self.put(kind)
                    if kind == "several" and not self.reads_hauls(words):
                        looks = LOOKS["haul"]
                    if looks == LOOKS["haul"] and words[0] in ("soups", "why") and "@" in words:
                        looks += "; the report lines of a search are in FILE.late"
                    status, output, errors = self.call(words, path)
                    if kind in accepted:
                        self.assertIn(status, (0, 7), errors)
                    elif (*words, kind) in OTHER_REASONS:
                        self.assertIn(OTHER_REASONS[(*words, kind)], errors)
                        self.assertIn(status, (2, 3))
                    else:
                        self.assertEqual((status, errors.count("\n")), (3, 1), errors)
                        self.assertEqual(output.count("\n"), "--random=1" in words)
                        self.assertTrue(errors.startswith(f"haul: {path}: "), errors)
                        self.assertTrue(errors.endswith(f"{looks}\n"), errors)


class Forms(unittest.TestCase):
    def test_what_is_recognised(self) -> None:
        """Each text has the form that is named like its kind. Several hauls are a haul, and a folder
        is no text."""
        for kind, text in texts().items():
            form = find_form(text)
            self.assertEqual(form and form.key, "haul" if kind == "several" else kind)

    def test_other_texts(self) -> None:
        for text, key in (
            (b"@VERSION 2\r\n", "crlf"),
            (b"#Life 1.05\n", "life"),
            (b"#Life 1.06\n", "life"),
            (b"<!DOCTYPE html>\n", "html"),
            (b"bo$2bo$3o!", "rle"),
            (b"#N Glider\nx = 3", "rle"),
            (b"!Name: Glider\n.O.\n", "plaintext"),
            (b"-1 -2\n", "coordinates"),
            (b"a\x00b", "binary"),
            (b"\x89PNG\r\n", "binary"),
        ):
            form = find_form(text)
            self.assertEqual(form and form.key, key, text)
        for text in (
            b"words\n",
            b"@VERSION 3\n",
            b"\n",
            b"1 2 3\n",
            b"a,b\n",
            b"bo\n",
            b"\x1b[0m\n",
        ):
            self.assertIsNone(find_form(text), text)
        self.assertEqual(len({form.key for form in FORMS}), len(FORMS))

    def test_the_end_of_a_message(self) -> None:
        self.assertEqual(recognize(b"{\n"), "JSON, which other programs read")
        self.assertEqual(describe_other_form(b"[1]\n", "rle"), f": this looks like {LOOKS['json']}")
        self.assertEqual(describe_other_form(b"[1]\n", "json"), "")
        self.assertEqual(describe_other_form(b"words\n"), "")


if __name__ == "__main__":
    unittest.main()
