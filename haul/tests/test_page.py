"""The contents of a page: its words, its table, the data of its script, and when its soups
settle."""

from __future__ import annotations

import base64
import hashlib
import io
import json
import re
import subprocess
import tempfile
import unittest
from dataclasses import replace
from html import escape, unescape
from pathlib import Path
from unittest.mock import patch

from haul import VERSION
from haul.census.command_lines import format_unsettled_command
from haul.census.soup_ends import End, list_populations, read_end
from haul.cli.streams import Streams
from haul.formats.haul import Haul, Job, Range
from haul.formats.haul_reader import read_one_haul
from haul.formats.profile import STANDARD, Profile
from haul.life.generations import read_rule
from haul.page.data import describe_objects
from haul.page.sides import make_sides
from haul.page.summary import describe_profile
from haul.rarity.reference import find_dispersion
from haul.statistics.intervals import find_dispersed_interval, find_interval
from haul.terminal import Terminal
from haul.tests.called import CENSUS, QUIET, TOP, census, run
from haul.tests.drawn import text_of
from haul.tests.made import QUICK_JOB, make_haul
from haul.tests.pages import (
    RATES,
    Tags,
    before_table,
    compared,
    data_of,
    objects_of,
    page,
    table_of,
    without_rates,
)
from haul.tests.test_whole import cells_of, drawn

PULSAR = "xp3_co9nas0san9oczgoldlo0oldlogz1047210127401"


def tiles(text: str) -> list[tuple[str, str]]:
    """Returns the names and the values of a page's tiles."""
    return re.findall("<div><dt>(.*?)</dt><dd>(.*?)</dd></div>", before_table(text))


def folds(text: str) -> dict[str, str]:
    """Returns the collapsible parts at the top of a page, by title."""
    return dict(
        re.findall(
            "<details><summary>(.*?)</summary>\n(.*?)</details>", before_table(text), re.DOTALL
        )
    )


def haul_of_nothing(size: int, soups: int) -> Haul:
    """Returns a haul of the soup numbers below `size` that counts `soups` soups, which left no
    object."""
    return make_haul(ranges=[(0, size)], job=QUICK_JOB, soups=soups)


class Top(unittest.TestCase):
    HAUL = make_haul(
        {"xp2_7": 10, "xs4_33": 100, "xs4_y": 1, "xs8_rr": 2},
        [(5, 7), (2048, 1)],
        job=Job("a", "b36s23", STANDARD),
        unsettled=1,
        for_good=2,
        samples={"xp2_7": [6], "xs4_33": [5, 2048], "xs4_y": [11], "xs8_rr": [5, 6]},
    )

    def test_each_word(self) -> None:
        """Checks each word at the top of a small page, up to the unsettled soups."""
        self.assertTrue(
            before_table(page(self.HAUL, 0)).startswith(
                """
<a class="skip" href="#objects" hidden>Skip to the objects</a>
<main>
<header>
<h1>A census of 8 soups under B36/S23</h1>
<p>Random soups of 16 by 16 cells (numbers 5 to 11, 2048 of the seed <code class="seed">a</code>) ran under the rule <code>b36s23</code> (B36/S23) \
until they had settled, and the formally verified program <code>census</code> counted the objects that they left.</p>
<dl class="tiles"><div><dt>soups</dt><dd>8</dd></div><div><dt>objects</dt><dd>113</dd></div><div><dt>objects per soup</dt><dd>14.12</dd></div>\
<div><dt>distinct objects</dt><dd>4</dd></div><div><dt>of these strict<small>not made of smaller objects</small></dt><dd>2</dd></div>\
<div><dt>unsettled soups<small>not at rest by generation 30,300</small></dt><dd>1</dd></div>\
<div><dt>settled for good<small>proved to be at rest forever; the other 5 for at least 512 generations</small></dt><dd>2</dd></div></dl>
<div class="more"><details><summary>How to verify it</summary>
<p>If the haul of this page is in the file <code>all.haul</code>, <code>haul check all.haul</code> runs the whole census again and compares, \
and <code>haul check --samples all.haul</code> runs only the sample soups.</p>
</details>
<details><summary>1 unsettled soup</summary>
"""
            ),
            before_table(page(self.HAUL, 0)),
        )

    def test_the_foot(self) -> None:
        """Even without scripts, the foot says what made the page and what its commands need."""
        for text, hauls in (
            (page(self.HAUL, 0), "a haul"),
            (compared(self.HAUL, self.HAUL), "2 hauls"),
        ):
            foot = text.partition("<footer>")[2].partition("</footer>")[0]
            self.assertIn(
                f"<code>haul page</code> of Gokzerd {VERSION} from {hauls}. A <em>haul</em> is",
                foot,
            )
            self.assertIn("commands on this page need both programs", foot)

    def test_all_objects_count(self) -> None:
        """Objects that aren't on the page are counted in the tiles, too."""
        self.assertEqual(tiles(compared(self.HAUL, least=50)), tiles(page(self.HAUL, 0)))

    def test_no_soup(self) -> None:
        text = page(
            make_haul(ranges=[], job=QUICK_JOB),
            0,
        )
        self.assertEqual(dict(tiles(text))["objects per soup"], "–")
        self.assertIn("(numbers none of the empty seed)", text)
        self.assertNotIn("Soups are missing", text)
        self.assertNotIn("unsettled soup<", before_table(text).partition("</dl>")[2])

    def test_missing_soups(self) -> None:
        """If a haul lacks soups, the page says that only its sample soups can be checked."""
        some = haul_of_nothing(2000, 1999)
        self.assertEqual(tiles(page(some, 0))[0], ("soups", "1,999 <small>of 2,000</small>"))
        said = "Soups are missing from this haul, so only <code>haul check --samples all.haul</code> works there."
        self.assertIn(said, folds(page(some, 0))["How to verify it"])
        whole = haul_of_nothing(2, 2)
        self.assertIn("Soups are missing from the haul B, so only", compared(whole, some))
        self.assertIn("Soups are missing from the hauls A, C, so only", compared(some, whole, some))

    def test_verification_of_apgsearch(self) -> None:
        """The page says which hauls are apgsearch's, and which `haul check` can't check."""
        one = haul_of_nothing(2, 2)
        other = replace(one, apgsearch="v5.4-ll2.2")
        text = page(other, 0)
        self.assertIn("--totals all.haul</code> takes a census of as many soups.", text)
        self.assertNotIn("instead", folds(text)["How to verify it"])
        said = (
            "For the haul B, which apgsearch made, <code>haul check --totals a.haul</code> takes a "
            "census of as many soups instead."
        )
        self.assertIn(said, compared(one, other))
        glide = replace(other, job=replace(other.job, symmetry="G1"))
        said = "But none of this works for this haul, since <code>census</code> runs the symmetry C1 only."
        self.assertIn(said, page(glide, 0))
        self.assertIn("But none of this works for the hauls B, C,", compared(one, glide, glide))

    def test_ranges(self) -> None:
        """At most twelve ranges are listed, followed by the number of the remaining ones. A range
        of one soup is shown as a single number."""

        def numbers(ranges: list[Range]) -> str:
            return "".join(
                re.findall(r"\(numbers (.*?) of the", page(make_haul({"xs4_33": 1}, ranges), 0))
            )

        self.assertEqual(numbers([(5, 2), (9, 1), (11, 3)]), "5 to 6, 9, 11 to 13")
        for count, last in ((12, "33"), (13, "33, 1 more range"), (14, "33, 2 more ranges")):
            self.assertEqual(
                numbers([(3 * k, 1) for k in range(count)]),
                f"0, 3, 6, 9, 12, 15, 18, 21, 24, 27, 30, {last}",
            )

    def test_checkpoints(self) -> None:
        for profile, said in (
            (Profile(1, 2, 1, 0), "the only one, at generation 0"),
            (Profile(1, 2, 1, 1), "one every generation, up to generation 1"),
            (Profile(1, 2, 2, 2), "one every 2 generations, up to generation 2"),
            (Profile(1, 2, 3, 2), "the only one, at generation 0"),
            (Profile(1, 2, 3, 1234), "one every 3 generations, up to generation 1,234"),
        ):
            words = describe_profile(profile)
            self.assertIn(f"first checkpoint ({said}) at", words)
            self.assertIn("within 1 generation, and for 2 generations no object", words)
            self.assertIn(
                words,
                folds(page(make_haul({"xs4_33": 1}, [(5, 1)], profile), 0))[
                    "How objects are counted"
                ],
            )

    def test_profiles_of_several_hauls(self) -> None:
        """If hauls have different profiles, the page says which hauls have each profile."""
        one, other = (
            make_haul({"xs4_33": 1}, [(5, 1)], profile)
            for profile in (Profile(64, 512, 101, 30300), Profile(4, 8, 10, 30))
        )
        self.assertEqual(
            folds(compared(one, one))["How objects are counted"],
            folds(page(one, 0))["How objects are counted"],
        )
        self.assertEqual(
            re.findall(
                "<p>([A-Z, ]+): ", folds(compared(one, other, one))["How objects are counted"]
            ),
            ["A, C", "B"],
        )


class Unsettled(unittest.TestCase):
    """Tests the command that lists unsettled soups."""

    def haul(self, ranges: list[Range], seed: str = "", rule: str = "b3s23") -> Haul:
        return make_haul(ranges=ranges, job=Job(seed, rule, STANDARD), unsettled=1)

    def test_one_call_for_each_range(self) -> None:
        self.assertEqual(
            format_unsettled_command(self.haul([(3, 4)])),
            "census work --first=3 --count=4 --worker=1 | haul soups --unsettled",
        )
        self.assertEqual(
            format_unsettled_command(self.haul([(3, 4), (9, 1)], "a b'", "b36s23")),
            "{ census work --seed='a b'\"'\"'' --rule=b36s23 --first=3 --count=4 --worker=1; "
            "census work --seed='a b'\"'\"'' --rule=b36s23 --first=9 --count=1 --worker=1; } | haul soups --unsettled",
        )

    def test_long_sets(self) -> None:
        """No call runs more than 2^24 soups, and at most twelve calls are written."""
        self.assertEqual(
            format_unsettled_command(self.haul([(0, 2**24 + 1)])).count(
                "--count=16777216 --worker=1; census work --first=16777216 --count=1 "
            ),
            1,
        )
        for count in (12, 13):
            command = format_unsettled_command(self.haul([(3 * k, 1) for k in range(count)]))
            self.assertEqual(
                (command.count("census work"), "; ..; }" in command), (12, count == 13)
            )

    def test_it_lists_them(self) -> None:
        """The command of the page, run by a shell, lists the two unsettled soups."""
        words = ["--first=600", "--count=40", "--limit=7070"]
        text = page(read_one_haul(io.BytesIO(census("take", *words))), 0)
        found = re.findall(
            "<summary>2 unsettled soups</summary>.*?<pre><code>(.*?)</code>", text, re.DOTALL
        )
        command = (
            unescape(found[0])
            .replace("census work", f"{CENSUS} work")
            .replace("haul soups", f"{TOP / 'bin' / 'haul'} soups --census {CENSUS}")
        )
        said = subprocess.run(
            ["bash", "-c", command], stdout=subprocess.PIPE, check=True
        ).stdout.decode()
        self.assertEqual([line.split()[0] for line in said.splitlines()[3:]], ["603", "636"])


class Rows(unittest.TestCase):
    """Tests the table for browsers without scripts."""

    def test_each_cell(self) -> None:
        """The table counts parts, so an object of two blinkers counts as two blinkers. The profile
        of the haul isn't that of the reference, so the table has no rarity from the reference."""
        haul = make_haul(
            {"xs4_33": 1200, "xp15_4r4z4r4": 40, "xq4_153": 3}
            | dict.fromkeys(("xp2_1110s", "ov_p123", "ov_s4000", "zz_1"), 1),
            [(5, 7)],
            Profile(64, 512, 101, 20200),
            samples={"xs4_33": [5, 6, 11], "xp15_4r4z4r4": [7], "xq4_153": [8]}
            | {"xp2_1110s": [9], "ov_p123": [10], "ov_s4000": [10], "zz_1": [11]},
        )
        table = table_of(page(haul, 0))
        self.assertEqual(
            [" | ".join(cells) for cells in (table.heads, *(row.cells for row in table.rows))],
            """\
Picture | Name and code | What it is | Cells | Total | How often | Sample soups
block: 2 by 2, 4 cells | block xs4_33 | still life | 4 | 1,200 | 171 per soup | 5 6 11
pentadecathlon: 3 by 10, 12 cells | pentadecathlon xp15_4r4z4r4 | oscillator of period 15 | 12 | 40 | 5.71 per soup | 7
glider: 3 by 3, 5 cells | glider xq4_153 | spaceship of period 4 | 5 | 3 | ≤ 1 in 2 soups | 8
blinker: 1 by 3, 3 cells | blinker xp2_7 | oscillator of period 2 | 3 | 2 | ≤ 1 in 3 soups | 9
too large to draw | not separated ov_p123 | oscillator of period 123 |  | 1 | ≤ 1 in 7 soups | 10
too large to draw | not separated ov_s4000 | still life | 4000 | 1 | ≤ 1 in 7 soups | 10
can't be drawn | not separated zz_1 | an object |  | 1 | ≤ 1 in 7 soups | 11""".splitlines(),
        )
        self.assertEqual(
            table.rows[0].links,
            [
                "https://catagolue.hatsya.com/object/xs4_33/b3s23",
                *(
                    f"https://catagolue.hatsya.com/hashsoup/C1/a{number}/b3s23"
                    for number in (5, 6, 11)
                ),
            ],
        )
        self.assertEqual(
            table.rows[4].links, ["https://catagolue.hatsya.com/hashsoup/C1/a10/b3s23"]
        )

    def test_pictures(self) -> None:
        """Pictures match those of `census show` cell for cell, with a margin of one cell, also for
        objects of more than ten rows. A cell is twelve pixels wide if the object has fewer than
        ten cells, otherwise four."""
        for code, scale in (
            (PULSAR, 4),
            ("xs4_1zzzz1zz1", 12),
            ("xs9_31ego", 12),
            ("xs10_178kk8", 4),
        ):
            text = page(make_haul({code: 1}, [(9, 1)]), 0)
            (path,) = table_of(text).rows[0].paths
            wanted = cells_of(census("show", "--", code).decode())
            self.assertEqual(drawn(path), wanted)
            width, height = (max(side) + 1 for side in zip(*wanted))
            self.assertIn(
                f'<svg class="cells-{scale}" width="{(width + 2) * scale}" height="{(height + 2) * scale}" viewBox="-1 -1 {width + 2} {height + 2}"',
                text,
            )

    def test_addresses_of_soups(self) -> None:
        """Characters of a seed that have a meaning in an address are escaped."""
        haul = make_haul({"xs4_33": 1}, [(5, 1)], job=Job("a/b?#%", "b36s23", STANDARD))
        self.assertEqual(
            table_of(page(haul, 0)).rows[0].links[1],
            "https://catagolue.hatsya.com/hashsoup/C1/a%2Fb%3F%23%255/b36s23",
        )

    def test_what_is_left_out(self) -> None:
        haul = make_haul({"xs4_33": 3, "xp2_7": 2, "xs5_253": 2}, [(0, 9)])
        counted = "the most frequent first. Parts are counted: a bi-block is two blocks."
        for least, said in (
            (2, f"3 of 3 kinds, {counted}<"),
            (3, f"1 of 3 kinds, {counted} Of the other kinds there are fewer than 3.<"),
        ):
            self.assertIn(f"<p>{said}", compared(haul, least=least))

    def test_what_the_reference_says(self) -> None:
        """The numbers are from reference/parts.tsv, and the intervals are those of `haul
        rarity`."""
        haul = make_haul({"xs4_33": 9, "xp5_idiidiz01w1": 1, "xs4_y": 1}, [(0, 9)])
        said = {
            "xs4_33": "one in 1.1095 %: 1.10 to 1.10",
            "xp5_idiidiz01w1": "one in 100,000,00095 %: 17,948,025 to 3,949,789,091",
            "xs4_y": "no object that census counts, so the reference can't have it",
        }
        table = table_of(page(haul, 0))
        self.assertEqual(table.heads[4:], ["Total", "In the reference", "Sample soups"])
        self.assertEqual({row.cells[1].split()[-1]: row.cells[5] for row in table.rows}, said)
        table = table_of(compared(haul, haul))
        self.assertEqual(table.heads[-1], "In the reference")
        self.assertEqual({row.cells[1].split()[-1]: row.cells[-1] for row in table.rows}, said)
        self.assertEqual(table.rows[0].cells[5], "1 per soup")
        loafer = objects_of(page(make_haul({"xq7_3nw17862z6952": 1}, [(0, 9)]), 0))[
            "xq7_3nw17862z6952"
        ]
        self.assertEqual(
            loafer["rarity"], ["none in 100,000,000", "95 %: less than one in 27,100,000", ""]
        )


class Data(unittest.TestCase):
    """Tests the data that the script of the page reads."""

    HAUL = make_haul(
        {"xp2_1110s": 7, "xs10_25520oo": 3, "xs4_33": 2, "xs8_rr": 1, "ov_p3": 1},
        [(0, 9)],
        samples={
            "xp2_1110s": [4, 5],
            "xs10_25520oo": [1, 8],
            "xs4_33": [2],
            "xs8_rr": [7],
            "ov_p3": [0],
        },
    )

    def test_each_object(self) -> None:
        """There are 14 blinkers, all of them parts of larger objects; 3 + 2 + 2 blocks; and 3
        beehives."""
        objects = map(without_rates, data_of(page(self.HAUL, 0))["objects"])
        self.assertEqual(
            list(objects),
            list(
                map(
                    json.loads,
                    """\
{"code": "xp2_1110s", "label": "2 blinkers", "made": [["xp2_7", "xp2_7"]], "objects": [[7, 4, 5]], "cells": 6}
{"code": "xs10_25520oo", "label": "block and beehive", "made": [["xs4_33", "xs6_696"]], "objects": [[3, 1, 8]], "cells": 10}
{"code": "xs4_33", "label": "block", "named": 1, "made": ["strict"], "objects": [[2, 2]], "parts": [[7, 1, 2, 7]], "cells": 4}
{"code": "ov_p3", "label": "", "made": ["not separated"], "objects": [[1, 0]], "parts": [[1, 0]]}
{"code": "xs8_rr", "label": "bi-block", "named": 1, "made": [["xs4_33", "xs4_33"]], "objects": [[1, 7]], "cells": 8}
{"code": "xp2_7", "label": "blinker", "named": 1, "made": ["strict"], "parts": [[14, 4, 5]], "cells": 3}
{"code": "xs6_696", "label": "beehive", "named": 1, "made": ["strict"], "parts": [[3, 1, 8]], "cells": 6}""".splitlines(),
                )
            ),
        )

    def test_the_haul(self) -> None:
        data = data_of(page(self.HAUL, 3))
        self.assertEqual(
            {name: data[name] for name in ("least", "play", "kinds", "kindsOfParts", "intervals")},
            {"least": 1, "play": 3, "kinds": 5, "kindsOfParts": 4, "intervals": {}},
        )
        self.assertEqual(data["reference"], 100_000_000)
        other = make_haul({"xs4_33": 1}, [(0, 9)], Profile(64, 512, 101, 20200))
        self.assertEqual(data_of(page(other, 0))["reference"], 0)
        self.assertEqual(
            data["hauls"],
            [
                {
                    "letter": "A",
                    "option": "b3s23",
                    "rule": "B3/S23",
                    "seed": "a",
                    "soups": 9,
                    "objects": 14,
                    "parts": 25,
                    "commands": ["census soup --seed=a ", " | census name"],
                }
            ],
        )

    def test_least(self) -> None:
        """An object is on the page if a haul has at least `least` of it. A part is on the page if
        its total by parts is at least `least`. This total includes the parts of objects that aren't
        on the page."""
        text = compared(self.HAUL, least=3)
        self.assertEqual(
            [
                (code, one.get("objects"), one.get("parts"))
                for code, one in objects_of(text).items()
            ],
            [
                ("xp2_1110s", [[7, 4, 5]], None),
                ("xs10_25520oo", [[3, 1, 8]], None),
                ("xp2_7", None, [[14, 4, 5]]),
                ("xs4_33", [[2, 2]], [[7, 1, 2, 7]]),
                ("xs6_696", None, [[3, 1, 8]]),
            ],
        )
        self.assertEqual((data_of(text)["kinds"], data_of(text)["hauls"][0]["objects"]), (5, 14))

    def test_progress(self) -> None:
        """Progress is shown after every three codes. Seven codes are described: five objects, and
        two parts that aren't among them."""
        stderr = io.StringIO()
        sides = make_sides([self.HAUL], 1, 0, QUIET)
        with patch.object(stderr, "isatty", return_value=True), patch(
            "haul.page.data.OBJECTS_BETWEEN_PROGRESS", 3
        ):
            texts = describe_objects(sides, Terminal(stderr))
        self.assertEqual(len(texts), 7)
        self.assertEqual(
            stderr.getvalue().split("\r\033[K"),
            ["", *(f"{done} of 7 objects described" for done in (0, 3, 6)), ""],
        )

    def test_large_totals(self) -> None:
        """JavaScript loses digits of a number above 2^53, so such a number is given as a text."""
        objects = objects_of(
            page(make_haul({"xs4_33": 2**53, "xs5_253": 2**53 + 1}, [(0, 9)]), 0)
        )
        self.assertEqual(
            [objects[code]["objects"][0][0] for code in ("xs4_33", "xs5_253")],
            [2**53, str(2**53 + 1)],
        )

    def test_soups(self) -> None:
        """The sample soups of objects and of parts match those of `census soup`, cell for cell."""
        soups = data_of(page(self.HAUL, 0))["soups"][0]
        self.assertEqual(sorted(map(int, soups)), [0, 1, 2, 4, 5, 7, 8])
        for number, (cells,) in soups.items():
            bits = "".join(format(byte, "08b") for byte in base64.b64decode(cells + "="))
            self.assertEqual(
                {(k % 16, k // 16) for k, bit in enumerate(bits) if bit == "1"},
                cells_of(census("soup", "--seed=a", number).decode()),
            )

    def test_nothing_ends_the_script(self) -> None:
        seed = "</script><!--"
        text = page(
            make_haul({"xs4_33": 1}, job=Job(seed, "b3s23", STANDARD)),
            0,
        )
        self.assertEqual(data_of(text)["hauls"][0]["seed"], seed)
        self.assertEqual((text.count("</script>"), text.count("<!--")), (2, 0))

    def test_the_files_are_in_it(self) -> None:
        """The page contains each module of its script and its style sheet, and loads nothing."""
        text = page(self.HAUL, 0)
        modules = [*TOP.glob("haul/page/script/**/*.js")]
        self.assertGreater(len(modules), 30)
        for module in modules:
            name = module.relative_to(TOP / "haul/page/script").with_suffix("").as_posix()
            self.assertEqual(text.count(f"const ${name.replace('/', '_')} = "), 1, name)
        self.assertEqual(text.count((TOP / "haul/page/page.css").read_text()), 1)
        self.assertEqual(
            re.findall(
                "<(?:link|img|iframe|script) [^>]*(?:src|href)=|@import|url\\(|fetch\\(", text
            ),
            [],
        )


class Foreign(unittest.TestCase):
    """Tests that a haul of apgsearch, whose words may be any printable text, harms nothing. What
    the page's script does with these words is tested in a browser."""

    TEXTS = (
        "<script>alert(1)</script>",
        "</script><script>alert(1)</script>",
        "</noscript><img/src=x/onerror=alert(1)>",
        "\"onmouseover='alert(1)'//",
        '\'onmouseover="alert(1)"//',
        "&lt;img/src=x/onerror=alert(1)&gt;",
        "javascript:alert(1)",
        "--><!--",
        "$title${style}",
    )

    def haul(self, text: str, code: str, symmetry: str) -> Haul:
        haul = make_haul({code: 2, "xs4_33": 1}, [(0, 9)])
        return replace(haul, apgsearch=text, job=Job(text, "b3s23", STANDARD, symmetry))

    def test_words_are_texts(self) -> None:
        """Hostile words don't add an element or an attribute, in the table for browsers without
        scripts or elsewhere."""
        plain = self.haul("A", "A", "A!")
        hauls = [self.haul(text, text, text) for text in self.TEXTS]
        for haul, text in zip(hauls, self.TEXTS, strict=True):
            made_of = page(haul, 0)
            self.assertEqual(Tags(made_of).tags, Tags(page(plain, 0)).tags, text)
            self.assertIn(f"<code>{escape(text)}</code>", made_of)
            self.assertEqual(list(objects_of(made_of)), [text, "xs4_33"])
        self.assertEqual(Tags(compared(*hauls[:8])).tags[:5], Tags(compared(*[plain] * 8)).tags[:5])

    def test_links(self) -> None:
        """A code is linked if it could be one. A soup is linked if its symmetry could be one."""
        catagolue = "https://catagolue.hatsya.com"
        block = [f"{catagolue}/object/xs4_33/b3s23"]
        soups = [f"{catagolue}/hashsoup/C1/a0/b3s23"]
        for code in ("zz_LINEAR", 'xs4_33"', "xs4_33/..", "ov_p99", "yl144_1_16_afb5"):
            rows = table_of(page(self.haul("a", code, "C1"), 0)).rows
            link = [f"{catagolue}/object/{code}/b3s23"] if code.startswith("yl") else []
            self.assertEqual([row.links for row in rows], [link + soups, block + soups])
        for symmetry, words in (("D4_+1", "D4_%2B1"), ("..", ""), ("C1/", ""), ("<C1>", "")):
            rows = table_of(page(self.haul("a", "xp2_7", symmetry), 0)).rows
            soups = [f"{catagolue}/hashsoup/{words}/a0/b3s23"] if words else []
            self.assertEqual(rows[1].links, block + soups)

    def test_policy(self) -> None:
        """The policy of the page allows its own script, by the hash of its text, and no other."""
        text = page(self.haul("a", "xp2_7", "C1"), 0)
        (script,) = re.findall("<script>(.*?)</script>", text, re.DOTALL)
        digest = base64.b64encode(hashlib.sha256(script.encode()).digest()).decode()
        policy = (
            f"default-src 'none'; script-src 'sha256-{digest}'; style-src 'unsafe-inline'; "
            "img-src data:; base-uri 'none'; form-action 'none'"
        )
        head = text.partition("<title>")[0]
        self.assertIn(f'<meta http-equiv="Content-Security-Policy" content="{policy}">', head)


class Comparing(unittest.TestCase):
    LIFE = make_haul({"xs4_33": 1000, "xp2_7": 10, "xs12_raar": 4}, [(0, 100)])
    OTHER = make_haul(
        {"xs12_raar": 4, "xs4_33": 5},
        [(7, 50)],
        job=Job("b", "bs123", STANDARD),
        unsettled=3,
        for_good=4,
        samples={"xs12_raar": [7], "xs4_33": [8, 9]},
    )

    def test_title(self) -> None:
        for hauls, title in (
            ([self.LIFE, self.OTHER], "Censuses under B3/S23 and B/S123, compared"),
            ([self.LIFE, self.LIFE], "2 censuses under B3/S23, compared"),
            ([self.LIFE], "A census of 100 soups in Conway&#x27;s Game of Life"),
            ([self.OTHER], "A census of 50 soups under B/S123"),
        ):
            self.assertIn(f"<title>{title}</title>", compared(*hauls))

    def test_facts(self) -> None:
        """The table of facts has a row for each haul."""
        rows = re.findall(
            '<tr><th scope="row">(.*?)</th>(.*?)</tr>',
            before_table(compared(self.LIFE, self.OTHER)),
        )
        seed = '<code class="seed">{}</code>'
        self.assertEqual(
            [
                [re.sub("<.*?>", "", head), *re.findall("<td>(.*?)</td>", cells)]
                for head, cells in rows
            ],
            [
                ["A B3/S23", *"100 1,014 10.14 3 3 0 0".split(), seed.format("a"), "0 to 99"],
                ["B B/S123", *"50 9 0.18 2 1 3 4".split(), seed.format("b"), "7 to 56"],
            ],
        )

    def test_each_under_its_rule(self) -> None:
        """The object "table on table" has two parts only under the rule of B. The lists `made`,
        `objects` and `parts` have a value for each haul."""
        objects = objects_of(compared(self.LIFE, self.OTHER))
        self.assertEqual(
            without_rates(objects["xs12_raar"]),
            {
                "code": "xs12_raar",
                "label": "table on table",
                "named": 1,
                "made": ["strict", ["xs6_9f"] * 2],
                "objects": [[4, 0], [4, 7]],
                "parts": [[4, 0], 0],
                "cells": 12,
            },
        )
        self.assertEqual(
            without_rates(objects["xs6_9f"]),
            {
                "code": "xs6_9f",
                "label": "",
                "made": [None, "strict"],
                "parts": [0, [8, 7]],
                "cells": 6,
            },
        )
        self.assertEqual(objects["xp2_7"]["objects"], [[10, 0], 0])
        self.assertEqual(list(objects), ["xs4_33", "xp2_7", "xs12_raar", "xs6_9f"])

    def test_intervals(self) -> None:
        """The data have an interval for each total of a whole object, and for 0."""
        found = data_of(compared(self.LIFE, self.OTHER))["intervals"]
        self.assertEqual(
            {int(total): tuple(ends) for total, ends in found.items()},
            {total: find_interval(total) for total in (0, 4, 5, 10, 1000)},
        )

    def test_rates_of_parts(self) -> None:
        """Each part has intervals and stars if hauls are compared, and its rarity under Life with
        the standard profile."""
        many, few = (make_haul({"xs4_33": total}, [(0, 1000)]) for total in (9000, 5000))
        block = objects_of(compared(many, few))["xs4_33"]
        self.assertEqual(block["stars"], [0, 1])
        low, high = find_dispersed_interval(5000, find_dispersion("xs4_33"))
        for end, wanted in zip(block["ends"][1], (low, high)):
            self.assertAlmostEqual(end / 1000 / wanted, 1, places=5)
        self.assertEqual(
            block["rarity"],
            [
                "one in 1.10",
                "95 %: 1.10 to 1.10",
                "673,827,113 objects in 91,186,721 of 100,000,000 soups",
            ],
        )
        one = objects_of(page(many, 0))["xs4_33"]
        self.assertEqual([name in one for name in RATES], [True, False, False])
        other = objects_of(compared(self.LIFE, self.OTHER))["xs4_33"]
        self.assertEqual([name in other for name in RATES], [False, True, True])
        self.assertEqual(other["stars"], [0, 0])

    def test_the_table(self) -> None:
        table = table_of(compared(self.LIFE, self.OTHER))
        self.assertEqual(
            table.heads[4:],
            [
                "Total in A",
                "How often in A",
                "Sample soups in A",
                "Total in B",
                "How often in B",
                "Sample soups in B",
            ],
        )
        self.assertEqual(
            [row.cells[4:] for row in table.rows],
            [
                ["1,000", "10 per soup", "0", "5", "≤ 1 in 10 soups", "8 9"],
                ["0", "", "", "8", "≤ 1 in 6 soups", "7"],
                ["10", "≤ 1 in 10 soups", "0", "0", "", ""],
                ["4", "≤ 1 in 25 soups", "0", "0", "", ""],
            ],
        )

    def test_least_in_one_of_them(self) -> None:
        self.assertEqual(
            [row.cells[4] for row in table_of(compared(self.LIFE, self.OTHER, least=10)).rows],
            ["1,000", "10"],
        )

    def test_ends_of_each(self) -> None:
        """The page says for each haul when its own soups settle. Soup 0 of A and soup 0 of B are
        different soups under different rules."""
        words = [
            ["--seed=x", "--count=3"],
            ["--seed=y", "--count=3", "--rule=b36s23", "--stride=50"],
        ]
        soups = data_of(
            compared(
                *(read_one_haul(io.BytesIO(census("take", *some))) for some in words), play=500
            )
        )["soups"]
        for known, options in zip(soups, (["--seed=x"], ["--seed=y"]), strict=True):
            rule = [] if options == ["--seed=x"] else ["--rule=b36s23", "--stride=50"]
            for number, (_, *end) in known.items():
                named = subprocess.run(
                    [CENSUS, "name", *rule],
                    input=census("soup", *options, number),
                    stdout=subprocess.PIPE,
                    check=True,
                ).stdout.decode()
                self.assertEqual(named.split()[1], str(end[0]))
            self.assertEqual(len(known), 3)

    def test_files(self) -> None:
        """A page may have one to eight hauls."""
        with tempfile.TemporaryDirectory() as folder:
            name = f"{folder}/haul"
            Path(name).write_text(text_of(self.LIFE))
            for count in (1, 2, 8):
                status, text, errors = run("page", "--play=0", *[name] * count)
                self.assertEqual((status, errors, len(data_of(text)["hauls"])), (0, "", count))
            status, text, errors = run("page", "--play=0", *[name] * 9)
            self.assertEqual((status, text), (2, ""))
            self.assertIn("more than 8 hauls", errors)
            self.assertEqual(
                run("page", name, "/dev/null"),
                (
                    3,
                    "",
                    "haul: /dev/null: bad haul at line 1 column 1: this looks like an empty text\n",
                ),
            )


class Ends(unittest.TestCase):
    def test_when_soups_settle(self) -> None:
        """The checkpoints on the page are those of `census name`. The number of live cells that
        `census run` prints at the checkpoint is between the two numbers on the page."""
        haul, exact = read_one_haul(io.BytesIO(census("take", "--count", "12"))), 0
        soups = data_of(page(haul))["soups"][0]
        self.assertEqual(
            {int(number) for number in soups},
            {number for numbers in haul.samples.values() for number in numbers},
        )
        for number, (_, settled, least, most) in soups.items():
            soup = census("soup", number)
            named = subprocess.run(
                [CENSUS, "name"], input=soup, stdout=subprocess.PIPE, check=True
            ).stdout.decode()
            self.assertEqual(named.split()[1], str(settled))
            then = subprocess.run(
                [CENSUS, "run", str(settled)], input=soup, stdout=subprocess.PIPE, check=True
            ).stdout.decode()
            self.assertTrue(least <= then.count("O") <= most)
            exact += least == most
        self.assertGreater(exact, 5)

    def test_how_many_cells_there_are_then(self) -> None:
        """A pulsar has 48, 56 or 72 cells, and a glider always has five. If an object can't be
        drawn, its number of cells is known only for a still life."""
        life = read_rule("b3s23")
        for code, sizes in (
            (PULSAR, {48, 56, 72}),
            ("xq4_153", {5}),
            ("xp2_318c", {6, 8}),
            ("ov_s123", {123}),
            ("ov_p123", set()),
            ("xp3_33", set()),
        ):
            self.assertEqual(list_populations(life, code), sizes)
        for fields, end in (
            (["unsettled"], None),
            (["at=101", "good=yes"], End(101, 0, 0)),
            (
                ["at=0", "good=no", f"{PULSAR}*2", "xq4_153*3", "ov_s123*1"],
                End(0, 96 + 15 + 123, 144 + 15 + 123),
            ),
            (["at=0", "good=no", "ov_p123*1", "xq4_153*3"], None),
        ):
            self.assertEqual(read_end(life, fields), end)

    def test_which_have_one(self) -> None:
        """The page says only for the sample soups of the first `play` codes when they settle. The
        codes of parts come first, beginning with the most frequent part: 16 blinkers in pairs, 9
        blocks, and 7 objects that couldn't be separated."""
        haul = make_haul(
            {"xp2_1110s": 8, "xs4_33": 7, "xs8_rr": 1, "ov_p3": 7},
            [(0, 9)],
            samples={"xp2_1110s": [0, 1], "xs4_33": [1, 2], "xs8_rr": [4], "ov_p3": [3]},
        )

        def known(play: int) -> list[int]:
            return sorted(
                int(number)
                for number, (_, *end) in data_of(page(haul, play))["soups"][0].items()
                if end
            )

        self.assertEqual(
            [known(play) for play in (0, 1, 2, 3, 500)],
            [[], [0, 1], [0, 1, 2, 4], [0, 1, 2, 3, 4], [0, 1, 2, 3, 4]],
        )

    def test_a_soup_without_end(self) -> None:
        """`census` has run the soup, which doesn't settle, so its end on the page is 0."""
        (end,) = data_of(page(make_haul({"xs4_33": 8}, [(9, 1)], Profile(1, 1, 1, 0))))["soups"][
            0
        ].values()
        self.assertEqual(end[1:], [0])

    def test_which_options_are_passed_on(self) -> None:
        none: list[str] = []
        for words, wanted in ((none, (1, 500)), (["--least=7", "--play=3"], (7, 3))):
            with patch("haul.cli.commands.make_page", return_value=[]) as made_of, patch.object(
                Streams, "read_haul"
            ) as the_haul:
                for files in (none, ["x", "y"]):
                    self.assertEqual(run("page", "--census", CENSUS, *words, *files), (0, "", ""))
            self.assertEqual([call.args[2:] for call in made_of.call_args_list], [wanted, wanted])
            self.assertEqual(
                [call.args for call in the_haul.call_args_list], [(None,), ("x",), ("y",)]
            )


if __name__ == "__main__":
    unittest.main()
