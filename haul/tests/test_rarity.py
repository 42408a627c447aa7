"""The reference census and `haul rarity`."""

from __future__ import annotations

import unittest

from haul.formats.tables import BadTable
from haul.rarity.reference import (
    find_dispersion,
    find_occurrence,
    load_reference,
    parse_reference,
    read_reference,
)
from haul.tests.called import TOP, run


class TheReference(unittest.TestCase):
    def test_what_it_has(self) -> None:
        reference = load_reference()
        self.assertEqual(len(reference), 971)
        self.assertEqual(sum(entry.total for entry in reference.values()), 2_182_885_627)
        self.assertEqual(find_occurrence("xs4_33").having, 91_186_721)
        self.assertEqual(round(find_dispersion("xs4_33"), 1), 12.2)
        self.assertEqual(
            (find_dispersion("xq7_3nw17862z6952"), find_dispersion("xp15_4r4z4r4")), (1, 1)
        )

    def test_a_changed_digit_in_each_column(self) -> None:
        right = read_reference()
        heads, row, *rows = right.split(b"\n")
        for column in range(5):
            fields = row.split(b"\t")
            fields[column] = fields[column][:-1] + (b"2" if fields[column][-1:] != b"2" else b"3")
            with self.assertRaisesRegex(BadTable, "line 1: .* by its SHA-256"):
                parse_reference(b"\n".join([heads, b"\t".join(fields), *rows]))

    def test_sizes(self) -> None:
        """All files of the reference together are smaller than 2 MB."""
        self.assertLess(sum(file.stat().st_size for file in (TOP / "reference").iterdir()), 2e6)

    def test_the_other_tables(self) -> None:
        lifespans = (TOP / "reference" / "lifespans.tsv").read_text().splitlines()[1:]
        late = (TOP / "reference" / "late.tsv").read_text().splitlines()[1:]
        unsettled = [line for line in late if line.endswith("\tunsettled")]
        self.assertEqual((len(unsettled), len(late) - len(unsettled)), (1177, 4683))
        settled = {int(at): int(soups) for at, soups in (line.split("\t") for line in lifespans)}
        self.assertEqual(sum(settled.values()) + len(unsettled), 100_000_000)
        self.assertEqual(sum(soups for at, soups in settled.items() if at >= 12_000), 4683)


class Rarity(unittest.TestCase):
    def test_parts(self) -> None:
        self.assertEqual(
            run("rarity", "loafer", "octagon 2", "xs4_33"),
            (
                0,
                """\
xq7_3nw17862z6952 (loafer): none in 100000000 soups; less than one in 27100000 (95 %)
xp5_idiidiz01w1 (octagon 2): one in 100000000 soups (95 %: 17948025 to 3949789091); 1 object in 1 of 100000000 soups
xs4_33 (block): one in 1.10 soups (95 %: 1.10 to 1.10); 673827113 objects in 91186721 of 100000000 soups
""",
                "",
            ),
        )

    def test_a_pseudo_object(self) -> None:
        """A pseudo-object has a line of its own, and a line for each of its parts. No line says
        `none`."""
        status, output, errors = run("rarity", "xp2_33ws")
        self.assertEqual((status, errors), (0, ""))
        first, *others = output.splitlines()
        self.assertEqual(first, "xp2_33ws: a pseudo-object, made of blinker and block")
        self.assertEqual(
            [line.split(":")[0] for line in others], ["  xp2_7 (blinker)", "  xs4_33 (block)"]
        )
        self.assertNotIn("none", output)

    def test_codes_that_are_something_else(self) -> None:
        """Each code that no object of a census has is answered by what it is."""
        grows = (
            "a code of apgsearch for a pattern that grows or stays active; a census here counts its "
            "soup as unsettled, and `haul why` says what became of the soup"
        )
        for code, answer in (
            ("xq4_163", "not canonical: the same object is xq4_153"),
            ("xs5_33", "not an apgcode: four cells, not five"),
            ("xs13_33", "not an apgcode: four cells, not 13"),
            ("xp3_7", "not an apgcode: period 2, not 3"),
            ("xs7_8n6", "its cells aren't such an object"),
            ("xs3_7", "its cells aren't such an object"),
            ("xs4_zz", "not an apgcode"),
            ("ov_s", "not an apgcode"),
            ("zz_LINEAR", grows),
            ("yl144_1_16_afb5f3db909e60548f086e22ee3353ac", grows),
            (
                "xp30_w33z8kqrqk8zzzx33",
                "no object that `census` counts, so the reference can't have it",
            ),
        ):
            status, output, errors = run("rarity", code)
            # The name of an object stands between its code and the colon.
            self.assertEqual((status, output.split(": ", 1)[1], errors), (0, f"{answer}\n", ""))

    def test_an_unknown_name(self) -> None:
        """The other objects are answered, and names that look like the unknown one are named."""
        for unknown, meant in (
            ("gldier", "; did you mean glider?"),
            ("loafre", "; did you mean loafer or loaf?"),
            ("nothing like it", ""),
        ):
            status, output, errors = run("rarity", "loafer", unknown, "block")
            self.assertEqual(status, 2)
            self.assertEqual(
                [line.split()[0] for line in output.splitlines()], ["xq7_3nw17862z6952", "xs4_33"]
            )
            self.assertEqual(
                errors,
                f"haul: {unknown} is neither a code such as xs4_33 nor a known name{meant}\n",
            )

    def test_spellings(self) -> None:
        """Apostrophes don't matter, straight or curly."""
        wanted = run("rarity", "Achim's p8")
        self.assertEqual(wanted[0], 0)
        for name in ("Achims p8", "achim\u2019s P8", "ACHIM'S-P8"):
            self.assertEqual(run("rarity", name), wanted)
        self.assertEqual(run("rarity", "figure-8"), run("rarity", "figure eight"))

    def test_what_is_neither(self) -> None:
        self.assertEqual(run("rarity", "blocksmith")[:2], (2, ""))
        self.assertEqual(run("rarity")[0], 2)


if __name__ == "__main__":
    unittest.main()
