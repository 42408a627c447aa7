"""Checks the list of objects on a page: its orders and charts."""

from __future__ import annotations

import math
import re
from pathlib import Path

from checks.haul import browser
from checks.haul.browser import Driver, all_of, choose, click, opened, text, texts
from checks.haul.made_pages import PULSAR, census, count, haul_of, in_order, page_of, rows_of


def try_list(driver: Driver, path: Path, haul: bytes) -> None:
    """Checks the list of all objects of a census, in each order, with the search and the chips."""
    totals = {code: int(total) for code, total in rows_of(haul, "@CENSUS TABLE")}
    opened(driver, path, "#&parts=0")
    count.equal("nothing is on the console", browser.complaints(driver), [])
    by_total = sorted(totals, key=lambda code: (-totals[code], in_order(code)))
    count.equal("each object has a card, the most frequent first", all_of(driver), by_total)
    count.equal("each card has a picture", len(texts(driver, ".card svg")), len(totals))
    objects = sum(totals.values())
    count.equal(
        "it says how many are shown",
        text(driver, "#shown"),
        f"{len(totals)} of {len(totals)} kinds, {objects:,} of {objects:,} objects.",
    )
    try_orders(driver, totals, by_total)
    driver.find_element("id", "query").send_keys("Glider")
    count.holds(
        "a search finds names",
        "xq4_153" in all_of(driver) and all("glider" in name for name in texts(driver, ".card b")),
        texts(driver, ".card b"),
    )
    for words, code in (
        ("lwss", "xq4_6frc"),
        ("oscillator of period 3", PULSAR),
        ("xp2_7", "xp2_7"),
    ):
        driver.find_element("id", "query").clear()
        driver.find_element("id", "query").send_keys(words)
        count.holds(f"a search finds {words}", all_of(driver)[0] == code, all_of(driver))
    count.equal(
        "a search finds codes", all_of(driver), [code for code in by_total if "xp2_7" in code]
    )
    count.equal("the address keeps the search", browser.address(driver), "#&q=xp2_7&parts=0")
    opened(driver, path, "#&parts=0&view=table&kind=p,q&period=3")
    wanted = [code for code in by_total if re.match("xp3_|xq", code)]
    count.equal("chips choose kinds and periods, also from the address", all_of(driver), wanted)
    count.equal(
        "each row has its total",
        texts(driver, "#list td.total b"),
        [f"{totals[code]:,}" for code in wanted],
    )
    count.equal(
        "and how often it comes, as in the gallery",
        texts(driver, "#list td.in")[:1],
        [
            f"≤ 1 in {2000 // totals[wanted[0]]} soups"
            if totals[wanted[0]] <= 1000
            else f"{totals[wanted[0]] / 2000:.3g} per soup"
        ],
    )
    count.equal(
        "a chip says how many there are, whatever other chips are pressed",
        texts(driver, "[data-name=kind] .count"),
        [str(sum(code.startswith(f"x{letter}") for code in totals)) for letter in "spq"],
    )
    periods = [int(code[2:].partition("_")[0]) for code in totals if code.startswith("xp")]
    count.equal(
        "and so do those of periods",
        texts(driver, "[data-name=period]"),
        [f"p{period} {periods.count(period)}" for period in sorted(set(periods))],
    )
    click(driver, "[data-name=kind][data-value=p]")
    count.equal(
        "a chip is taken back with its periods",
        (all_of(driver), browser.address(driver)),
        ([code for code in by_total if code.startswith("xq")], "#&kind=q&parts=0&view=table"),
    )
    opened(driver, path, "#xs99_0")
    count.holds(
        "a code that isn't there is told",
        text(driver, "#shown").startswith("No object on this page has the code xs99_0. "),
        text(driver, "#shown"),
    )


def try_orders(driver: Driver, totals: dict[str, int], by_total: list[str]) -> None:
    def period(code: str) -> int:
        return 1 if code.startswith("xs") else int(code[2:].partition("_")[0])

    def cells(code: str) -> int:
        return census("show", code).count(b"O")

    sizes = {code: cells(code) for code in totals}
    for order, key in (
        ("rarity", totals.__getitem__),
        ("cells", sizes.__getitem__),
        ("-cells", lambda code: -sizes[code]),
        ("period", period),
        ("-period", lambda code: -period(code)),
    ):
        choose(driver, "#sort", order)
        # Objects with equal keys are in the order of frequency, then of their codes.
        count.equal(f"the order {order}", all_of(driver), sorted(by_total, key=key))
    click(driver, "[name=view][value=table]")
    for head, order in (
        ("Cells", "cells"),
        ("Cells", "-cells"),
        ("Total", "frequency"),
        ("Total", "rarity"),
        ("How often", "frequency"),
        ("What it is", "period"),
    ):
        driver.find_element("xpath", f"//th/button[starts-with(text(), '{head}')]").click()
        count.equal(
            f"a click on {head}", driver.find_element("id", "sort").get_property("value"), order
        )
    count.equal(
        "the head says by what it is sorted",
        driver.execute_script(
            "return [...document.querySelectorAll('[aria-sort]')].map(one => [one.className, one.ariaSort])"
        ),
        [["kind", "ascending"]],
    )
    click(driver, "[name=view][value=gallery]")
    choose(driver, "#sort", "frequency")


def try_charts(driver: Driver, folder: Path) -> None:
    """Checks the charts, and that cards say `.. per soup` if there are more than half as many
    objects as soups, and `≤ 1 in .. soups` otherwise.
    """
    path = page_of(
        folder / "charts.html",
        haul_of(
            ["xp2_7", "xs4_33", "xs5_253", "xs8_rr"],
            2000,
            counts={"xp2_7": 1500, "xs4_33": 1000, "xs5_253": 1, "xs8_rr": 1},
        ),
        more=("--play=0",),
    )
    for axis, marks in (
        ("log", ["1", "10", "100", "1k", "10k"]),
        ("linear", ["0", "500", "1k", "1.5k"]),
    ):
        opened(driver, path, f"#&parts=0&axis={axis}")
        count.equal(f"the marks of the {axis} axis", texts(driver, ".marks .mark"), marks)
        count.equal(
            "the most frequent",
            list(
                zip(
                    texts(driver, ".frequencies .label"),
                    texts(driver, ".frequencies .value"),
                    strict=True,
                )
            ),
            [("blinker", "1,500"), ("block", "1,000"), ("boat", "1"), ("bi-block", "1")],
        )
        widths: list[float] = driver.execute_script(
            "return [...document.querySelectorAll('.frequencies .bar')].map(one => one.offsetWidth / one.closest('.track').offsetWidth)"
        )
        wanted = [math.log10(1500) / 4, 0.75] if axis == "log" else [1, 2 / 3]
        count.holds(
            f"bars on the {axis} axis",
            all(abs(width - right) < 0.01 for width, right in zip(widths, wanted)),
            widths,
        )
    count.equal(
        "where the rarest are",
        text(driver, "#charts figure:last-child .note"),
        "2 kinds were found once (ranks 3 to 4), of these 1 strict.",
    )
    count.equal(
        "just half as many objects as soups are no more than that",
        texts(driver, ".card .often"),
        ["0.75 per soup", "≤ 1 in 2 soups", *["≤ 1 in 2,000 soups"] * 2],
    )
    click(driver, "[name=parts]")
    count.equal(
        "by parts the rarest is one",
        text(driver, "#charts figure:last-child .note"),
        "One kind was found once (rank 3).",
    )
    count.holds(
        "and all points have the same colour, which needs no key",
        texts(driver, "#charts .key") == [""]
        and "of parts" in text(driver, "#charts figure:last-child figcaption")
        and driver.execute_script(
            "const [all, strict] = document.querySelectorAll('.dots'); return all.getAttribute('d') === strict.getAttribute('d')"
        ),
        texts(driver, "#charts .key"),
    )
    count.equal("the bracket has a label", texts(driver, ".plot text")[-1:], ["found once"])
    opened(
        driver,
        page_of(
            folder / "frequent.html",
            haul_of(["xp2_7", "xs4_33"], 2000, counts={"xp2_7": 1500, "xs4_33": 1000}),
            more=("--play=0",),
        ),
    )
    count.equal(
        "a logarithmic axis begins at one object",
        texts(driver, ".marks .mark"),
        ["1", "10", "100", "1k", "10k"],
    )
