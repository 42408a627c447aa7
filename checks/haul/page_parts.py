"""Checks what a page counts: parts at first, objects or strict objects if a reader switches to them,
and what the reference says about parts.
"""

from __future__ import annotations

import re
import subprocess
from pathlib import Path

from checks.haul import browser
from checks.haul.browser import Driver, all_of, click, opened, text, texts, wait_for
from checks.haul.made_pages import CODES, HAUL, count, go_to, haul_of, in_order, page_of
from checks.haul.page_dialogs import wait_for_object
from checks.lib.program import TOP


def try_parts(driver: Driver, path: Path) -> None:
    """Checks the totals by parts, the objects that are listed if parts aren't counted, and which
    of these objects are strict.
    """
    opened(driver, path)
    count.equal(
        "parts are counted at first",
        all_of(driver),
        ["xp2_7", "xs4_33", "xp14_j9d0d9j", "xs5_253", "xs6_696"],
    )
    count.equal(
        "with their totals",
        texts(driver, ".card .total"),
        ["21 objects", "9 objects", "3 objects", "3 objects", "3 objects"],
    )
    codes = all_of(driver)
    count.equal(
        "and how often the reference has them",
        texts(driver, ".card .often"),
        [one_in_reference(code) for code in codes],
    )
    count.equal(
        "all of them",
        text(driver, "#shown"),
        "5 of 5 kinds, 39 of 39 parts. “One in” is from the reference, a census of 100,000,000 soups.",
    )
    count.holds(
        "strict only is without effect then",
        driver.find_element("name", "strict").get_property("disabled") is True,
    )
    try_reference(driver, codes)
    tiles = ["99", "21", "0.21", "7", "3", "0", "0"]
    count.equal("the tiles count all objects", texts(driver, ".tiles dd"), tiles)
    click(driver, "[name=parts]")
    count.equal("without that there are all objects", all_of(driver), sorted(CODES, key=in_order))
    count.equal("and no more", text(driver, "#shown"), "7 of 7 kinds, 21 of 21 objects.")
    count.equal(
        "for which the haul has only a bound",
        texts(driver, ".card .often"),
        ["≤ 1 in 33 soups"] * 7,
    )
    click(driver, "[name=strict]")
    count.equal(
        "a switch leaves strict objects", all_of(driver), ["xp2_7", "xp14_j9d0d9j", "xs5_253"]
    )
    count.equal(
        "and says how many there are", text(driver, "#shown"), "3 of 7 kinds, 9 of 21 objects."
    )
    count.equal("the address keeps both switches", browser.address(driver), "#&strict=1&parts=0")
    count.equal("the tiles stay", texts(driver, ".tiles dd"), tiles)
    go_to(driver, "#xs8_rr")
    count.holds(
        "a pseudo-object opens though it isn't chosen",
        wait_for(lambda: "bi-block" in text(driver, "#object-name")),
    )
    count.equal("it has its parts", texts(driver, ".part"), ["2 × block"])
    click(driver, ".part")
    count.holds(
        "a part that isn't itself an object has a dialog",
        wait_for(lambda: text(driver, "#object-name") == "block"),
    )
    count.equal(
        "with both totals",
        texts(driver, ".facts dd")[-2:],
        ["0", "9 (≤ 1 in 11 soups, 90,909 per million soups)"],
    )
    for code, said, links in (
        ("xp2_1110s", "counted as 2 × blinker", ["Catagolue"]),
        ("xp2_s01110szw222", "counted as 4 × blinker", ["Catagolue", "LifeWiki"]),
    ):
        go_to(driver, f"#{code}")
        wait_for_object(driver, code)
        count.equal(
            f"{code} counts as its parts, and LifeWiki has its name or no link",
            (texts(driver, ".facts dd")[-1], texts(driver, ".actions > a")),
            (said, links),
        )
    go_to(driver, "#xp2_7")
    wait_for_object(driver, "xp2_7")
    count.equal(
        "its soups are those of objects, and then those of parts",
        driver.execute_script(
            "return [...document.querySelectorAll('.soups li span')].map(one => [one.querySelector('a').textContent, one.textContent.includes('as a part')])"
        ),
        [[f"Soup {number}", False] for number in "678"]
        + [[f"Soup {number}", True] for number in "345"],
    )
    opened(
        driver,
        page_of(path.with_name("least.html"), haul_of(CODES, 99), more=("--least=4", "--play=0")),
        "#&parts=0",
    )
    count.equal(
        "objects that are left out have no card",
        (all_of(driver), text(driver, "#shown"), text(driver, ".none")),
        (
            [],
            "0 of 7 kinds, 0 of 21 objects. Kinds with fewer than 4 are left out.",
            "The other choices hide 2 objects that the search finds. Show",
        ),
    )
    click(driver, ".none button")
    count.equal("but their parts count", all_of(driver), ["xp2_7", "xs4_33"])
    driver.find_element("id", "query").send_keys("pulsar")
    count.equal(
        "the page says if nothing is found", text(driver, ".none"), "No object is found. Show all"
    )
    click(driver, ".none button")
    count.equal(
        "and all others can be shown",
        (all_of(driver), browser.address(driver)),
        (["xp2_7", "xs4_33"], ""),
    )
    go_to(driver, "#xs4_33&soup=A12")
    count.holds(
        "a soup about which census wasn't asked has no end",
        wait_for(
            lambda: "doesn’t know when this soup settles. The command below"
            in text(driver, ".player .note")
        ),
    )
    count.holds(
        "so it can't be played to that",
        driver.find_element("css selector", "[data-act=end]").get_property("disabled") is True,
    )
    click(driver, "[data-act=step]")
    count.holds(
        "but it plays",
        wait_for(lambda: text(driver, ".player output").startswith("generation 1, ")),
        text(driver, ".player output"),
    )
    opened(driver, path, "#&q=bi-block&sort=cells&axis=linear")
    count.equal(
        "it is said if a search finds what is hidden",
        text(driver, ".none"),
        "The other choices hide 1 object that the search finds. Show",
    )
    click(driver, ".none button")
    count.equal(
        "and a button shows it",
        (all_of(driver), browser.address(driver)),
        (["xs8_rr"], "#&q=bi-block&parts=0&sort=cells&axis=linear"),
    )


def one_in_reference(code: str) -> str:
    """Returns how often the reference has a part, by its table: the number of all soups divided by
    the number of soups that have the part.
    """
    rows = (TOP / "reference" / "parts.tsv").read_text().splitlines()
    having = {row.split("\t")[0]: int(row.split("\t")[2]) for row in rows[1:]}
    number = 100_000_000 / having[code]
    return f"one in {number:,.0f}" if number >= 100 else f"one in {number:.2f}"


def try_reference(driver: Driver, codes: list[str]) -> None:
    """Checks the column of the table with what the reference says. Its intervals are those of
    `haul rarity`, except for the commas between thousands.
    """
    click(driver, "[name=view][value=table]")
    said = {
        code: subprocess.run(
            [HAUL, "rarity", code], stdout=subprocess.PIPE, check=True
        ).stdout.decode()
        for code in codes
    }
    intervals = [re.findall(r"\(95 %: (.*?)\)", said[code]) for code in codes]
    count.equal(
        "the intervals are in the table",
        [one.replace(",", "") for one in texts(driver, "#list td.in small")],
        [f"95 %: {interval}" for (interval,) in intervals],
    )
    count.equal("in a column of its own", texts(driver, "#list th.in"), ["In the reference"])
    click(driver, "[name=view][value=gallery]")
