"""Checks the section *Long lives* of a page: its lists and its chart, and how its soups play in the
dialog, with the mouse and with the keyboard.
"""

from __future__ import annotations

import subprocess
from pathlib import Path

from checks.haul.browser import (
    Driver,
    address,
    click,
    complaints,
    focused,
    is_narrow,
    low_contrasts,
    nameless,
    opened,
    press,
    text,
    texts,
    wait_for,
)
from checks.haul.made_pages import HAUL, WIDTHS, census, count
from checks.haul.page_looks import ENTER
from checks.lib.program import CENSUS

LEFT, RIGHT, ESCAPE = "\ue012", "\ue014", "\ue00c"
# The number of soups; the limit, at which some of them are unsettled; and the earliest checkpoint
# of a late soup.
SOUPS, LIMIT, LATE = 40, 3030, 1000


def make_lives_page(folder: Path) -> tuple[Path, list[str]]:
    """Makes a page with long lives. Returns its path, and the report lines of its late and
    unsettled soups.
    """
    job = (f"--limit={LIMIT}", f"--count={SOUPS}", "--first=600")
    haul, late, page = folder / "lives.haul", folder / "lives.late", folder / "lives.html"
    haul.write_bytes(census("take", *job))
    lines = [
        line
        for line in census("work", "--worker=1", *job).decode().splitlines()
        if line.endswith(" unsettled") or int(line.split("at=")[1].split()[0]) >= LATE
    ]
    late.write_text("\n".join([f"# late {LATE} since 600 left-out 0", *lines, ""]))
    words = [str(HAUL), "page", f"--census={CENSUS}", "--play=3", "--lives", str(late), str(haul)]
    with page.open("wb") as file:
        subprocess.run(words, stdout=file, check=True)
    return page, lines


def try_lives(driver: Driver, folder: Path) -> None:
    page, lines = make_lives_page(folder)
    settled = [line for line in lines if not line.endswith(" unsettled")]
    opened(driver, page)
    links = texts(driver, "#lives .soups span > a")
    count.equal("each late or unsettled soup is in a list", len(links), len(lines))
    count.equal("the section has a heading", text(driver, "#lives h2"), "Long lives")
    count.equal(
        "the chart has each late soup",
        driver.execute_script(
            "return [...document.querySelectorAll('table.lifespans td')].reduce((sum, one) => sum + Number(one.textContent), 0)"
        ),
        len(settled),
    )
    try_one_life(driver, links[0])
    try_steps(driver, links)
    for width in WIDTHS:
        driver.set_window_size(width, 1000)
        opened(driver, page)
        count.holds(f"the section fits {width} points", is_narrow(driver))
        count.equal(f"names for all at {width}", nameless(driver), [])
        count.equal(f"contrasts at {width}", low_contrasts(driver, 4.5), [])


def try_one_life(driver: Driver, name: str) -> None:
    """Checks that the longest-lived soup plays to its end, as reported by `census`."""
    number = name.removeprefix("Soup ")
    driver.execute_script("document.querySelector('#lives .soups a').focus()")
    press(driver, ENTER)
    count.holds("it opens", wait_for(lambda: text(driver, "#object-name") == name))
    count.equal("its address", address(driver), f"#life={number}")
    count.equal("the focus is on its name", focused(driver), name)
    click(driver, "[data-act=end]")
    wait_for(lambda: "settled, as census says" in text(driver, ".player output"), 120)
    count.holds(
        "it plays to its end",
        "settled, as census says" in text(driver, ".player output"),
        text(driver, ".player output"),
    )
    count.equal("names for all in the dialog", nameless(driver), [])
    count.equal("contrasts in the dialog", low_contrasts(driver, 4.5), [])


def try_steps(driver: Driver, links: list[str]) -> None:
    """Checks that arrow keys move through the lists, that the address names no soup after the
    dialog is closed, and that a click opens a soup.
    """
    driver.execute_script("document.querySelector('#object-name').focus()")
    press(driver, RIGHT)
    count.holds("the next one", wait_for(lambda: text(driver, "#object-name") == links[1]))
    press(driver, LEFT)
    count.holds("the previous one", wait_for(lambda: text(driver, "#object-name") == links[0]))
    press(driver, LEFT)
    count.equal("there is none before the first", text(driver, "#object-name"), links[0])
    press(driver, ESCAPE)
    count.holds("it closes", wait_for(lambda: address(driver) in ("", "#")))
    click(driver, "#lives .soups li:last-child a")
    count.holds(
        "a soup opens by the mouse",
        wait_for(lambda: text(driver, "#object-name").startswith("Soup ")),
    )
    press(driver, ESCAPE)
    count.equal("nothing is on the console", complaints(driver), [])
