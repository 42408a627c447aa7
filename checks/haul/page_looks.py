"""Checks how pages look and work: at three widths, in light and dark, printed, without scripts, and
with 12,124 objects.
"""

from __future__ import annotations

import os
import subprocess
import sys
from pathlib import Path

from checks.haul import browser
from checks.haul.browser import Driver, all_of, click, look_like, opened, text, texts, wait_for
from checks.haul.made_pages import HAUL, PULSAR, WIDTHS, count, haul_of, in_order, page_of, rows_of

TAB, ENTER, ESCAPE, SPACE, BACKSPACE = "\ue004", "\ue007", "\ue00c", " ", "\ue003"
STATES = {
    "gallery": "",
    "objects": "#&strict=1&parts=0&sort=rarity",
    "table": "#&view=table",
    "dialog": f"#{PULSAR}",
    "parts": "#xp2_s01110szw222",
    "oscillators": "#&kind=p&axis=linear&q=zz",
}


def try_looks(driver: Driver, path: Path, both: Path, haul: bytes) -> None:
    """Checks each state at each width, in light and in dark: nothing is too wide, no text has too
    little contrast, and every control has a name.
    """
    sample = dict((row[0], row[1]) for row in rows_of(haul, "@SAMPLE_SOUPIDS"))[PULSAR]
    states = [
        *((name, path, address) for name, address in STATES.items()),
        ("player", path, f"#{PULSAR}&soup=A{sample}"),
        ("comparing", both, ""),
        ("comparing-table", both, "#&view=table"),
        ("comparing-dialog", both, "#xs12_raar"),
    ]
    for name, page, address in states:
        opened(driver, page, address)
        if name == "player":
            click(driver, "[data-act=end]")
            wait_for(lambda: "census says" in text(driver, ".player output"), 60)
        driver.execute_script(
            "document.querySelectorAll('details').forEach(one => { one.open = true })"
        )
        for width in WIDTHS:
            for dark in (False, True):
                look_like(driver, width, dark)
                where = f"{name} at {width}, {'dark' if dark else 'light'}"
                count.holds(f"nothing is wider than the page: {where}", browser.is_narrow(driver))
                count.equal(f"contrasts: {where}", browser.low_contrasts(driver, 4.5), [])
                if name == "player":
                    count.holds(
                        f"the player has the colours of the page: {where}",
                        browser.has_live_points(driver),
                    )
                count.equal(
                    f"no card is cut: {where}",
                    driver.execute_script(
                        "return [...document.querySelectorAll('.card > a')].filter(one => one.scrollHeight > one.offsetHeight).length"
                    ),
                    0,
                )
                if len(sys.argv) > 1:
                    driver.save_screenshot(
                        str(Path(sys.argv[1]) / f"{name}-{width}-{'dark' if dark else 'light'}.png")
                    )
            if name == "gallery" and width == WIDTHS[0]:
                tall = driver.execute_script(
                    "return Math.max(...[...document.querySelectorAll('.card')].map(one => one.offsetHeight))"
                )
                count.holds(
                    "a card on a telephone is at most 90 points high", 40 < tall <= 90, tall
                )
                click(driver, "#filter")
                count.equal(
                    "its total is in sight, and so are all chips behind the button",
                    driver.execute_script(
                        """
const isSeen = one => { const { left, right, width, height } = one.getBoundingClientRect(); return left >= 0 && right <= innerWidth && width > 20 && height > 10; };
return [...document.querySelectorAll('.card .total, #chips .chip')].filter(one => !isSeen(one)).map(one => one.textContent);"""
                    ),
                    [],
                )
        count.equal(f"all controls have names: {name}", browser.nameless(driver), [])
    look_like(driver, 1400)


def try_other_readers(driver: Driver, path: Path, haul: bytes) -> None:
    """Checks a page on paper, without scripts, and in a browser without `IntersectionObserver`."""
    totals = [row[0] for row in rows_of(haul, "@CENSUS TABLE")]
    parts = parts_of(path)
    for address in ("#&parts=0", "#&parts=0&view=table"):
        opened(driver, path, address)
        look_like(driver, 720, medium="print")
        count.equal("on paper all objects are there", len(all_of(driver)), len(totals))
        count.holds("on paper nothing is wider than the page", browser.is_narrow(driver))
        count.holds(
            "on paper there are no controls",
            not driver.find_element("id", "controls").is_displayed(),
        )
        count.equal(
            "on paper no card or row is split",
            driver.execute_script(
                "return [...new Set([...document.querySelectorAll('.card, #list tbody tr')].map(one => getComputedStyle(one).breakInside))]"
            ),
            ["avoid"],
        )
    driver.execute_cdp_cmd("Emulation.setScriptExecutionDisabled", {"value": True})
    for width in WIDTHS:
        look_like(driver, width)
        opened(driver, path)
        rows = driver.find_elements("css selector", ".all tbody tr")
        count.holds(
            f"without scripts there is a table at {width}",
            len(rows) == len(parts)
            and rows[-1].is_displayed()
            and not driver.find_element("id", "objects").is_displayed(),
        )
        count.holds(f"and nothing is wider than the page at {width}", browser.is_narrow(driver))
        count.holds(
            f"and the foot at {width}",
            "of Gokzerd" in driver.find_element("css selector", "footer").text,
        )
        count.holds(
            f"and the tiles at {width}",
            [one.text for one in driver.find_elements("css selector", ".tiles dd")][:1]
            == ["2,000"],
        )
    opened(driver, path, "#xq4_153")
    count.equal(
        "a code leads to its row",
        ["glider" in row.text for row in driver.find_elements("css selector", "tr:target")],
        [True],
    )
    driver.execute_cdp_cmd("Emulation.setScriptExecutionDisabled", {"value": False})
    look_like(driver, 1400)
    added = driver.execute_cdp_cmd(
        "Page.addScriptToEvaluateOnNewDocument", {"source": "delete window.IntersectionObserver"}
    )
    opened(driver, path, "#&parts=0")
    count.equal("without an observer all cards are there", len(texts(driver, ".card")), len(totals))
    driver.execute_cdp_cmd("Page.removeScriptToEvaluateOnNewDocument", added)


def parts_of(path: Path) -> list[str]:
    """Returns the codes of the parts in the haul of a page, as `haul table` lists them."""
    words = [str(HAUL), "table", "--csv", f"{path}.0"]
    listed = subprocess.run(words, stdout=subprocess.PIPE, check=True).stdout.decode()
    return [row.split(",")[0] for row in listed.splitlines()[1:]]


def seconds_of_children() -> float:
    """Returns the processor time of programs that were started and have ended. Other work on the
    machine doesn't count.
    """
    times = os.times()
    return times.children_user + times.children_system


def try_large_page(driver: Driver, folder: Path) -> None:
    """Checks a page of 12,124 objects, each of which is three still lifes in a row."""
    stills = [
        "33",
        "252",
        "253",
        "356",
        "25a4",
        "39c",
        "696",
        "bd",
        "178c",
        "2596",
        "25ac",
        "178k8",
        "25ak8",
        "312ko",
        "35ac",
        "3pm",
        "6996",
        "69ic",
        "25ako",
        "31ego",
        "4aar",
        "178kk8",
        "32qr",
    ]
    cells = {still: sum(bin(int(digit, 32)).count("1") for digit in still) for still in stills}
    codes = sorted(
        (
            f"xs{cells[a] + cells[b] + cells[c]}_{a}w{b}w{c}"
            for a in stills
            for b in stills
            for c in stills
        ),
        key=in_order,
    )[:12124]
    began = seconds_of_children()
    path = page_of(folder / "large.html", haul_of(codes, 36372), more=("--play=0",))
    took = seconds_of_children() - began
    count.holds(
        f"a page of {len(codes)} objects takes under 30 seconds of a processor: {took:.0f} s",
        len(codes) == 12124 and took < 30,
    )
    took = browser.least_of(lambda: browser.seconds_to_open(driver, path), tries=10, enough=2)
    count.holds(f"it opens in under two seconds: {took:.1f} s", took < 2)
    opened(driver, path, "#&parts=0")
    count.equal(
        "it has all objects",
        text(driver, "#shown"),
        "12,124 of 12,124 kinds, 36,372 of 36,372 objects.",
    )
    for view in ("gallery", "table"):
        opened(driver, path, f"#&parts=0&view={view}")
        took = browser.least_of(
            lambda: browser.longest_frame(driver) / browser.slowness(driver), tries=10, enough=100
        )
        count.holds(
            f"the {view} scrolls without a frame of over 100 ms on a usual machine: {took:.0f} ms",
            took <= 100,
        )
        driver.execute_script("scrollTo(0, 1e9)")
        count.holds(
            f"the {view} has its last object",
            wait_for(lambda: codes[-1] in text(driver, "#list code")),
        )
