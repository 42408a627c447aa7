"""Checks the dialogs of a page: objects in motion, and copied texts."""

from __future__ import annotations

import shutil
import subprocess
import tempfile
from pathlib import Path

from checks.haul import browser
from checks.haul.browser import Driver, click, look_like, opened, text, texts, wait_for
from checks.haul.made_pages import (
    HAUL,
    PULSAR,
    WIDTHS,
    boxed,
    census,
    count,
    drawn,
    go_to,
    in_order,
    rows_of,
)


def try_dialogs(driver: Driver, path: Path, haul: bytes) -> None:
    totals = {code: int(total) for code, total in rows_of(haul, "@CENSUS TABLE")}
    opened(driver, path, "#&parts=0")
    for code in sorted(totals, key=lambda code: (-totals[code], in_order(code)))[:12]:
        go_to(driver, f"#{code}&parts=0")
        wait_for_object(driver, code)
        if code.startswith("xs"):
            count.equal(
                f"the picture of {code}",
                browser.cells_in_picture(driver, ".frame svg")[0],
                drawn(code),
            )
    by_total = sorted(totals, key=lambda code: (-totals[code], in_order(code)))
    for place, steps in (
        (0, [("Next", 1)]),
        (4, [("Previous", 3), ("Next", 5)]),
        (-1, [("Previous", -2)]),
    ):
        go_to(driver, f"#{by_total[place]}&parts=0")
        wait_for_object(driver, by_total[place])
        count.equal(
            f"links from object {place}",
            driver.execute_script(
                "return [...document.querySelectorAll('.step')].map(one => [one.ariaLabel, one.getAttribute('href')])"
            ),
            [[f"{name} object", f"#{by_total[other]}&parts=0"] for name, other in steps],
        )
    for code, period in ((PULSAR, 3), ("xq4_153", 4), ("xp2_318c", 2)):
        go_to(driver, f"#{code}&parts=0")
        wait_for_object(driver, code)
        for phase in range(period):
            path_seen = driver.execute_script(
                "return document.querySelector('.frame .live').getAttribute('d')"
            )
            count.equal(
                f"phase {phase} of {code}",
                (browser.cells_of_path(path_seen), text(driver, ".phase")),
                (drawn(code, phase), f"phase {phase} (0 to {period - 1})"),
            )
            click(driver, "[data-act=phase]")
    facts = dict(zip(texts(driver, ".facts dt"), texts(driver, ".facts dd"), strict=True))
    count.equal(
        "what is said of a beacon",
        [facts[name] for name in ("kind", "cells in each phase", "bounding box", "parts")],
        ["oscillator of period 2", "6, 8", "4 by 4", "none: it is strict"],
    )
    go_to(driver, "#xq4_153&parts=0")
    count.holds(
        "how a glider moves",
        wait_for(lambda: "in 4 generations, which is c/4 diagonal" in text(driver, ".facts dd")),
        texts(driver, ".facts dd"),
    )
    try_motion(driver)


def wait_for_object(driver: Driver, code: str) -> None:
    wait_for(lambda: text(driver, "#object header code") == code)


def try_motion(driver: Driver) -> None:
    """Checks that phases play, unless reduced motion is preferred."""
    count.equal("who wants no motion sees none", len(browser.paths_seen(driver, ".frame", 0.7)), 1)
    look_like(driver, 1400, still=False)
    driver.refresh()
    seen = [browser.cells_of_path(one) for one in browser.paths_seen(driver, ".frame", 2)]
    first = next(
        (generation for generation in range(4) if drawn("xq4_153", generation) == seen[0]), 0
    )
    count.holds(
        "the phases are shown one after another",
        len(seen) > 4
        and all(cells == drawn("xq4_153", (first + k) % 4) for k, cells in enumerate(seen)),
    )
    click(driver, "[data-act=phases]")
    count.equal(
        "a button stops them",
        [browser.cells_of_path(one) for one in browser.paths_seen(driver, ".frame", 0.7)],
        [drawn("xq4_153")],
    )
    look_like(driver, 1400)


def try_copies(driver: Driver, path: Path, haul: bytes) -> None:
    """Checks that the copied text is the object or the soup, as RLE that `haul` and Golly read."""
    samples = {row[0]: row[1] for row in rows_of(haul, "@SAMPLE_SOUPIDS")}
    for code in ("xs4_33", "xq4_153", PULSAR, "xp2_318c"):
        opened(driver, path, f"#{code}&soup=A{samples[code]}")
        keep_copies(driver)
        for act, what in (("rle", "RLE"), ("soup-rle", "RLE of the soup"), ("command", "command")):
            before = places_of_buttons(driver)
            click(driver, f"[data-act={act}]")
            wait_for(lambda: said_beside(driver, act) != "")
            count.equal(
                f"beside the button, it says that the {what} is copied, and nothing moves",
                (said_beside(driver, act), places_of_buttons(driver)),
                (f"The {what} is copied.", before),
            )
        wait_for(lambda: bool(driver.execute_script("return copied.length === 3")))
        rle, soup, command = driver.execute_script("return copied")
        count.equal(f"the RLE of {code}", by_haul(rle), boxed(census("show", code)))
        count.equal(
            f"the RLE of soup {samples[code]}", by_haul(soup), boxed(census("soup", samples[code]))
        )
        count.equal("the command", command, f"census soup {samples[code]} | census name")
        count.holds(
            "no line is longer than 70 characters", max(map(len, (rle + soup).splitlines())) <= 70
        )
        if shutil.which("bgolly"):
            count.equal(
                f"Golly reads the RLE of {code}",
                [by_golly(one) for one in (rle, soup)],
                [by_haul(one) for one in (rle, soup)],
            )


def said_beside(driver: Driver, act: str) -> str:
    return text(driver, f"[data-act={act}] + .copied")


def places_of_buttons(driver: Driver) -> list[float]:
    found: list[float] = driver.execute_script(
        "return [...document.querySelectorAll('dialog button')].flatMap(one => { const { left, top } = one.getBoundingClientRect(); return [left, top]; })"
    )
    return found


def try_refused_copies(driver: Driver, path: Path) -> None:
    """Checks that the text is shown and selected beside the button if the browser doesn't copy it,
    and that the text disappears when another button has the focus.
    """
    opened(driver, path, "#xs4_33&soup=A1")
    wait_for(lambda: text(driver, "#player h3") == "Soup 1")
    driver.execute_script(
        "Object.defineProperty(navigator, 'clipboard', {value: {writeText: async () => { throw new Error() }}})"
    )
    for width in WIDTHS:
        look_like(driver, width)
        before = places_of_buttons(driver)
        click(driver, "[data-act=command]")
        wait_for(lambda: said_beside(driver, "command") != "")
        count.equal(
            f"a text that isn't copied is selected beside its button at {width}, and nothing moves",
            driver.execute_script(
                """
const area = document.querySelector('[data-act=command] + .copied textarea'), box = area.getBoundingClientRect();
return [area === document.activeElement, area.value.slice(area.selectionStart, area.selectionEnd), box.left >= 0 && box.right <= innerWidth];"""
            ),
            [True, "census soup 1 | census name", True],
        )
        count.equal("and nothing moves", places_of_buttons(driver), before)
        driver.execute_script("document.querySelector('[data-act=step]').focus()")
        count.equal("it goes when another button has the focus", said_beside(driver, "command"), "")
    look_like(driver, 1400)


def keep_copies(driver: Driver) -> None:
    """Makes the page put the texts that it copies into its variable `copied`."""
    driver.execute_script(
        "window.copied = []; Object.defineProperty(navigator, 'clipboard', {value: {writeText: async text => { copied.push(text) }}})"
    )


def by_haul(rle: str) -> bytes:
    return boxed(
        subprocess.run(
            [HAUL, "cells"], input=rle.encode(), stdout=subprocess.PIPE, check=True
        ).stdout
    )


def by_golly(rle: str) -> bytes:
    """Has Golly read a pattern and write it again. Returns the written pattern as plaintext."""
    with tempfile.TemporaryDirectory() as room:
        folder = Path(room)
        (folder / "in.rle").write_text(rle)
        (folder / "out.rle").write_text("")
        subprocess.run(
            ["bgolly", "-m", "0", "-o", "out.rle", "in.rle"],
            cwd=folder,
            stdout=subprocess.DEVNULL,
            stderr=subprocess.DEVNULL,
            check=True,
        )
        return by_haul((folder / "out.rle").read_text())
