"""Checks how soups play on pages: up to the ends that `census` reports, in views of the ash and of
all cells, and with the keyboard.
"""

from __future__ import annotations

import re
import time
from pathlib import Path

from checks.haul.browser import Driver, all_of, click, opened, press, text, wait_for
from checks.haul.made_pages import census, count, go_to, rows_of
from checks.haul.page_looks import ENTER, SPACE

# The number of soups that are played to their ends.
SOUPS = 10
# Counts the points of the player's picture that have the colour of live cells.
LIVE_POINTS = """
const canvas = document.querySelector('.player canvas'), { data } = canvas.getContext('2d').getImageData(0, 0, canvas.width, canvas.height);
const live = getComputedStyle(canvas).getPropertyValue('--live').match(/[0-9a-f]{2}/g).map(byte => parseInt(byte, 16));
let count = 0;
for (let at = 0; at < data.length; at += 4) if (live.every((part, color) => data[at + color] === part)) count += 1;
return count;"""


def try_players(driver: Driver, path: Path, haul: bytes) -> None:
    """Checks that ten soups, played to their ends, have as many live cells as `census` reports, and
    a ring around each object of the code of which they are a sample.
    """
    opened(driver, path, "#&parts=0")
    labels: dict[str, str] = driver.execute_script(
        "return Object.fromEntries(JSON.parse(document.querySelector('#data').textContent).objects.map(one => [one.code, one.label]))"
    )
    first = set(all_of(driver)[:80])
    codes = {row[1]: row[0] for row in rows_of(haul, "@SAMPLE_SOUPIDS") if row[0] in first}
    for number, code in list(codes.items())[:SOUPS]:
        soup = census("soup", number)
        _, settled, *named = census("name", pattern=soup).decode().split()
        live, many = census("run", settled, pattern=soup).count(b"O"), int(
            named[named.index(code) + 1]
        )
        play_to_end(driver, code, number)
        around = labels[code] or code
        rings = (
            f"The ring is around the {around}."
            if many == 1
            else f"Each of the {many} {plural_of(around, code)} has a ring."
        )
        count.equal(
            f"soup {number} at its end, with {code}",
            text(driver, ".player output"),
            f"generation {settled} of {settled}, {live} cells: settled, as census says. {rings}",
        )
    click(driver, "[data-act=fit]")
    margins = margins_of(driver)
    count.holds(
        "all that is alive is in sight",
        min(margins) > 0 and (margins[0] + margins[1] < 0.3 or margins[2] + margins[3] < 0.3),
        margins,
    )
    click(driver, "[data-act=ring]")
    near = margins_of(driver)
    count.holds("a button moves in on the ring", min(near) < min(margins), near)
    click(driver, "[data-act=fit]")
    count.equal("and another one shows all again", margins_of(driver), margins)
    click(driver, "[data-act=ring]")
    click(driver, "[data-act=back]")
    live = census("soup", number).count(b"O")
    # A cell has sixteen by sixteen points, minus the points of the grid.
    count.holds(
        "at the start, all is in sight again",
        live_points(driver) >= live * 14 * 14,
        (live_points(driver), live),
    )
    try_keys_of_player(driver, number)
    try_view(driver)
    try_end(driver)
    wrong = path.with_name("wrong.html")
    wrong.write_text(re.sub(rf'("{number}":\["[^"]*",\d+),\d+,\d+\]', r"\1,1,1]", path.read_text()))
    opened(driver, wrong)
    play_to_end(driver, code, number)
    count.holds(
        "a soup that comes out otherwise is told",
        "but census says 1: this player is wrong" in text(driver, ".player output"),
        text(driver, ".player output"),
    )


def plural_of(label: str, code: str) -> str:
    """Returns the label for several objects: the plural of the name, if there is a name."""
    if label == code or re.search(r"[0-9]| and ", label):
        return "objects with this code"
    for end, plural in (("loaf", "loaves"), ("fly", "flies"), ("ry", "ries")):
        if label.endswith(end):
            return label.removesuffix(end) + plural
    return f"{label}s"


def play_to_end(driver: Driver, code: str, number: str) -> None:
    go_to(driver, f"#{code}&soup=A{number}&parts=0")
    wait_for(
        lambda: text(driver, "#object header code") == code
        and text(driver, "#player h3") == f"Soup {number}"
    )
    click(driver, "[data-act=end]")
    wait_for(lambda: "census says" in text(driver, ".player output"), 60)


def try_view(driver: Driver) -> None:
    """Checks that the view follows the ash of soup 1, but not the two gliders that the soup
    leaves.
    """
    play_to_end(driver, "xs4_33", "1")
    followed = live_points(driver)
    count.equal(
        "a view follows the ash at first", pressed(driver), [["ash", "true"], ["fit", "false"]]
    )
    click(driver, "[data-act=fit]")
    count.holds(
        "gliders make the ash small if all is in sight",
        live_points(driver) * 2 < followed,
        (live_points(driver), followed),
    )
    count.equal("a button says so", pressed(driver), [["ash", "false"], ["fit", "true"]])
    click(driver, "[data-act=ash]")
    count.equal("another one follows the ash", live_points(driver), followed)


def live_points(driver: Driver) -> int:
    return int(driver.execute_script(LIVE_POINTS))


def pressed(driver: Driver) -> list[list[str]]:
    found: list[list[str]] = driver.execute_script(
        "return [...document.querySelectorAll('.player [aria-pressed]')].map(one => [one.dataset.act, one.ariaPressed])"
    )
    return found


def try_end(driver: Driver) -> None:
    """Checks that a soup at its end plays again from the start."""
    play_to_end(driver, "xs4_33", "1")
    count.equal(
        "at the end, nothing is left to step to",
        driver.execute_script(
            "return [...document.querySelectorAll('.player button:disabled')].map(one => one.textContent)"
        ),
        ["Step", "To the end"],
    )
    count.equal("and a button plays again", text(driver, "[data-act=play]"), "Play again")
    click(driver, "[data-act=play]")
    count.holds(
        "from the start",
        wait_for(lambda: 0 < int(text(driver, ".player output").split()[1]) < 808)
        and text(driver, "[data-act=play]") == "Pause",
        text(driver, ".player output"),
    )


def margins_of(driver: Driver) -> list[float]:
    """Returns how much of the player's picture is empty at the left, the right, the top and the
    bottom. Only points in the colour of live cells count, since the grid fills the picture.
    """
    found: list[float] = driver.execute_script(
        """
const canvas = document.querySelector('.player canvas'), { width, height } = canvas;
const points = canvas.getContext('2d').getImageData(0, 0, width, height).data, xs = [], ys = [];
const live = getComputedStyle(canvas).getPropertyValue('--live').match(/[0-9a-f]{2}/g).map(byte => parseInt(byte, 16));
for (let at = 0; at < width * height; at += 1) if (live.every((part, color) => points[4 * at + color] === part)) { xs.push(at % width); ys.push(Math.floor(at / width)); }
const least = all => all.reduce((one, other) => Math.min(one, other), 1), most = all => all.reduce((one, other) => Math.max(one, other), 0);
return [least(xs) / width, 1 - (most(xs) + 1) / width, least(ys) / height, 1 - (most(ys) + 1) / height];"""
    )
    return found


def try_keys_of_player(driver: Driver, number: str) -> None:
    """Checks that keys press the player's buttons."""

    def said() -> str:
        return text(driver, ".player output")

    def live(generation: int) -> str:
        return (
            f", {census('run', str(generation), pattern=census('soup', number)).count(b'O')} cells"
        )

    def press_on(act: str, key: str) -> None:
        driver.execute_script(
            "document.querySelector(arguments[0]).focus()", f".player [data-act={act}]"
        )
        press(driver, key)

    press_on("back", SPACE)
    count.holds(
        "it goes back",
        wait_for(lambda: said().startswith("generation 0 of ") and said().endswith(live(0))),
        said(),
    )
    count.holds(
        "without a ring",
        driver.find_element("css selector", "[data-act=ring]").get_property("hidden") is True,
    )
    for _ in range(3):
        press_on("step", ENTER)
    count.holds(
        "it goes on by a step each",
        wait_for(lambda: said().startswith("generation 3 of ") and said().endswith(live(3))),
        said(),
    )
    press_on("play", SPACE)
    count.holds("it plays", wait_for(lambda: int(said().split()[1]) > 10), said())
    press_on("play", SPACE)
    stopped = said()
    time.sleep(0.2)
    count.equal("it pauses", said(), stopped)
