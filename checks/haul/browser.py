"""A browser that opens the page of `haul page`, and functions that read what it shows. Needs
Selenium, Pillow and Chromium.
"""

from __future__ import annotations

import io
import re
import shutil
import time
from collections.abc import Callable
from pathlib import Path
from typing import Any, TypeAlias

from PIL import Image
from selenium import webdriver
from selenium.webdriver.chrome.service import Service
from selenium.webdriver.common.by import By
from selenium.webdriver.remote.webelement import WebElement

from checks.lib.plain import Cells, to_corner

Driver: TypeAlias = webdriver.Chrome
Element: TypeAlias = WebElement

HEIGHT = 1000
# A point that is darker than this belongs to a live cell.
DARK = 128
# The most pictures that are taken until two in a row are the same, and the seconds between them.
MOST_PICTURES, SECONDS_BETWEEN = 40, 0.05

# A script that fills a table with plain rows and lays it out, and how long it usually takes.
PLAIN_TABLE = """
const box = document.createElement("div");
const row = "<tr>" + "<td><b>a word</b> and some more words</td>".repeat(8) + "</tr>";
box.innerHTML = "<table>" + row.repeat(200) + "</table>";
document.body.append(box);
document.body.offsetHeight;
box.remove();
"""
USUAL_MILLISECONDS = 60

# The beginning of the scripts that look for faults: WCAG's formula for contrasts, and functions
# that list elements and note faults. If a dialog is open, only its elements are listed.
SHARED = """
const numbers = color => { const [r, g, b, a = 1] = color.match(/[\\d.]+/g).map(Number); return [r, g, b, a]; };
const over = ([r, g, b, a], under) => [r, g, b].map((value, at) => value * a + under[at] * (1 - a)).concat(1);
const behind = element => {
  const layers = [];
  for (let at = element; at; at = at.parentElement) {
    layers.push(numbers(getComputedStyle(at).backgroundColor));
    if (layers.at(-1)[3] === 1 || at === document.querySelector('dialog')) break;
  }
  return layers.reverse().reduce((under, layer) => over(layer, under), [255, 255, 255, 1]);
};
const light = color => color.slice(0, 3).map(value => value / 255).map(value => value <= .03928 ? value / 12.92 : ((value + .055) / 1.055) ** 2.4)
  .reduce((sum, value, at) => sum + value * [.2126, .7152, .0722][at], 0);
const contrast = (one, other) => { const [dark, bright] = [light(one), light(other)].sort((a, b) => a - b); return (bright + .05) / (dark + .05); };
const root = document.querySelector('dialog[open]') ?? document.body, faults = [], all = selector => [...root.querySelectorAll(selector)];
const fault = (rule, one) => faults.push(`${rule}: ${(one.ariaLabel || one.textContent.trim() || one.outerHTML).slice(0, 40)}`);
const isSeen = one => one.checkVisibility() && one.getClientRects().length > 0 && !one.closest('.hidden, .skip');
"""

# Finds the visible texts, search fields and live cells that have too little contrast with their
# background, each with its contrast, according to WCAG's formula. If a dialog is open, only its
# elements count. Disabled controls don't count.
CONTRASTS = (
    SHARED
    + """
for (const element of all('*')) {
  const isText = [...element.childNodes].some(node => node.nodeType === 3 && node.data.trim()) && !element.matches('script, style, option, noscript');
  if (!isText && !element.matches('.live, input[type=search]') || !element.checkVisibility() || element.closest('.hidden, .skip, :disabled, label:has(:disabled)')) continue;
  const style = getComputedStyle(element), isDrawn = element instanceof SVGElement;
  const ratio = contrast(over(numbers(isDrawn ? style.fill : style.color), behind(element)), behind(element));
  if (ratio < arguments[0]) faults.push(`${element.textContent.trim().slice(0, 30) || element.className.baseVal}: ${ratio.toFixed(2)}`);
}
return faults;
"""
)


def browser(width: int, dark: bool = False, still: bool = True) -> Driver:
    """Starts a browser that is this wide, in points. It prefers reduced motion unless `still` is
    false.
    """
    options = webdriver.ChromeOptions()
    for word in [
        "--headless=new",
        "--no-sandbox",
        "--disable-gpu",
        "--hide-scrollbars",
        "--force-device-scale-factor=1",
    ]:
        options.add_argument(word)
    options.add_argument(f"--window-size={width},{HEIGHT}")
    options.set_capability("goog:loggingPrefs", {"browser": "ALL"})
    driver = webdriver.Chrome(service=Service(shutil.which("chromedriver")), options=options)
    look_like(driver, width, dark, still)
    return driver


def look_like(
    driver: Driver, width: int, dark: bool = False, still: bool = True, medium: str = ""
) -> None:
    """Sets the width and the preferences of a browser. A window can't be as narrow as a telephone,
    but its contents can.
    """
    driver.execute_cdp_cmd(
        "Emulation.setDeviceMetricsOverride",
        {"width": width, "height": HEIGHT, "deviceScaleFactor": 1, "mobile": False},
    )
    driver.execute_cdp_cmd(
        "Emulation.setEmulatedMedia",
        {
            "media": medium,
            "features": [
                {"name": "prefers-color-scheme", "value": "dark" if dark else "light"},
                {"name": "prefers-reduced-motion", "value": "reduce" if still else "no-preference"},
            ],
        },
    )


def opened(driver: Driver, path: Path, address: str = "") -> Driver:
    """Loads a page afresh, with the fragment `address`, even if the browser already shows it."""
    driver.get("about:blank")
    driver.get(path.as_uri() + address)
    return driver


def texts(driver: Driver, selector: str) -> list[str]:
    """Returns the texts of all elements that match a selector, visible or not."""
    found: list[str] = driver.execute_script(
        "return [...document.querySelectorAll(arguments[0])].map(one => one.textContent)", selector
    )
    return found


def text(driver: Driver, selector: str) -> str:
    return "|".join(texts(driver, selector))


def all_of(driver: Driver) -> list[str]:
    """Draws the whole list, as for printing, and returns its codes in order."""
    driver.execute_script("dispatchEvent(new Event('beforeprint'))")
    return texts(driver, "#list .card code, #list .name code")


def click(driver: Driver, selector: str) -> None:
    driver.execute_script("document.querySelector(arguments[0]).click()", selector)


def choose(driver: Driver, name: str, value: str) -> None:
    """Chooses a value from a drop-down list."""
    driver.execute_script(
        "const one = document.querySelector(arguments[0]); one.value = arguments[1]; one.dispatchEvent(new Event('change', {bubbles: true}))",
        name,
        value,
    )


def press(driver: Driver, *keys: str) -> None:
    for key in keys:
        driver.switch_to.active_element.send_keys(key)


def focused(driver: Driver) -> str:
    """Returns the text, label or id of the element that has the focus."""
    found: str = driver.execute_script(
        "const one = document.activeElement; return one.getAttribute('aria-label') || one.textContent.trim() || one.name || one.id || one.tagName"
    )
    return found


def address(driver: Driver) -> str:
    return str(driver.execute_script("return location.hash"))


def settled(element: Element) -> bytes:
    """Takes pictures of an element until two in a row are the same, and returns the last one. The
    first picture after a click may be taken before everything is painted.
    """
    before = b""
    for _ in range(MOST_PICTURES):
        now: bytes = element.screenshot_as_png
        if now == before:
            break
        before = now
        time.sleep(SECONDS_BETWEEN)
    return now


def cells_in_picture(driver: Driver, selector: str) -> tuple[Cells, float]:
    """Returns the live cells in a picture, according to the colour of the point in the middle of
    each cell, and the width of a cell in points.
    """
    element = driver.find_element(By.CSS_SELECTOR, selector)
    driver.execute_script("arguments[0].scrollIntoView({block: 'center'})", element)
    image = Image.open(io.BytesIO(settled(element))).convert("L")
    width, height = map(int, element.get_dom_attribute("viewBox").split()[2:])
    scale: float = image.width / width

    def lives(x: int, y: int) -> bool:
        return bool(image.getpixel((int(scale * (x + 0.5)), int(scale * (y + 0.5)))) < DARK)

    return to_corner((x, y) for x in range(width) for y in range(height) if lives(x, y)), scale


def cells_of_path(path: str) -> Cells:
    """Returns the cells that a picture's path draws, moved to the corner. The path draws each
    horizontal run of cells as one rectangle.
    """
    runs = re.findall(r"M(\d+) (\d+)h(\d+)v1h-\d+z", path)
    return to_corner((int(x) + k, int(y)) for x, y, length in runs for k in range(int(length)))


def paths_seen(driver: Driver, selector: str, seconds: float) -> list[str]:
    """Returns the paths that a picture has within `seconds` seconds, in order. The page notes each
    change, so that none is missed.
    """
    seen: list[str] = driver.execute_async_script(
        """
const [selector, seconds, done] = arguments, path = document.querySelector(`${selector} .live`), seen = [path.getAttribute('d')];
new MutationObserver(() => seen.push(path.getAttribute('d'))).observe(path, { attributeFilter: ['d'] });
setTimeout(() => done(seen), seconds * 1000);""",
        selector,
        seconds,
    )
    return seen


def is_narrow(driver: Driver) -> bool:
    """Checks that the page doesn't scroll sideways. A box that scrolls by itself may have wider
    contents.
    """
    return bool(driver.execute_script("return document.documentElement.scrollWidth <= innerWidth"))


def has_live_points(driver: Driver) -> bool:
    """Checks whether, within a second, the player's picture has points in the colour of live
    cells.
    """
    return wait_for(
        lambda: bool(
            driver.execute_script(
                """
const canvas = document.querySelector('.player canvas'), { data } = canvas.getContext('2d').getImageData(0, 0, canvas.width, canvas.height);
const live = getComputedStyle(canvas).getPropertyValue('--live').match(/[0-9a-f]{2}/g).map(byte => parseInt(byte, 16));
return data.some((value, at) => at % 4 === 0 && live.every((part, color) => data[at + color] === part));"""
            )
        ),
        1,
    )


def complaints(driver: Driver) -> list[str]:
    """Returns the messages on the console since the last call, except for those about this module's
    reading of a canvas.
    """
    return [
        entry["message"]
        for entry in driver.get_log("browser")
        if "willReadFrequently" not in entry["message"]
    ]


def low_contrasts(driver: Driver, least: float) -> list[str]:
    found: list[str] = driver.execute_script(CONTRASTS, least)
    return found


def nameless(driver: Driver) -> list[str]:
    """Returns the controls of a page for which a screen reader has no name."""
    nodes: list[dict[str, Any]] = driver.execute_cdp_cmd("Accessibility.getFullAXTree", {})["nodes"]
    roles = {
        "button",
        "link",
        "searchbox",
        "textbox",
        "combobox",
        "checkbox",
        "radio",
        "dialog",
        "img",
        "image",
    }
    return [
        node["role"]["value"]
        for node in nodes
        if not node["ignored"]
        and node["role"]["value"] in roles
        and not node.get("name", {}).get("value", "").strip()
    ]


def wait_for(holds: Callable[[], bool], seconds: float = 10) -> bool:
    end = time.monotonic() + seconds
    while not holds() and time.monotonic() < end:
        time.sleep(SECONDS_BETWEEN)
    return holds()


def seconds_to_open(driver: Driver, path: Path) -> float:
    """Returns how many seconds it takes to load a page and lay it out."""
    driver.get("about:blank")
    began = time.monotonic()
    driver.get(path.as_uri())
    driver.execute_script("return document.body.offsetHeight")
    return time.monotonic() - began


def seconds_worked(driver: Driver) -> float:
    """Returns a running total of the seconds for which the page's main thread has worked. The
    caller must have enabled the metrics with the time domain `threadTicks`. Then only the thread's
    own processor time counts, so other work on the machine hardly matters.
    """
    metrics = driver.execute_cdp_cmd("Performance.getMetrics", {})["metrics"]
    return float(next(metric["value"] for metric in metrics if metric["name"] == "TaskDuration"))


def longest_frame(driver: Driver) -> float:
    """Returns the longest time, in milliseconds, that the page's main thread works in two frames,
    while the page is scrolled in 40 steps of 300 points.
    """
    driver.execute_cdp_cmd("Performance.enable", {"timeDomain": "threadTicks"})
    longest, before = 0.0, seconds_worked(driver)
    for _ in range(40):
        driver.execute_async_script(
            "scrollBy(0, 300); requestAnimationFrame(() => requestAnimationFrame(arguments[0]))"
        )
        now = seconds_worked(driver)
        longest, before = max(longest, now - before), now
    driver.execute_cdp_cmd("Performance.disable", {})
    return longest * 1000


def slowness(driver: Driver) -> float:
    """Returns how many times as long as usual this machine takes to run `PLAIN_TABLE` in a page's
    main thread. The result is at least 1.
    """
    driver.execute_cdp_cmd("Performance.enable", {"timeDomain": "threadTicks"})
    before = seconds_worked(driver)
    driver.execute_script(PLAIN_TABLE)
    took = seconds_worked(driver) - before
    driver.execute_cdp_cmd("Performance.disable", {})
    return max(1.0, took * 1000 / USUAL_MILLISECONDS)


def least_of(measure: Callable[[], float], tries: int, enough: float) -> float:
    """Returns the smallest of up to `tries` measurements, since other work on the machine may make
    a measurement larger. Stops when a measurement is below `enough`.
    """
    least = measure()
    for _ in range(tries - 1):
        if least >= enough:
            least = min(least, measure())
    return least
