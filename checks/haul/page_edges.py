"""Checks pages under difficult conditions: with the keyboard only, on a telephone, at 200 % zoom,
on paper, in forced colours, without scripts, and after long scrolling.
"""

from __future__ import annotations

import time
from pathlib import Path

from checks.haul import browser
from checks.haul.browser import Driver, click, look_like, opened, press, text, texts, wait_for
from checks.haul.made_pages import census, count, go_to, haul_of, page_of
from checks.haul.page_dialogs import wait_for_object

SHIFT_TAB, LEFT, RIGHT = "\ue008\ue004", "\ue012", "\ue014"
HARD_WIDTHS = (390, 800, 1400)
STEPS_BACK = 22
# Finds the element with the focus if a point near its top is above the window, or is covered by a
# sticky part at the top of the page or of the dialog.
COVERED = """
const one = document.activeElement, { left, right, top, bottom } = one.getBoundingClientRect();
if (one === document.body || right <= 0) return '';
const x = Math.min(Math.max((left + right) / 2, 0), innerWidth - 1), y = top + Math.min(10, (bottom - top) / 2);
const over = document.elementFromPoint(x, y), sticky = over?.closest('#controls, thead, dialog > header');
return y < 0 || sticky && !sticky.contains(one) ? `${one.textContent.trim().slice(0, 20)} at ${y}` : '';"""


def try_edges(driver: Driver, path: Path, folder: Path) -> None:
    two = page_of(
        folder / "two.html",
        census("take", "--count=400"),
        census("take", "--count=300", "--rule=b36s23"),
        more=("--play=0",),
    )
    for page in (path, two):
        for width in HARD_WIDTHS:
            look_like(driver, width)
            for view in ("gallery", "table"):
                try_focus(driver, page, width, view)
            try_focus_in_dialog(driver, page, width)
    try_telephone(driver, two)
    try_columns(driver, path)
    try_chart(driver, two)
    try_words(driver, path, two)
    try_keys(driver, path)
    try_paper(driver, two)
    try_forced_colors(driver, two)
    try_without_scripts(driver, two, folder)
    try_long_scrolling(driver, folder)
    look_like(driver, 1400)


def try_focus(driver: Driver, page: Path, width: int, view: str) -> None:
    """Checks that the focus is never hidden when Shift+Tab goes back from an object far down."""
    opened(driver, page, f"#&parts=0&view={view}")
    driver.execute_script("scrollTo(0, 2500)")
    time.sleep(0.3)
    driver.execute_script(
        "[...document.querySelectorAll('#list :is(.card > a, .name a)')].findLast(one => one.getBoundingClientRect().top < innerHeight).focus()"
    )
    covered = []
    for _ in range(STEPS_BACK):
        press(driver, SHIFT_TAB)
        covered.append(driver.execute_script(COVERED))
    hidden = [one for one in covered if one]
    count.equal(f"the focus is never hidden: {page.name}, {view} at {width}", hidden, [])


def try_focus_in_dialog(driver: Driver, page: Path, width: int) -> None:
    opened(driver, page, "#xs4_33&soup=A1")
    wait_for(lambda: text(driver, "#player h3") != "")
    driver.execute_script("document.querySelector('[data-act=command]').focus()")
    covered = []
    for _ in range(STEPS_BACK):
        press(driver, SHIFT_TAB)
        covered.append(driver.execute_script(COVERED))
    hidden = [one for one in covered if one]
    count.equal(f"nor is it in the dialog: {page.name} at {width}", hidden, [])


def try_telephone(driver: Driver, two: Path) -> None:
    """Checks that a telephone's bar of controls has only the search and a button, which shows and
    hides the other controls.
    """
    look_like(driver, 390)
    opened(driver, two)
    height = "return document.querySelector('#controls').offsetHeight"
    count.holds(
        "the bar of a telephone is low",
        driver.execute_script(height) <= 70,
        driver.execute_script(height),
    )
    chip = driver.find_element("css selector", "[data-name=kind]")
    count.holds("its chips are hidden", not chip.is_displayed())
    driver.execute_script("document.querySelector('#filter').focus()")
    press(driver, "\ue007")
    count.holds(
        "a button shows them, by a key",
        driver.find_element("css selector", "[data-name=kind]").is_displayed(),
    )
    click(driver, "[data-name=kind][data-value=p]")
    count.equal("it says how many are chosen", text(driver, "#filter .count"), "1")
    click(driver, "#filter")
    chip = driver.find_element("css selector", "[data-name=kind]")
    count.holds("and can hide them again", not chip.is_displayed())


def try_columns(driver: Driver, path: Path) -> None:
    """Checks that the dialog has one column at up to 800 points. At 1,400 points, it has two, and the
    facts stay beside the player.
    """
    sides = "return [...document.querySelectorAll('.whole > div')].map(one => one.offsetLeft)"
    for width, columns in ((390, 1), (641, 1), (700, 1), (800, 1), (1400, 2)):
        look_like(driver, width)
        opened(driver, path, "#xs4_33&soup=A1")
        wait_for(lambda: text(driver, "#player h3") != "")
        count.equal(
            f"columns of the dialog at {width}",
            len(set(driver.execute_script(sides))),
            columns,
        )
        count.holds(f"which has no more than its width: {width}", browser.is_narrow(driver))
    count.holds(
        "the facts are beside the player, and in view",
        driver.execute_script(
            "const [player, facts] = ['.player', '.facts'].map(one => document.querySelector(one).getBoundingClientRect());"
            "return facts.left > player.right && facts.top > 0 && facts.bottom < innerHeight"
        ),
    )


def try_chart(driver: Driver, two: Path) -> None:
    """Checks that the logarithmic axis has dots and the linear one bars, that the objects have a
    heading, and that the search comes before the links of the charts.
    """
    look_like(driver, 1400)
    drawn = """
const bars = [...document.querySelectorAll('.frequencies .bar')];
return [bars.some(one => getComputedStyle(one).backgroundColor !== 'rgba(0, 0, 0, 0)'), bars.some(one => getComputedStyle(one, '::after').borderRadius === '50%')];"""
    for axis, wanted in (("log", [False, True]), ("linear", [True, False])):
        opened(driver, two, f"#&axis={axis}")
        count.equal(f"bars and dots on the {axis} axis", driver.execute_script(drawn), wanted)
    count.equal("objects have a heading", texts(driver, "#objects h2"), ["Objects"])
    count.holds(
        "the search comes before the links of the charts",
        driver.execute_script(
            "return Boolean(document.querySelector('#query').compareDocumentPosition(document.querySelector('.frequencies a')) & 4)"
        ),
    )


def try_words(driver: Driver, path: Path, two: Path) -> None:
    opened(driver, two)
    cards = len(texts(driver, ".card"))
    count.equal(
        "each card of two hauls has its unit",
        texts(driver, ".card .per"),
        ["per million soups"] * cards,
    )
    count.holds(
        "a rate of zero is grey, with its mark",
        driver.execute_script(
            """
const grey = getComputedStyle(document.querySelector('#shown')).color, zero = [...document.querySelectorAll('.number')].filter(one => one.textContent[0] === '0' && !one.textContent.startsWith('0.'));
return zero.length > 0 && zero.every(one => [one, ...one.querySelectorAll('.differs')].every(part => getComputedStyle(part).color === grey));"""
        ),
    )
    count.holds(
        "what settled for good means is said in the table of hauls",
        "settled for goodproved to be at rest forever" in texts(driver, ".hauls th"),
        texts(driver, ".hauls th"),
    )
    opened(driver, path, "#view=table")
    count.equal("an address without & chooses", len(texts(driver, "#list table")), 1)
    count.holds("and names no object", "No object" not in text(driver, "#shown"))


def try_keys(driver: Driver, path: Path) -> None:
    """Checks that arrow keys move between the objects, and that a clicked soup plays unless reduced
    motion is preferred.
    """
    opened(driver, path, "#xs4_33")
    wait_for_object(driver, "xs4_33")
    press(driver, RIGHT)
    wait_for_object(driver, "xp2_7")
    count.equal("the right arrow", text(driver, "#object header code"), "xp2_7")
    press(driver, LEFT)
    wait_for_object(driver, "xs4_33")
    count.equal("the left arrow", text(driver, "#object header code"), "xs4_33")
    press(driver, LEFT)
    count.equal("nothing is before the first", text(driver, "#object header code"), "xs4_33")
    click(driver, "a.soup")
    wait_for(lambda: text(driver, ".player output") != "")
    time.sleep(0.3)
    count.holds(
        "who wants no motion sees none",
        text(driver, ".player output").startswith("generation 0 of"),
        text(driver, ".player output"),
    )
    driver.execute_script("document.querySelector('.player canvas').focus()")
    press(driver, RIGHT)
    count.equal("in the player, arrows move the view", text(driver, "#object h2"), "block")
    look_like(driver, 1400, still=False)
    opened(driver, path, "#xs4_33")
    wait_for_object(driver, "xs4_33")
    click(driver, "a.soup")
    count.holds(
        "a soup plays at once",
        wait_for(lambda: int((text(driver, ".player output") or "generation 0").split()[1]) > 5, 5),
        text(driver, ".player output"),
    )
    go_to(driver, "#xs6_696&soup=A1")
    wait_for_object(driver, "xs6_696")
    look_like(driver, 1400)


def try_paper(driver: Driver, two: Path) -> None:
    opened(driver, two)
    driver.execute_script("document.querySelector('#charts').open = false")
    look_like(driver, 720, medium="print")
    driver.execute_script("dispatchEvent(new Event('beforeprint'))")
    for what in (".plot", ".frequencies", "#shown", ".card .per"):
        count.holds(
            f"on paper there is {what}", driver.find_element("css selector", what).is_displayed()
        )
    count.holds("and what bars are", "Bars: per million soups." in text(driver, "#shown"))
    count.equal(
        "and all columns of two hauls",
        driver.execute_script(
            "return [...document.querySelectorAll('.hauls th')].filter(one => one.getBoundingClientRect().right > innerWidth + 1).map(one => one.textContent)"
        ),
        [],
    )
    driver.execute_script("dispatchEvent(new Event('afterprint'))")
    count.holds(
        "afterwards, the charts are as they were",
        driver.find_element("id", "charts").get_property("open") is False,
    )
    look_like(driver, 1400)


def try_forced_colors(driver: Driver, two: Path) -> None:
    driver.execute_cdp_cmd(
        "Emulation.setEmulatedMedia",
        {"features": [{"name": "forced-colors", "value": "active"}]},
    )
    opened(driver, two, "#&axis=linear")
    colors = """
const body = getComputedStyle(document.body).backgroundColor;
return [...document.querySelectorAll('.bar, .letter')].filter(one => getComputedStyle(one).backgroundColor === body || getComputedStyle(one).backgroundColor === 'rgba(0, 0, 0, 0)').length;"""
    count.equal("forced colours keep bars and letters", driver.execute_script(colors), 0)
    count.holds(
        "which differ between the hauls",
        driver.execute_script(
            "return getComputedStyle(document.querySelector('.bar[data-haul=A]')).backgroundColor !== getComputedStyle(document.querySelector('.bar[data-haul=B]')).backgroundColor"
        ),
    )
    look_like(driver, 1400)


def try_without_scripts(driver: Driver, two: Path, folder: Path) -> None:
    """Checks, without scripts, that the table has the first thousand objects, and that two hauls
    fit into the window.
    """
    codes = [f"xp{period}_{period:x}" for period in range(2, 1302)]
    many = page_of(folder / "many.html", haul_of(codes, 6000), more=("--play=0",))
    driver.execute_cdp_cmd("Emulation.setScriptExecutionDisabled", {"value": True})
    opened(driver, many)
    count.equal(
        "rows without scripts", len(driver.find_elements("css selector", ".all tbody tr")), 1000
    )
    count.holds(
        "it says where the rest is",
        "first 1,000" in driver.find_element("css selector", "main").text
        and "haul table" in driver.find_element("css selector", "main").text,
    )
    for width in HARD_WIDTHS:
        look_like(driver, width)
        opened(driver, two)
        box = driver.find_element("css selector", ".scroll:has(.all)")
        count.holds(
            f"the table of two hauls fits at {width}",
            int(box.get_property("scrollWidth")) <= int(box.get_property("clientWidth")),
            (box.get_property("scrollWidth"), box.get_property("clientWidth")),
        )
    driver.execute_cdp_cmd("Emulation.setScriptExecutionDisabled", {"value": False})


def try_long_scrolling(driver: Driver, folder: Path) -> None:
    """Checks that cards that are far from the screen are removed, on a telephone."""
    look_like(driver, 390)
    opened(driver, folder / "many.html", "#&parts=0")
    nodes = "return document.querySelectorAll('*').length"
    for _ in range(100):
        driver.execute_async_script("scrollBy(0, 500); requestAnimationFrame(arguments[0])")
    count.holds(
        "few cards are left after scrolling",
        wait_for(lambda: len(texts(driver, ".card")) < 80, 3),
        (len(texts(driver, ".card")), driver.execute_script(nodes)),
    )
