"""Checks pages by rules like those of the tool axe: names and roles of controls, the order of the
focus, contrasts, and the sizes of targets, at three widths and at 200 %. Also does everything with
the keyboard that a mouse can do.
"""

from __future__ import annotations

from pathlib import Path
from typing import Any

from checks.haul.browser import (
    SHARED,
    Driver,
    address,
    all_of,
    focused,
    look_like,
    opened,
    press,
    text,
    texts,
    wait_for,
)
from checks.haul.made_pages import PULSAR, count
from checks.haul.page_looks import BACKSPACE, ENTER, ESCAPE, SPACE, TAB

# At 200 %, a window of 1,400 points is 700 points wide.
WIDTHS = (390, 700, 800, 1400)
SHIFT_TAB, LEFT, RIGHT, UP, DOWN = "\ue008\ue004", "\ue012", "\ue014", "\ue013", "\ue015"
# The roles of elements that may have the focus: controls, and regions that scroll or can be moved.
ROLES = {
    "button",
    "link",
    "searchbox",
    "combobox",
    "checkbox",
    "radio",
    "DisclosureTriangle",
    "textbox",
    "region",
    "heading",
    "img",
    "image",
    "dialog",
    "RootWebArea",
    "option",
}
# Finds what the rules of WCAG forbid. Rules that axe also has are called by their names in axe.
FAULTS = (
    SHARED
    + """
// ---- Structure
const ids = [...document.querySelectorAll('[id]')].map(one => one.id);
for (const one of document.querySelectorAll('[id]')) if (ids.filter(id => id === one.id).length > 1) fault('duplicate-id', one);
for (const one of document.querySelectorAll('[aria-controls], [aria-labelledby]'))
  for (const name of ['aria-controls', 'aria-labelledby'])
    if (one.hasAttribute(name) && root.contains(one) && isSeen(one) && !document.getElementById(one.getAttribute(name))) fault('aria-valid-attr-value', one);
let level = root === document.body ? 0 : 1;
for (const one of all('h1, h2, h3, h4').filter(isSeen)) {
  if (Number(one.tagName[1]) > level + 1) fault('heading-order', one);
  level = Number(one.tagName[1]);
}
for (const one of all('[role=list]'))
  for (const child of one.children) if (!['listitem', 'none'].includes(child.getAttribute('role'))) fault('aria-required-children', child);
for (const one of all('[role=listitem]')) if (!one.closest('[role=list]')) fault('aria-required-parent', one);
for (const one of all(':is(a, button) :is(a, button, input, select)')) fault('nested-interactive', one);
for (const one of all('table thead th, table tbody th')) if (!one.hasAttribute('scope')) fault('scope-attr-valid', one);
for (const one of all('[aria-sort]')) if (one.tagName !== 'TH') fault('aria-allowed-attr', one);
for (const one of all('[tabindex]')) if (one.tabIndex > 0) fault('tabindex', one);
if (!document.documentElement.lang) faults.push('html-has-lang');
if (document.querySelectorAll('main').length !== 1 || document.querySelectorAll('h1').length !== 1) faults.push('landmark-one-main');

// ---- The focus moves in the order in which the page is read: never left within a row, and up only
// to the right of the previous control, or into another column.
const CONTROLS = 'a[href], button, input, select, textarea, summary', boxOf = one => (one.closest('label') ?? one).getBoundingClientRect();
const stops = all(`${CONTROLS}, [tabindex="0"]`).filter(one => isSeen(one) && !one.disabled);
const columnOf = one => one.closest('.columns > div, .whole > div, figure, li, .card');
stops.slice(1).forEach((one, at) => {
  const before = boxOf(stops[at]), now = boxOf(one);
  const shared = Math.min(before.bottom, now.bottom) - Math.max(before.top, now.top), isInRow = shared > Math.min(before.height, now.height) / 2;
  if (now.bottom <= before.top + 1 && now.left < before.right - 1 && columnOf(one) === columnOf(stops[at])) fault('focus-order-semantics, up', one);
  // What is scrolled below the head of a dialog is in no row with it.
  if (isInRow && now.right <= before.left + 1 && one.closest('header') === stops[at].closest('header')) fault('focus-order-semantics, left', one);
});

// ---- Targets are at least 24 points high and wide. Around the middle of a smaller one, a circle
// 24 points wide may touch neither a target of that size nor such a circle around another smaller
// one. A link in a sentence doesn't count.
const isInText = one => one.tagName === 'A' && getComputedStyle(one).display === 'inline' && one.closest('p, dd, footer') !== null;
const targets = stops.filter(one => one.matches(CONTROLS) && !isInText(one)).map(one => {
  const { left, right, top, bottom, width, height } = boxOf(one);
  return { one, left, right, top, bottom, x: (left + right) / 2, y: (top + bottom) / 2, isSmall: width < 23.9 || height < 23.9 };
});
const distance = ({ x, y }, { left, right, top, bottom }) => Math.hypot(Math.max(left - x, x - right, 0), Math.max(top - y, y - bottom, 0));
for (const target of targets) {
  const isNear = other => other !== target && (other.isSmall ? Math.hypot(other.x - target.x, other.y - target.y) < 24 : distance(target, other) < 12);
  if (target.isSmall && targets.some(isNear)) fault('target-size', target.one);
}
return faults;
"""
)
# Finds borders of controls, bars and marks of the focus that have a contrast of less than 3.
NON_TEXT = (
    SHARED
    + """
const bordered = all('button, select, textarea, input[type=search], .chip, .step').filter(one => isSeen(one) && getComputedStyle(one).borderTopWidth !== '0px');
for (const one of bordered.filter(one => !one.matches(':disabled, :has(:disabled)')))
  if (contrast(over(numbers(getComputedStyle(one).borderTopColor), behind(one.parentElement)), behind(one.parentElement)) < 3) fault('border', one);
for (const one of all('.bar, .dot, .letter').filter(isSeen)) {
  const drawn = getComputedStyle(one), dot = getComputedStyle(one, '::after'), color = numbers(drawn.backgroundColor)[3] ? drawn.backgroundColor : dot.backgroundColor;
  if (contrast(over(numbers(color), behind(one.parentElement)), behind(one.parentElement)) < 3) fault('bar', one);
}
const before = document.activeElement;
for (const one of all('a[href], button, input, select, summary, canvas').filter(isSeen).slice(0, 60)) {
  if (one.disabled) continue;
  one.focus({ preventScroll: true });
  const shown = [one, one.closest('label')].map(some => some && getComputedStyle(some)).find(some => some && some.outlineStyle !== 'none');
  const ground = behind(one.parentElement);
  if (!shown || parseFloat(shown.outlineWidth) < 1 || contrast(over(numbers(shown.outlineColor), ground), ground) < 3) fault('focus', one);
}
before.focus({ preventScroll: true });
return faults;
"""
)


def try_access(driver: Driver, one: Path, two: Path) -> None:
    for page, sample in ((one, "xs4_33"), (two, "xs4_33")):
        for where in ("", "#&view=table", f"#{PULSAR}", f"#{sample}&soup=A1"):
            opened(driver, page, where)
            driver.execute_script(
                "document.querySelectorAll('details').forEach(one => { one.open = true })"
            )
            named = f"{page.name}{where}"
            count.equal(f"controls have names and roles: {named}", list_unfit(driver), [])
            for width in WIDTHS:
                look_like(driver, width)
                faults = driver.execute_script(FAULTS)
                count.equal(f"no rule is broken: {named} at {width}", sorted(set(faults)), [])
            for dark in (False, True):
                look_like(driver, 1400, dark)
                # The focus has a visible mark only if a key has moved it.
                press(driver, TAB)
                faults = driver.execute_script(NON_TEXT)
                mode = "dark" if dark else "light"
                count.equal(f"what isn't text is seen: {named}, {mode}", sorted(set(faults)), [])
            look_like(driver, 1400)


def list_unfit(driver: Driver) -> list[str]:
    """Returns the elements that can have the focus but have no name, or a role that isn't in
    `ROLES`.
    """
    nodes: list[dict[str, Any]] = driver.execute_cdp_cmd("Accessibility.getFullAXTree", {})["nodes"]
    return [
        f"{node['role']['value']} {node.get('name', {}).get('value', '')}"
        for node in nodes
        if not node["ignored"]
        and any(one["name"] == "focusable" and one["value"]["value"] for one in node["properties"])
        and (
            node["role"]["value"] not in ROLES or not node.get("name", {}).get("value", "").strip()
        )
    ]


# ---- The keyboard


def try_walk(driver: Driver, path: Path) -> None:
    """Does everything with the keyboard that a mouse can do, from the start of the page."""
    opened(driver, path)
    press(driver, TAB, ENTER)
    count.equal("a first link skips to the objects", focused(driver), "Objects")
    press(driver, TAB, "g", "l", "i", "d", "e", "r")
    count.equal("the search takes letters", all_of(driver)[:1], ["xq4_153"])
    press(driver, *[BACKSPACE] * 6)
    go_to(driver, "most frequent")
    press(driver, DOWN)
    count.holds("arrows choose the order", "sort=rarity" in address(driver), address(driver))
    press(driver, UP)
    go_to(driver, "Oscillators")
    press(driver, SPACE)
    count.holds(
        "a key presses a chip",
        all(code.startswith("xp") for code in all_of(driver)) and address(driver) == "#&kind=p",
        address(driver),
    )
    count.holds("and the chip keeps the focus", focused(driver).startswith("Oscillators"))
    go_to(driver, "parts")
    press(driver, SPACE)
    count.equal("a key no longer counts parts", address(driver), "#&kind=p&parts=0")
    go_to(driver, "strict", SHIFT_TAB)
    press(driver, SPACE)
    count.equal("another one leaves strict objects", address(driver), "#&kind=p&strict=1&parts=0")
    press(driver, SPACE)
    go_to(driver, "parts")
    press(driver, SPACE)
    try_walk_in_charts(driver)
    go_to(driver, "view", SHIFT_TAB)
    press(driver, RIGHT)
    count.equal("arrows choose the view", address(driver), "#&kind=p&view=table")
    go_to(driver, "Cells")
    press(driver, ENTER)
    count.equal("a head sorts the table", address(driver), "#&kind=p&sort=cells&view=table")
    go_to(driver, "blinker")
    press(driver, ENTER)
    count.holds("a key opens a row", wait_for(lambda: text(driver, "#object-name") == "blinker"))
    try_walk_in_dialog(driver)
    press(driver, ESCAPE)
    count.holds(
        "a key closes it, and the focus is where it was",
        wait_for(lambda: focused(driver).startswith("blinker"))
        and address(driver) == "#&kind=p&sort=cells&view=table",
        (focused(driver), address(driver)),
    )


def go_to(driver: Driver, what: str, key: str = TAB) -> None:
    """Presses a key until an element whose text or name begins with `what` has the focus."""
    for _ in range(40):
        press(driver, key)
        if focused(driver).startswith(what):
            return
    count.check(f"the focus comes to {what}", f"it doesn't, but is at {focused(driver)}")


def try_walk_in_charts(driver: Driver) -> None:
    go_to(driver, "Charts")
    shown = "return document.querySelector('#charts').open"
    for wanted in (False, True):
        press(driver, ENTER)
        count.equal("a key opens and closes the charts", driver.execute_script(shown), wanted)
    go_to(driver, "axis")
    press(driver, RIGHT)
    count.equal("arrows choose the axis", address(driver), "#&kind=p&axis=linear")
    press(driver, LEFT)


def try_walk_in_dialog(driver: Driver) -> None:
    go_to(driver, "Next phase")
    press(driver, ENTER)
    count.equal("a key shows the next phase", text(driver, ".phase"), "phase 1 (0 to 1)")
    go_to(driver, "Play", SHIFT_TAB)
    press(driver, SPACE)
    count.equal("another one plays all", focused(driver), "Pause")
    press(driver, SPACE, RIGHT)
    count.holds("an arrow goes on", wait_for(lambda: text(driver, "#object-name") != "blinker"))
    press(driver, LEFT)
    count.holds("or back", wait_for(lambda: text(driver, "#object-name") == "blinker"))
    go_to(driver, "RLE")
    press(driver, ENTER)
    opens = "return document.querySelector('.rle').open"
    count.equal("a key shows the RLE", driver.execute_script(opens), True)
    go_to(driver, "Play soup")
    press(driver, ENTER)
    count.holds("a soup opens", wait_for(lambda: text(driver, "#player h3").startswith("Soup ")))
    go_to(driver, "Step")
    press(driver, ENTER)
    said = ".player output"
    count.holds("a step", wait_for(lambda: text(driver, said).startswith("generation 1 ")))
    go_to(driver, "To the end")
    press(driver, ENTER)
    count.holds("to the end", wait_for(lambda: "census says" in text(driver, said), 60))
    go_to(driver, "Copy the command")
    press(driver, ENTER)
    count.holds(
        "the command is copied, or selected",
        wait_for(lambda: "command" in text(driver, "[data-act=command] + .copied")),
        texts(driver, ".copied"),
    )
