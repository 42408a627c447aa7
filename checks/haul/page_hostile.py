"""Checks that no text of a haul becomes an element, an attribute or a script of its page. Codes,
symmetries, versions, seeds, rules, names of files and identifiers of samples are what an attacker
might write in their places.
"""

from __future__ import annotations

import re
import subprocess
from pathlib import Path
from typing import Any
from urllib.parse import quote

from checks.haul.browser import (
    Driver,
    all_of,
    complaints,
    is_narrow,
    look_like,
    opened,
    text,
    texts,
    wait_for,
)
from checks.haul.made_pages import HAUL, WIDTHS, count
from checks.lib.program import CENSUS

# What an attack does if it runs, and texts that would run it somewhere in a page.
ATTACK = "document.body.dataset.pwn=1"
TEXTS = [
    one.replace("!", ATTACK)
    for one in (
        "<img/src='x'onerror=!>",
        "<svg/onload=!>",
        "<script>!</script>",
        "</script><script>!</script>",
        "</noscript><img/src=x/onerror=!>",
        "<noscript><p/title='</noscript><img/src=x/onerror=!>'>",
        '"onmouseover=!//',
        "'onmouseover=!//",
        '"autofocus/onfocus=!//',
        "/onclick=!/",
        '"><img/src=x/onerror=!>',
        "'><script>!</script>",
        "</code></a></td><td><img/src=x/onerror=!>",
        "<iframe/srcdoc='<script>parent.!</script>'>",
        "<details/open/ontoggle=!>",
        "<style>*{display:none}</style>",
        "<base/href=//attack.example/>",
        "<meta/http-equiv=refresh/content=0;url=//attack.example>",
        "<form/action=//attack.example><button>",
        "<a/href=javascript:!>",
        "javascript:!",
        "data:text/html,<script>!</script>",
        "<link/rel=stylesheet/href=//attack.example/x>",
        "<object/data=javascript:!>",
        "<embed/src=javascript:!>",
        "<video/src=x/onerror=!>",
        "<math><mi/xlink:href=javascript:!>",
        "&lt;img/src=x/onerror=!&gt;",
        "&#60;img/src=x/onerror=!&#62;",
        "\\u003cimg/src=x/onerror=!\\u003e",
        "%3Cimg/src=x/onerror=!%3E",
        "${!}",
        "`+(!)+`",
        '"}]};!;//',
        "--><img/src=x/onerror=!>",
        "<!--<script>!",
        "]]><img/src=x/onerror=!>",
        "<template><img/src=x/onerror=!></template>",
        "</title><svg/onload=!>",
        "</style><svg/onload=!>",
        "</svg><img/src=x/onerror=!>",
        "../..//attack.example/",
        "?q=1&soup=A1#!",
    )
]
# Beginnings that say that a code is that of an object. The haul that is made of them has them all.
BEGINNINGS = ("", "xs4_33", "xp2_7", "ov_p9")
# The elements and the attributes that a page has. `script` has one place for its data and one for
# its script.
ELEMENTS = set(
    "a b body button canvas code dd details dialog div dl dt em fieldset figcaption figure footer "
    "form h1 h2 h3 head header html i input label legend li main meta nav noscript option output p "
    "path pre script section select small span strong style summary svg table tbody td text th "
    "thead title tr ul".split()
)
ATTRIBUTES = set(
    "aria-controls aria-current aria-expanded aria-hidden aria-label aria-labelledby aria-live "
    "aria-posinset aria-pressed aria-rowcount aria-rowindex aria-setsize aria-sort autocomplete "
    "charset checked class content d data-act data-haul data-name data-phase data-phases data-sort "
    "data-value disabled for height hidden href http-equiv id lang name open placeholder role scope "
    "selected style tabindex text-anchor title transform type value viewBox width x y".split()
)
# A link leads to a place of the page, or to Catagolue or LifeWiki. Only a seed may be any text.
LINK = re.compile(
    r"#([0-9a-z_]*|life=[0-9]+)(&[a-z]+=[0-9A-Za-z,%-]*)*"
    r"|https://catagolue\.hatsya\.com/object/[0-9a-z_]+/[bs0-8]+"
    r"|https://catagolue\.hatsya\.com/hashsoup/C1/[0-9A-Za-z%._~!*'()-]+/[bs0-8]+"
    r"|https://conwaylife\.com/wiki/Special:Search\?search=[0-9A-Za-z_%-]+"
)
# Notes what the policy of a page refuses, and errors of its script.
NOTES = """
window.noted = [];
addEventListener('securitypolicyviolation', event => noted.push(`${event.violatedDirective} ${event.blockedURI}`));
addEventListener('error', event => noted.push(event.message));
"""
# Sends each element the events that would start an attack, and lists what the page consists of.
LOOK = """
const all = [...document.querySelectorAll('*')];
for (const one of all) for (const name of ['mouseover', 'focus', 'load', 'error', 'toggle']) if (one.localName !== 'details') one.dispatchEvent(new Event(name));
const attributes = all.flatMap(one => [...one.attributes]);
return {
  elements: [...new Set(all.map(one => one.localName))],
  attributes: [...new Set(attributes.map(one => one.name))],
  links: [...new Set(all.filter(one => one.hasAttribute('href')).map(one => one.getAttribute('href')))],
  scripts: all.filter(one => one.localName === 'script').length,
  metas: all.filter(one => one.localName === 'meta').length,
  pwn: document.body.dataset.pwn ?? '',
  noted: window.noted ?? [],
};"""
# Goes to addresses, and lists the codes of the dialogs that open.
VISIT = """
const [addresses, done] = arguments, opened = new Set();
const visit = async () => {
  for (const address of addresses) {
    location.hash = `#${address}`;
    await new Promise(next => setTimeout(next, 5));
    for (const one of document.querySelectorAll('dialog[open] header code')) opened.add(one.textContent);
  }
};
visit().then(() => done([...opened]));"""
# Adds a script as an attack would, and an image.
ADD = """
const script = document.createElement('script'), image = new Image();
script.textContent = 'document.body.dataset.pwn = 1';
image.src = 'https://attack.example/';
document.body.append(script, image);"""


def try_hostile(driver: Driver, folder: Path) -> None:
    added = driver.execute_cdp_cmd("Page.addScriptToEvaluateOnNewDocument", {"source": NOTES})
    complaints(driver)
    codes = [beginning + one for beginning in BEGINNINGS for one in TEXTS]
    try_codes(driver, make_page(folder, [write_haul(codes, TEXTS[0])]), codes)
    try_policy(driver)
    try_fields(driver, folder)
    try_seeds(driver, folder)
    try_refused(folder)
    driver.execute_cdp_cmd("Page.removeScriptToEvaluateOnNewDocument", added)


def write_haul(
    codes: list[str], seed: str, version: str = "5", symmetry: str = "C1", rule: str = "b3s23"
) -> bytes:
    """Returns a haul of apgsearch. Each code has a sample of its own, and so has the block."""
    codes = ["xs4_33", *codes]
    lines = [
        f"@VERSION v{version}",
        f"@ROOT {seed}",
        f"@RULE {rule}",
        f"@SYMMETRY {symmetry}",
        "@NUM_SOUPS 1000",
        f"@NUM_OBJECTS {len(codes)}",
        "",
        "@CENSUS TABLE",
        *(f"{code} 1" for code in codes),
        "",
        "@SAMPLE_SOUPIDS",
        *(f"{code} {number}" for number, code in enumerate(codes)),
    ]
    return "".join(f"{line}\n" for line in lines).encode()


def make_page(folder: Path, hauls: list[bytes], name: str = "hostile") -> Path:
    """Makes a page of hauls in files whose names begin with `name`."""
    names = [str(folder / f"{name}{place}") for place in range(len(hauls))]
    for path, haul in zip(names, hauls, strict=True):
        Path(path).write_bytes(haul)
    page = folder / "hostile.html"
    with page.open("wb") as file:
        words = [str(HAUL), "page", f"--census={CENSUS}", "--play=0", *names]
        subprocess.run(words, stdout=file, check=True)
    return page


def look(driver: Driver, what: str) -> None:
    """Checks that everything in a page comes from the page's own files."""
    found: dict[str, Any] = driver.execute_script(LOOK)
    faults = {
        "elements": sorted(set(found["elements"]) - ELEMENTS),
        "attributes": sorted(set(found["attributes"]) - ATTRIBUTES),
        "links": [link for link in found["links"] if not LINK.fullmatch(link)],
        "scripts": found["scripts"] - 2,
        "metas": found["metas"] - 3,
        "attacks": found["pwn"],
        "noted": found["noted"],
    }
    count.equal(f"nothing comes from {what}", {k: v for k, v in faults.items() if v}, {})


def try_codes(driver: Driver, page: Path, codes: list[str]) -> None:
    """Checks that hostile codes are shown and never linked, in both views and in the charts, and
    that no address opens them.
    """
    for address in ("", "#&parts=0&sort=rarity", "#&view=table", "#&axis=linear&view=table"):
        opened(driver, page, address)
        driver.execute_script("document.querySelector('#charts').open = true")
        count.equal(f"each code is shown: {address}", set(all_of(driver)), {"xs4_33", *codes})
        count.equal(
            f"only the block is linked: {address}",
            set(texts(driver, "#list :is(.card > a, .name a) code")),
            {"xs4_33"},
        )
        look(driver, f"codes at {address}")
        for width in WIDTHS:
            look_like(driver, width)
            count.holds(f"they fit into {width} points: {address}", is_narrow(driver))
    opened(driver, page)
    # A browser refuses more than 200 addresses in ten seconds. What follows a `&` isn't part of a code.
    addresses = [*TEXTS, *map(quote, TEXTS), *(quote(f"xp2_7{one}") for one in TEXTS)]
    found = driver.execute_async_script(VISIT, [*addresses, f"xs4_33&{TEXTS[0]}"])
    count.equal("no hostile code is opened", found, ["xs4_33"])
    look(driver, "addresses of codes")
    opened(driver, page, "#xs4_33")
    wait_for(lambda: text(driver, "#object header code") == "xs4_33")
    count.equal("a dialog leads to no code that can't be opened", texts(driver, ".step"), [])
    look(driver, "a dialog beside hostile codes")
    count.equal("nothing is on the console", complaints(driver), [])
    driver.execute_cdp_cmd("Emulation.setScriptExecutionDisabled", {"value": True})
    opened(driver, page)
    shown = {one.text for one in driver.find_elements("css selector", ".all td:nth-child(2) code")}
    count.equal("without scripts, each code is shown", shown, {"xs4_33", *codes})
    look(driver, "codes without scripts")
    driver.execute_cdp_cmd("Emulation.setScriptExecutionDisabled", {"value": False})
    opened(driver, page)


def try_policy(driver: Driver) -> None:
    """Checks that the policy of the page that is open refuses what isn't the page's own script."""
    driver.execute_script(ADD)
    count.holds(
        "a script and an image that are added are refused",
        wait_for(
            lambda: sorted(driver.execute_script("return noted"))
            == ["img-src https://attack.example/", "script-src-elem inline"]
        ),
        driver.execute_script("return noted"),
    )
    pwn = driver.execute_script("return document.body.dataset.pwn ?? ''")
    count.equal("so the script doesn't run", pwn, "")
    complaints(driver)


def try_fields(driver: Driver, folder: Path) -> None:
    """Checks pages of eight hauls with hostile versions, symmetries and seeds, and a code each."""
    for first in (0, 24):
        some = [TEXTS[(first + place) % len(TEXTS)] for place in range(24)]
        fields = list(zip(some[:8], some[8:16], some[16:], strict=True))
        hauls = [write_haul([seed], seed, version, symmetry) for version, symmetry, seed in fields]
        page = make_page(folder, hauls)
        for address in ("", "#&view=table", "#xs4_33"):
            opened(driver, page, address)
            look(driver, f"the fields of eight hauls from {first} at {address}")
        shown = text(driver, "main")
        hidden = [field for field in some if field not in shown]
        count.equal(f"each field is shown: {first}", hidden, [])
    count.equal("and nothing of it is on the console", complaints(driver), [])


def try_seeds(driver: Driver, folder: Path) -> None:
    """Checks the dialogs and the players of soups with hostile seeds, and files with hostile names,
    which aren't on the page.
    """
    seeds = [TEXTS[place] for place in (3, 5, 9, 12, 30, 31, 32, 42)]
    name = TEXTS[0].replace("/", " ")
    page = make_page(folder, [write_haul([], seed) for seed in seeds], name)
    count.holds("the page doesn't say how its files are called", name not in page.read_text())
    for letter, seed in list(zip("ABCDEFGH", seeds, strict=True))[::2]:
        opened(driver, page, f"#xs4_33&soup={letter}0")
        wait_for(lambda: text(driver, "#player h3") == f"Soup 0 of {letter}, B3/S23")
        count.holds(
            f"the command of {letter} has its seed",
            seed.replace("'", "'\"'\"'") in text(driver, "#player .command"),
            text(driver, "#player .command"),
        )
        look(driver, f"the seed of {letter}")
    count.equal("and nothing of them is on the console", complaints(driver), [])


def try_refused(folder: Path) -> None:
    """Checks that hauls with hostile rules and identifiers of samples are refused."""
    for one in (TEXTS[0], TEXTS[6]):
        rule = write_haul([], "x", rule=one)
        sample = write_haul([], "x").replace(b"xs4_33 0", f"xs4_33 {one}".encode())
        for what, haul in (("rule", rule), ("sample", sample)):
            path = folder / "refused"
            path.write_bytes(haul)
            words = [str(HAUL), "page", f"--census={CENSUS}", "--play=0", str(path)]
            ended = subprocess.run(words, capture_output=True, check=False)
            count.equal(f"the {what} {one}", (ended.returncode, ended.stdout), (3, b""))
