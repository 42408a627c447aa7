"""Notations of rules: `b3s23` as in `--rule`, B3/S23 as in RLE, and names such as HighLife."""

from __future__ import annotations

import re

LIFE = "b3s23"
# `B36/S23`, `b36s23`, and the older form `23/36`, in which survival comes first.
BIRTHS_FIRST = re.compile(r"[bB](?P<births>[0-8]*)/?[sS](?P<survivals>[0-8]*)")
SURVIVALS_FIRST = re.compile(r"(?P<survivals>[0-8]*)/(?P<births>[0-8]*)")


def parse_rule(rule: str) -> str | None:
    """Reads a rule in any notation of this module. Returns the rule as a value of `--rule`, or
    `None` if the text isn't a known rule."""
    found = BIRTHS_FIRST.fullmatch(rule) or SURVIVALS_FIRST.fullmatch(rule)
    if found is None:
        return find_named_rule(rule)
    births, survivals = ("".join(sorted(set(found[name]))) for name in ("births", "survivals"))
    return f"b{births}s{survivals}"


def format_rule(option: str) -> str:
    """Returns a value of `--rule` in the usual notation: B3/S23."""
    births, survivals = option[1:].split("s")
    return f"B{births}/S{survivals}"


# The rules, by the letters and digits of their names, in lower case.
RULES = {
    "2x2": "b36s125",
    "34life": "b34s34",
    "amoeba": "b357s1358",
    "anneal": "b4678s35678",
    "assimilation": "b345s4567",
    "coagulations": "b378s235678",
    "conwayslife": "b3s23",
    "coral": "b3s45678",
    "dayandnight": "b3678s34678",
    "daynight": "b3678s34678",
    "diamoeba": "b35678s5678",
    "drylife": "b37s23",
    "eightlife": "b3s238",
    "flock": "b3s12",
    "fredkin": "b1357s02468",
    "gnarl": "b1s1",
    "highlife": "b36s23",
    "honeylife": "b38s238",
    "life": "b3s23",
    "lifewithoutdeath": "b3s012345678",
    "livefreeordie": "b2s0",
    "longlife": "b345s5",
    "maze": "b3s12345",
    "mazectric": "b3s1234",
    "morley": "b368s245",
    "move": "b368s245",
    "pedestrianlife": "b38s23",
    "pseudolife": "b357s238",
    "replicator": "b1357s1357",
    "seeds": "b2s",
    "serviettes": "b234s",
    "stains": "b3678s235678",
    "vote": "b5678s45678",
    "walledcities": "b45678s2345",
}
OTHER = re.compile("[^a-z0-9]")


def find_named_rule(name: str) -> str | None:
    """Returns the rule with a name such as `Day & Night`, as a value of `--rule`, or `None` if the
    name isn't known."""
    return RULES.get(OTHER.sub("", name.lower()))
