"""The syntax of words that several formats share: numbers, rules, seeds and codes."""

from __future__ import annotations

import re

DECIMAL = re.compile(rb"0|[1-9][0-9]*")
RULE = re.compile(rb"b1?2?3?4?5?6?7?8?s0?1?2?3?4?5?6?7?8?")
SEED = re.compile(rb"seed=[!-~]{0,64}")
CODE = re.compile(rb"[a-z0-9_]{1,400}")
