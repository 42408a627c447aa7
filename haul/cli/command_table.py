"""The table of commands and their arguments, from which the parser and the help are made.
`checks/repository/options --write` also makes the completions and the options of the manual from
it."""

from __future__ import annotations

from haul.cli.table.hauls import CHECK, INDEX, JOIN
from haul.cli.table.search import SEARCH
from haul.cli.table.soups import CELLS, RLE, SOUP, SOUPS
from haul.cli.table.user_data import KNOWN, NAMES
from haul.cli.table.views import COMPARE, PAGE, RARITY, TABLE
from haul.cli.why_command import WHY

COMMANDS = (
    SEARCH,
    CHECK,
    INDEX,
    JOIN,
    COMPARE,
    TABLE,
    RARITY,
    NAMES,
    KNOWN,
    PAGE,
    SOUP,
    SOUPS,
    WHY,
    CELLS,
    RLE,
)
