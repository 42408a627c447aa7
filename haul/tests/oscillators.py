"""Oscillators with long periods. They are from the collections that come with Golly, in the folder
Patterns/Life/Oscillators. A test checks their periods."""

from __future__ import annotations

from typing import NamedTuple


class Oscillator(NamedTuple):
    """An oscillator: its period, the file of Golly that has it, and its RLE."""

    period: int
    source: str
    rle: str


ACHIMS_P144 = Oscillator(
    144,
    "unique-high-period.rle",
    "2o24b2o$2o24b2o$8b2o$7bo2bo$8b2o2$12b3o$12bobo$12b3o$13b2o$13b3o$13bobo$13b3o2$18b2o$17b"
    "o2bo$18b2o$2o24b2o$2o24b2o!",
)
OSCILLATORS = (
    Oscillator(
        72,
        "unique-high-period.rle",
        "18bo$17bob2o$17bob2o$18b2o2$7b2o12b2o$7b2o12b2o3$6bobo$5bo18b2o$2o2bo4bo10b2obo2bob2o$2o"
        "bo2bob2o10b2o2bo4bo$4b2o19bo$26bobo!",
    ),
    Oscillator(
        75,
        "DRH-oscillators.rle",
        "18bo$18bo$17b3o3$17b3o$18bo$18bo$18bo$18bo$17b3o3$17b3o$18bo$3b4o11bo$2b6o$b8o$2o6b2o$b8"
        "o$2b6o$3b4o2$26bo2bo4bo2bo$21bo2b3o2b6o2b3o$22bo3bo2bo4bo2bo$20b3o!",
    ),
    Oscillator(
        88,
        "unique-high-period.rle",
        "19bo$17b3o$16bo$16b2o$2o19b2o$bo19bo$bobo15bobo$2b2o15b2o2$13b3o$13bobo$13bobo6$6b2o15b2"
        "o$5bobo10bo4bobo$5bo12bo6bo$4b2o19b2o$9b2o$10bo$7b3o$7bo!",
    ),
    Oscillator(
        90,
        "DRH-oscillators.rle",
        "28b2o$28b2o8$28b3o$27bo3bo$26bo5bo$26b2obob2o3$29bo$28bobo$9b2o17bobo$9bobo17bo4b2o$4b2o"
        "6bo21bobo$2obo2bo2bo2bo10bo5b2o6bo7b2o$2o2b2o6bo11bo3bo2bo2bo2bo7b2o$9bobo10b3o4b2o6bo$9"
        "b2o23bobo$34b2o5$16b3o$15bo3bo$14bo5bo$14b2obob2o3$17bo$16bobo$16bobo$17bo2$17b2o$17b2o!",
    ),
    Oscillator(
        92,
        "DRH-oscillators.rle",
        "17b2o31bo$2o15bobo7b2o10b2o8b2o15b2o$2o17bo7b2o10b2o7b2o16b2o$17b3o29b2o2b2o4$17b3o29b2o"
        "2b2o$2o17bo12b3o13b2o16b2o$2o15bobo29b2o15b2o$17b2o31bo!",
    ),
    Oscillator(
        94,
        "honey-farm-hasslers.rle",
        "15bo7b2o$15b3o5b2o7bo$9bo8bo11b3o$9b3o5b2o10bo$12bo16b2o$11b2o6b3o$18bo3bo$17bo5bo$17bo5"
        "bo7b2ob2o$b2o14bo5bo7b2obo2bo$o2bo2b2o10bo3bo11bob2o$b2o2bobo11b3o12bo$3b2o28b2o$3bo26bo"
        "bo2b2o$2obo26b2o2bo2bo$o2bob2o28b2o$2b2ob2o3$25b2o$7b2o16bo$8bo10b2o5b3o$5b3o11bo8bo$5bo"
        "7b2o5b3o$13b2o7bo!",
    ),
    Oscillator(
        100,
        "unique-high-period.rle",
        "2o48b2o$bo48bo$bobo21b2o21bobo$2b2o8bo12b2o12b2o7b2o$11b2o26bobo$10b2o29bo$11b2o2b2o22b3"
        "o4$11b2o2b2o22b3o$10b2o29bo$11b2o26bobo$2b2o8bo12b2o12b2o7b2o$bobo21b2o21bobo$bo48bo$2o4"
        "8b2o!",
    ),
    Oscillator(
        120,
        "DRH-oscillators.rle",
        "15b2o$15b2o9$16bo$15b3o$14b5o$13b2o3b2o$14b5o$14bo3bo$17bo$bo2b2o4b2o4bo$o3b3o2b3o3bo2b3"
        "o$bo2b2o4b2o2bo3bo$19bo11$38bo2b2o4b2o2bo$37bo3b3o2b3o3bo$36bo4b2o4b2o2bo$35bo$34bo3bo$3"
        "4b5o$33b2o3b2o$34b5o$35b3o$36bo9$36b2o$36b2o!",
    ),
    Oscillator(
        138,
        "DRH-oscillators.rle",
        "2b2o14bo$2b2o3b2o8b2o15b2o$7b2o7b2o16b2o$17b2o2b2o3$2b2o$bo2bo12b2o2b2o$bo2bo11b2o16b2o$"
        "2b2o13b2o15b2o$18bo2$10bo$9b2o$9bobo8bo$18bobo$19b2o7$24bo$11bo10b5o$2o8b2o9b2obo2bo$2o7"
        "b2o9bo7bo$10b2o2b2o5b2obo2bo$22b5o$24bo2$10b2o2b2o$2o7b2o16b2o$2o8b2o15b2o3b2o$11bo20b2o"
        "!",
    ),
    ACHIMS_P144,
    Oscillator(
        276,
        "DRH-oscillators.rle",
        "17b2o$2o15bobo$2o17bo$17b3o4$17b3o$2o17bo7b2o$2o15bobo7b2o$17b2o5$46bo21b2o$47b2o9b2o7bo"
        "bo15b2o$46b2o10b2o7bo17b2o$67b3o4$67b3o$67bo17b2o$67bobo15b2o$68b2o!",
    ),
    Oscillator(
        690,
        "DRH-oscillators.rle",
        "10b2o$8b5o$2o5bo4bo14b2o$2o5bo2b3o14b2o$7b2o2bo$9b2o$22bo3bo$9b2o9b2obobob2o$7b2o2bo7bob"
        "2o3b2obo$2o5bo2b3o5bo2bo5bo2bo$2o5bo4bo6bob2o3b2obo$8b5o7b2obobob2o$10b2o10bo3bo2$27b2o$"
        "25bo4bo$24bo6bo$23bo8bo$23bo8bo$23bo8bo$24bo6bo$25bo4bo$27b2o!",
    ),
)
