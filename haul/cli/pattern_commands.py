"""Runs the commands about patterns: `soup`, `cells` and `rle`."""

from __future__ import annotations

import argparse
import os
from pathlib import Path

from haul.cli.statuses import DONE
from haul.cli.streams import Refused, Streams, format_place
from haul.cli.values import find_code
from haul.formats.recognition import describe_other_form
from haul.life.apgcodes import read_wechsler
from haul.life.catagolue_soups import BadSample, Sample, read_sample
from haul.life.cells import draw_rows
from haul.names.famous import find_famous
from haul.names.objects import find_code_of_name
from haul.patterns.codes import read_drawing
from haul.patterns.coordinates import (
    BadCoordinates,
    format_rle_of_cells,
    is_coordinates,
    read_coordinates,
)
from haul.patterns.plaintext import BadPlaintext, Rows, is_plaintext, read_plaintext
from haul.patterns.rle import WITHOUT_HISTORY, BadRle, Rle, format_rle, read_rle
from haul.patterns.rules import LIFE, parse_rule


def run_soup(asked: argparse.Namespace, streams: Streams) -> int:
    try:
        samples = [read_sample(name) for name in asked.samples]
    except BadSample as bad:
        raise Refused(str(bad)) from None
    if asked.separate is not None:
        write_files(samples, Path(asked.separate), asked.rle)
    else:
        for sample in samples:
            streams.write_lines(list_lines(sample, asked.rle))
    if not asked.rle:
        for sample in samples:
            if sample.rule_or_life() != LIFE:
                streams.terminal.complain(f"{sample.name}: the rule is --rule {sample.rule}")
    return DONE


def list_lines(sample: Sample, is_rle: bool) -> list[str]:
    """Returns the lines of a soup, as RLE or as plaintext. Only RLE includes the name and the
    rule."""
    if not is_rle:
        return sample.rows()
    return [f"#N {sample.name}", *format_rle(sample.rows(), sample.rule_or_life())]


def write_files(samples: list[Sample], folder: Path, is_rle: bool) -> None:
    """Writes each soup to its own file in a folder, which is created if it doesn't exist. If a file
    exists already, raises `Refused` and leaves that file unchanged."""
    folder.mkdir(exist_ok=True)
    for sample in samples:
        path = folder / f"{sample.text}.{'rle' if is_rle else 'cells'}"
        if os.path.lexists(path):
            raise Refused(f"{path}: the file exists")
        path.write_text("".join(f"{line}\n" for line in list_lines(sample, is_rle)), "ascii")


def find_fault_of_soup(asked: argparse.Namespace) -> str | None:
    if len(asked.samples) > 1 and asked.separate is None and not asked.rle:
        return (
            "several samples need --separate FOLDER or --rle, since census reads several patterns in "
            "plaintext as one"
        )
    return None


def find_named_rows(name: str | None) -> Rows | None:
    """Returns the rows of the famous pattern or the object that has a name or a code. Returns `None`
    if nothing has it, or if there is a file of this name."""
    if name is None or os.path.lexists(name):
        return None
    famous = find_famous(name)
    if famous is not None:
        return famous.rows()
    code = find_code_of_name(name) or find_code(name)
    drawing = None if code is None else read_drawing(code)
    cells = None if drawing is None else read_wechsler(drawing)
    return draw_rows(cells, cells) if cells else None


def run_cells(asked: argparse.Namespace, streams: Streams) -> int:
    named = find_named_rows(asked.file)
    if named is not None:
        streams.write_lines(named)
        return DONE
    text = streams.read_pattern(asked.file)
    try:
        if is_plaintext(text):
            read = Rle(read_plaintext(text), None)
        else:
            read = read_rle(text, asked.plane)
    except (BadPlaintext, BadRle) as bad:
        other = describe_other_form(text, "rle", "plaintext")
        raise Refused(f"{format_place(asked.file)}{bad}{other}") from None
    if read.rule is not None and parse_rule(read.rule) != LIFE:
        streams.terminal.complain(f"rule {read.rule} is --rule {parse_rule(read.rule)}")
    if read.has_history:
        streams.terminal.complain(f"{format_place(asked.file)}{WITHOUT_HISTORY}")
    streams.write_lines(read.rows)
    return DONE


def run_rle(asked: argparse.Namespace, streams: Streams) -> int:
    named = find_named_rows(asked.file)
    if named is not None:
        streams.write_lines([f"#N {asked.file}", *format_rle(named, asked.rule)])
        return DONE
    text = b""
    try:
        with streams.open_pattern(asked.file) as (text, lines):
            if is_coordinates(text):
                rle = format_rle_of_cells(read_coordinates(lines), asked.rule)
            else:
                rle = iter(format_rle(read_plaintext(text), asked.rule))
    except (BadPlaintext, BadCoordinates) as bad:
        other = describe_other_form(text, "plaintext", "coordinates")
        raise Refused(f"{format_place(asked.file)}{bad}{other}") from None
    streams.write_lines(rle)
    return DONE
