"""The command tools/kinds."""
from __future__ import annotations

import pathlib
import sys
from collections.abc import Sequence

from .. import generated_files
from ..errors import Stop
from ..instructions.regions import Region, filled
from ..repository import TOP, text_of
from . import definitions, places, sources
from .table import TABLE, Kind, read

TOOL = "tools/kinds"


def regions(kinds: list[Kind]) -> dict[str, list[Region]]:
    """Returns the regions of each file."""
    return {**sources.regions(kinds), **definitions.regions(kinds)}


def generated(top: pathlib.Path, kinds: list[Kind]) -> dict[str, str]:
    """Returns the text of each file."""
    return {path: filled(path, text_of(top / path), found, TOOL) for path, found in regions(kinds).items()}


def main(words: Sequence[str], usage: str, top: pathlib.Path = TOP) -> int:
    """Writes or compares the files, and names the rows by hand that are missing. `usage` is the head of
    the command's script."""
    if list(words) not in ([], ["--check"]):
        print(usage.split("\n\n")[1], file=sys.stderr)
        return 2
    try:
        kinds = read(text_of(top / TABLE))
        files = generated(top, kinds)
        missing = list(places.missing(top, kinds))
    except Stop as stop:
        print(f"kinds: {stop}", file=sys.stderr)
        return 2
    status = generated_files.settle("kinds", files, top, is_check=bool(words))
    for it in missing:
        print(f"kinds: {it}")
    if words:
        failed = len(list(generated_files.differing(files, top))) + len(missing)
        print(f"{len(files) + places.count(kinds) - failed} passed, {failed} failed")
    return 1 if missing else status
