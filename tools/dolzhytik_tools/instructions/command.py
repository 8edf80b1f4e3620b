"""The command tools/instructions."""
from __future__ import annotations

import pathlib
import sys
from collections.abc import Sequence

from .. import generated_files
from ..errors import Stop
from ..repository import TOP, text_of
from .files import generated
from .table import TABLE, read


def main(words: Sequence[str], usage: str, top: pathlib.Path = TOP) -> int:
    """Writes or compares the files. `usage` is the head of the command's script."""
    if list(words) not in ([], ["--check"]):
        print(usage.split("\n\n")[1], file=sys.stderr)
        return 2
    try:
        files = generated(top, read(text_of(top / TABLE)))
    except Stop as stop:
        print(f"instructions: {stop}", file=sys.stderr)
        return 2
    return generated_files.settle("instructions", files, top, is_check=bool(words))
