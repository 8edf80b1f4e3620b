"""The command tools/drop-in."""
from __future__ import annotations

import pathlib
import sys
from collections.abc import Sequence

from .. import generated_files
from ..errors import Stop
from ..instructions.table import TABLE
from ..repository import TOP, text_of
from ..to_rust.beside import parsed
from . import exports, own_types, root_table
from .calls_file import calls_file
from .cases import proved_calls, read
from .enum_file import instruction_file
from .own_bytes import check_writes
from .own_types import own_types_file
from .proved import MODULES, SOURCES, Layer, layer
from .root_file import root_file
from .root_table import calls_of
from .test_file import test_file

SINK = "rust/src/insn/sink.rs"


def by_hand(top: pathlib.Path) -> dict[str, str]:
    """Returns the texts of the files of the root that no tool writes."""
    paths = [top / SOURCES / "ending.rs", *sorted((top / SOURCES / "drop_in").glob("*.rs"))]
    files = {path.relative_to(top).as_posix(): text_of(path) for path in paths}
    return {path: text for path, text in files.items() if not text.startswith("// Written by")}


def root_files(top: pathlib.Path) -> dict[str, str]:
    """Returns the text of the files of the root's names, their documentation, and their calls."""
    named = exports.read(text_of(top / exports.TABLE))
    texts = parsed(exports.TEXTS, text_of(top / exports.TEXTS))
    root = frozenset(it.name for it in named)
    rows = root_table.read(text_of(top / root_table.TABLE), root)
    known = {(it.owner.name, it.name) for text in by_hand(top).values() for it in Layer([text]).calls}
    folders = {it: [text_of(path) for path in sorted((top / SOURCES / it).glob("*.rs"))] for it in MODULES}
    own = own_types.read(text_of(top / own_types.TABLE))
    return {
        "rust/src/drop_in/names.rs": exports.names_file(named),
        "rust/src/drop_in/own_types.rs": own_types_file(own, folders, root),
        "rust/src/drop_in/root_calls.rs": root_file(calls_of(rows, layer(top), known), texts, root),
        "rust/src/drop_in/texts.rs": exports.texts_file(named, texts),
    }


def generated(top: pathlib.Path) -> dict[str, str]:
    """Returns the text of each file."""
    cases = read(text_of(top / TABLE))
    proved = proved_calls(cases, text_of(top / SINK))
    return {
        "rust/src/drop_in/instruction.rs": instruction_file(cases),
        "rust/src/drop_in/calls.rs": calls_file(cases, proved),
        "rust/tests/drop_in/cases.rs": test_file(cases),
        **root_files(top),
    }


def main(words: Sequence[str], usage: str, top: pathlib.Path = TOP) -> int:
    """Writes or compares the files. `usage` is the head of the command's script."""
    if list(words) not in ([], ["--check"]):
        print(usage.split("\n\n")[1], file=sys.stderr)
        return 2
    try:
        check_writes(by_hand(top), text_of(top / root_table.TABLE))
        files = generated(top)
    except Stop as stop:
        print("drop-in: %s" % stop, file=sys.stderr)
        return 2
    return generated_files.settle("drop-in", files, top, is_check=bool(words))
