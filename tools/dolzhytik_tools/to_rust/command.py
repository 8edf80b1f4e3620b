"""Writes or compares the generated files below rust/."""
from __future__ import annotations

import functools
import pathlib
import sys
from collections.abc import Iterator, Sequence

from .. import generated_files, widths
from ..definitions import front
from ..definitions.library import library
from ..definitions.pages import pages
from ..errors import Stop
from ..repository import TOP, text_of
from .asks import asks, list_of
from .beside import check_used
from .context import sources
from .glosses import check_rows, names_table, parts
from .tables import LIBRARIES
from .written import written


def generated(top: pathlib.Path = TOP) -> dict[str, str]:
    """Returns the text of each generated file, by its path below rust/."""
    files, rows = {}, []
    terms: set[str] = set()
    imports = {it.path: it.imports for it in library().files.values()}
    for it in sources(top):
        file = written(it)
        files[it.crate.target(it.relative)] = file.text
        if it.crate.name in LIBRARIES:
            rows += asks(it.crate, file.source)
            terms |= {parts(proved)[1] for notes in file.source.notes.values() for proved in notes.get('Proved', [])}
            imports[file.path] = [scope.use for scope in file.source.scopes]
    files['src/asks.md'] = list_of(rows)
    check_widths(files)
    check_rows(terms)
    check_used()
    front.check(imports, front.page())
    return {**files, **pages(library(), names_table())}


@functools.lru_cache(maxsize=None)
def table_of_widths() -> widths.Table:
    """Returns the table of arithmetic and casts."""
    return widths.table(TOP / 'tools/widths.tsv')


def check_widths(files: dict[str, str]) -> None:
    """Stops at arithmetic or a cast of a library that the table lacks, and at a row that no file
    has."""
    libraries = {path[4:]: text for path, text in files.items() if path.startswith('src/') and path.endswith('.rs')}
    found = {widths.Row(path, *row): None for path, text in libraries.items() for row in widths.Expressions(text).rows()}
    known = table_of_widths()
    for row in [*found, *known]:
        if row not in known:
            raise Stop(f'tools/widths.tsv lacks rust/src/{row.file}, {row.function}: {row.expression}')
        if row not in found:
            raise Stop(f'tools/widths.tsv has a row that no file has: {row.file}, {row.function}: {row.expression}')


def stale(files: dict[str, str], top: pathlib.Path = TOP) -> Iterator[str]:
    """Yields the paths below rust/ of files that the tool wrote, and would not write today."""
    rust = top / 'rust'
    for path in sorted(rust.rglob('*.rs')):
        relative = path.relative_to(rust)
        if 'target' in relative.parts or 'out' in relative.parts or str(relative) in files:
            continue
        if text_of(path).startswith('// Written by tools/to-rust'):
            yield str(relative)


def write(top: pathlib.Path = TOP) -> None:
    """Writes the files that differ, and removes those that are left over."""
    files = generated(top)
    for path in stale(files, top):
        (top / 'rust' / path).unlink()
    generated_files.write(files, top / 'rust')
    print(f'to-rust: {len(files)} files')


def check(top: pathlib.Path = TOP) -> int:
    """Reports the files that differ, and returns the exit status."""
    files = generated(top)
    wrong = [*stale(files, top), *generated_files.differing(files, top / 'rust')]
    for path in wrong:
        print(f'to-rust: rust/{path} is not what is written')
    return 1 if wrong else 0


def main(words: Sequence[str], usage: str) -> int:
    """Runs the command. `usage` is the head of its script."""
    if list(words) not in ([], ['--check']):
        print(usage.split('\n\n')[1], file=sys.stderr)
        return 2
    try:
        if words:
            return check()
        write()
    except Stop as stop:
        print(f'to-rust: {stop}', file=sys.stderr)
        return 2
    return 0
