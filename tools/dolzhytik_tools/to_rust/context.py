"""Facts about all sources that one depends on: the traits, and the libraries that each crate
names."""
from __future__ import annotations

import functools
import pathlib
import re
from collections.abc import Iterator
from dataclasses import dataclass

from ..repository import TOP, text_of
from .crates import Crate, crates
from .tables import BY_HAND


@dataclass(frozen=True)
class SourceFile:
    """A source: its crate, its path below src/, and its text."""

    crate: Crate
    relative: pathlib.Path
    text: str


def sources(top: pathlib.Path = TOP) -> Iterator[SourceFile]:
    """Yields all sources that become Rust."""
    for crate in crates():
        folder = top / crate.sources
        for path in sorted(folder.rglob('*.rt*')):
            if f'{crate.name}/{path.relative_to(folder)}' not in BY_HAND:
                yield SourceFile(crate, path.relative_to(folder), text_of(path))


@functools.lru_cache(maxsize=None)
def traits() -> frozenset[str]:
    """Returns the names of all traits: a `use` of one may be used without its name."""
    names = {'Read', 'Write'}
    for it in sources():
        names.update(re.findall(r'\btrait (\w+)', it.text))
    return frozenset(names)


@functools.lru_cache(maxsize=None)
def uses() -> dict[str, list[str]]:
    """Returns the libraries that each crate names."""
    texts = [(TOP / path).read_text() for path in ['crates.txt', 'tests/uses.txt']]
    lines = [line.partition('#')[0] for text in texts for line in text.split('\n')]
    rows = [line.partition(':') for line in lines if ':' in line]
    return {name.split()[0]: libraries.split() for name, _, libraries in rows}
