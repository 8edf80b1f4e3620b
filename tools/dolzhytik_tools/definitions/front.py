"""The words of the prover's libraries, which the front page of the definitions explains."""
from __future__ import annotations

import re
from collections.abc import Iterable, Iterator, Mapping

from ..errors import Stop
from ..repository import TOP, text_of
from .imports import Import

PAGE = 'rust/src/definitions.md'
# The libraries whose words it explains. Names of proofs are in no clause.
PROVERS = re.compile(r'Rattle\.(?:std|hex)\.specs\..*')
RULES = {'Rattle.std.specs.Cmp.Rules'}
# A first cell: its names and operators are in backticks.
ROW = re.compile(r'(?m)^\| (`.*?`) \|')


def explained(text: str) -> set[str]:
    """Returns the words and operators in the first cells of the tables of a page."""
    return {word for row in ROW.finditer(text) for word in re.split(r'[\s`,()]+', row[1].replace('\\|', '|'))}


def words(imports: Iterable[Import]) -> Iterator[str]:
    """Yields the words of the prover's libraries that are imported. An operator has one for each of
    its parts."""
    for it in imports:
        if PROVERS.fullmatch(it.module + '.') and it.module not in RULES:
            for name in it.names.values():
                yield from filter(None, name.split('◌'))


def check(imports: Mapping[str, Iterable[Import]], text: str) -> None:
    """Stops at a word of the prover's libraries that the page does not explain. `imports` are those
    of each file."""
    known = explained(text)
    for path, found in imports.items():
        for word in words(found):
            if word not in known:
                raise Stop(f'{PAGE}: no row explains `{word}`, which {path} imports')


def page() -> str:
    """Returns the text of the page."""
    return text_of(TOP / PAGE)
