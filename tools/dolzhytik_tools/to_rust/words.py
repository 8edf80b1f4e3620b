"""The words of clauses that have definitions, and links to these."""
from __future__ import annotations

from dataclasses import dataclass

from ..definitions.imports import Import, parsed
from ..definitions.library import PAGES, library
from ..definitions.pages import links, prose
from ..rattle.lexer import is_word
from .glosses import IN_WORDS, head
from .source import Source
from .tables import LIBRARIES

HOW_TO_READ = f'[How to read clauses]({PAGES}).'


@dataclass(frozen=True)
class Scope:
    """A `ghost use`, and the tokens of the block that it serves."""

    first: int
    end: int
    use: Import


def find_scopes(source: Source) -> None:
    """Finds the `ghost use`s of a source."""
    for place, token in enumerate(source.tokens):
        first = source.after(place, 'ghost', 'use') if token == 'ghost' else None
        if first is None:
            continue
        end = first
        while source.tokens[end] != ';':
            end += 1
        header = source.header_around(place)
        block = (0, len(source.tokens)) if header is None else (header.end, source.closing(header.end))
        use = parsed(source.text(first, end), f'{source.path}:{source.line(place)}')
        source.scopes.append(Scope(*block, use))


def imports_at(source: Source, place: int) -> list[Import]:
    """Returns the imports that serve a token. A name that blocks around it import again means what
    the innermost of them imports."""
    around = [it for it in source.scopes if it.first <= place < it.end]
    seen: dict[str, Scope] = {}
    for it in sorted(around, key=lambda it: it.end - it.first):
        for name in it.use.names or [it.use.alias]:
            seen.setdefault(name, it)
    return [
        Import(it.use.module, {name: of for name, of in it.use.names.items() if is_same_block(seen[name], it)}, it.use.alias)
        for it in around
    ]


def is_same_block(scope: Scope, other: Scope) -> bool:
    """Returns whether two imports serve the same block."""
    return (scope.first, scope.end) == (other.first, other.end)


def parameters(source: Source, first: int, end: int) -> set[str]:
    """Returns the words before a colon between these tokens: the parameters of a function."""
    return {
        source.tokens[at]
        for at in source.solid_places(first, end)
        if is_word(source.tokens[at]) and source.after(at + 1, ':') is not None and source.after(at + 1, ':', ':') is None
    }


def members(source: Source, place: int) -> set[str]:
    """Returns the names of the ghost members of the trait around a token."""
    header = source.header_around(place)
    if header is None or 'trait' not in source.solid(header.begin, header.end):
        return set()
    block = range(header.end, source.closing(header.end))
    return {source.tokens[source.skip(at + 1)] for at in block if source.tokens[at] == 'ghost'}


def cite(source: Source, note: int, heading: str, text: str, place: int, bound: set[str]) -> None:
    """Links the words of a clause or member at `place`, whose documentation is before `note`. Words
    that the clause, the trait around it, or the function's parameters bind have no definition."""
    if source.crate.name not in LIBRARIES:
        return
    where = f'{source.path}:{source.line(place)}'
    found = library().cited(text, imports_at(source, place), bound | members(source, place), where)
    source.cited.setdefault(note, {}).setdefault(heading, {}).update(found)


def sentence(source: Source, clause: str, place: int) -> str:
    """Returns the sentence of the definition at the head of what a clause says, or an empty line.
    Facts have names with capitals; other definitions are formats."""
    if source.crate.name not in LIBRARIES:
        return ''
    first = head(clause)
    if not is_word(first.replace('.', '')) or not first[0].isupper():
        return ''
    found = library().meant(first, imports_at(source, place), f'{source.path}:{source.line(place)}')
    if found and found[1].definition.name in IN_WORDS:
        return IN_WORDS[found[1].definition.name]
    return prose(found[1].definition.sentence, {}) if found and not found[1].is_constructor else ''


def line_of_links(paths: dict[str, str]) -> str:
    """Returns the line below clauses that links their words."""
    return f'Definitions: {links(paths)}. {HOW_TO_READ}' if paths else HOW_TO_READ
