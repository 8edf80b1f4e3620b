"""Erases attributes of the prover, and implements the errors that they describe."""
from __future__ import annotations

from ..rattle.lexer import is_word
from .errors import display
from .source import Source
from .tables import BORDERS, CLONED, COPIED, ERASED_ATTRIBUTES, ERASED_DERIVES, EXHAUSTIVE, KEPT_ATTRIBUTES, KEPT_DERIVES, LIBRARIES, ORDERED, SHOWN, SHOWN_BY_HAND


def erase_attributes(source: Source) -> None:
    """Erases attributes of the prover and the formatter, and derived traits of Rattle. Errors get
    an impl of Display."""
    for place, token in enumerate(source.tokens):
        if token != '#' or source.taken[place]:
            continue
        bracket = source.after(place + 1, '!') or place + 1
        if source.after(bracket, '[') is None:
            source.stop(place, 'an attribute was to begin here')
        bracket = source.skip(bracket)
        end = source.closing(bracket)
        name = source.tokens[source.skip(bracket + 1)]
        if name in ERASED_ATTRIBUTES or (name == 'error' and 'Error' in ''.join(source.tokens)):
            source.edit(place, end, '', 'attribute')
        elif name == 'unsafe' and source.crate.name in BORDERS:
            source.edit(place, end, '', 'attribute')
        elif name == 'derive':
            turn_derive(source, place, bracket, end)
        elif name not in KEPT_ATTRIBUTES:
            source.stop(place, f'an unknown attribute: {name}')


def turn_derive(source: Source, place: int, bracket: int, end: int) -> None:
    """Keeps the derived traits of Rust, and adds those that only rustc derives."""
    names = [t for t in source.tokens[bracket + 1:end - 1] if is_word(t)][1:]
    for name in names:
        if name not in ERASED_DERIVES | KEPT_DERIVES:
            source.stop(place, f'an unknown derived trait: {name}')
    derived_for = public_type(source, end)
    erased = set(ERASED_DERIVES)
    if derived_for in CLONED:
        erased.add('Copy')
    if derived_for in SHOWN_BY_HAND:
        erased.add('Debug')
    kept = [name for name in names if name not in erased]
    if derived_for in COPIED:
        kept.insert(1, 'Copy')
    if derived_for in SHOWN:
        kept.append('Debug')
    if derived_for in ORDERED:
        kept += ['PartialOrd', 'Ord']
    if 'Error' in names:
        source.errors.append(display(source, end))
    if kept != names:
        source.edit(place, end, '#[derive(' + ', '.join(kept) + ')]' if kept else '', 'derive')


def public_type(source: Source, place: int) -> str | None:
    """Returns the name of the public struct or enum that begins at a token."""
    name = source.after(source.skip(place), 'pub', 'struct') or source.after(source.skip(place), 'pub', 'enum')
    return None if name is None else source.tokens[source.skip(name)]


def open_enums(source: Source) -> None:
    """Has a `match` on a public enum of a library need a wildcard, unless `EXHAUSTIVE` names it."""
    if source.crate.name not in LIBRARIES:
        return
    for place in source.solid_places():
        name = source.after(place, 'pub', 'enum')
        if name is not None and source.tokens[source.skip(name)] not in EXHAUSTIVE:
            source.edit(place, place, '#[non_exhaustive]\n', 'exhaustive')
