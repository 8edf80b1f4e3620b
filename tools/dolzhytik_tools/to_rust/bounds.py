"""Erases `Drop` bounds, and the runtime that tests take."""
from __future__ import annotations

from .source import Source


def erase_drop_bounds(source: Source) -> None:
    """Erases `Drop` as a bound: every value can be dropped in Rust. A trait whose values are
    returned needs `Sized` instead."""
    for place, token in enumerate(source.tokens):
        if token != 'Drop' or source.taken[place]:
            continue
        before, behind = source.back(place), source.skip(place + 1)
        if source.tokens[before] == '+' and source.tokens[behind] == '{' and declares_trait(source, before):
            source.edit(place, place + 1, 'Sized', 'drop of a trait')
        elif source.tokens[before] == '+':
            source.edit(source.back(before) + 1, place + 1, '', 'drop bound')
        elif source.tokens[before] != ':' or source.tokens[before - 1] == ':':
            continue  # the instruction
        elif source.tokens[behind] == '+':
            source.edit(place, source.skip(behind + 1), '', 'drop bound')
        elif source.tokens[behind] == '{':
            source.edit(place, place + 1, 'Sized', 'drop of a trait')
        elif in_where(source, before):
            source.edit(predicate_start(source, before), source.after(place + 1, ',') or place + 1, '', 'drop bound')
        else:
            source.edit(before, place + 1, '', 'drop bound')


def declares_trait(source: Source, place: int) -> bool:
    """Returns whether this is a bound of a trait on its own values."""
    while source.tokens[place] not in ('trait', 'where', '{', '}', ';', 'fn', 'impl', 'struct', 'enum'):
        place -= 1
    return source.tokens[place] == 'trait'


def in_where(source: Source, colon: int) -> bool:
    """Returns whether the bound of this colon is in a `where`, and not between the angles of an
    item."""
    at = colon
    while source.tokens[at] not in ('where', '(', '{', ';', 'fn', 'impl'):
        at -= 1
    return source.tokens[at] == 'where'


def predicate_start(source: Source, colon: int) -> int:
    """Returns the first token of the predicate with this colon, or of its `where` if it is the only
    one."""
    at = colon
    while source.tokens[at] not in ('where', ','):
        at -= 1
    behind = source.skip(colon + 1)
    while not (source.tokens[behind] == '{' or source.tokens[behind] == ';' or source.tokens[behind] == ','):
        behind += 1
    following = source.skip(behind + 1) if source.tokens[behind] == ',' else behind
    alone = source.tokens[at] == 'where' and source.tokens[following] in ('{', ';', 'requires', 'ensures')
    return at if alone else source.skip(at + 1)


def erase_runtime(source: Source) -> None:
    """Has tests make the runtime of the host, which they take as an argument in Rattle, as `expect`
    does."""
    for place, token in enumerate(source.tokens):
        if source.taken[place]:
            continue
        if token == 'expect' and source.after(place + 1, '(') is not None:
            first = source.skip(source.after(place + 1, '('))
            end = source.after(first, 'rt', ',') or source.after(first, '&', 'rt', ',')
            if end is not None:
                source.edit(first, source.skip(end), '', 'runtime')
        elif token == 'HostRuntime':
            first = source.back(source.back(place))
            brace = source.after(place + 1, ')', '{')
            if source.tokens[first] not in ('rt', '_rt') or brace is None:
                source.stop(place, 'the runtime of the host is known as the only argument of a test')
            source.edit(first, place + 1, '', 'runtime')
            if source.tokens[first] == 'rt':
                source.edit(brace, brace, '\n    let rt = crate::host::HostRuntime;', 'runtime')
