"""Paths in code and in links of documentation: each library is a module of the package."""
from __future__ import annotations

import re

from ..rattle.lexer import is_word
from .source import Source
from .tables import LIBRARIES


def turn_paths(source: Source) -> None:
    """Changes names of crates at the head of paths."""
    for place, token in enumerate(source.tokens):
        if source.taken[place] or not is_word(token):
            continue
        before = source.tokens[source.back(place)] if source.back(place) >= 0 else ''
        if token == 'crate':
            turn_crate(source, place, before)
        elif before in (':', '.'):
            continue
        elif source.after(place + 1, ':', ':') is not None:
            library = source.crate.library(token)
            laws = source.after(place + 1, ':', ':', 'laws') if token in LIBRARIES else None
            if laws:
                source.edit(place, laws, source.crate.laws(token), 'path')
            elif library:
                source.edit(place, place + 1, library, 'path')
            elif token == 'std' and not in_use(source, place):
                source.stop(place, 'a path of std outside of a use')


def in_use(source: Source, place: int) -> bool:
    """Returns whether a token is in a `use`."""
    while place > 0 and source.tokens[place] not in (';', '{', '}', 'use'):
        place -= 1
    return source.tokens[place] == 'use'


def turn_crate(source: Source, place: int, before: str) -> None:
    """Changes a `crate`."""
    here = source.crate.here
    if here == 'crate':
        return
    if before == '(' and source.tokens[source.back(source.back(place))] == 'pub':
        return  # Private items of a library are private in the package, whose root uses them.
    if source.after(place + 1, ':', ':') is not None:
        source.edit(place, place + 1, here, 'path')
    else:
        source.stop(place, 'crate is known at the head of a path and in pub(crate)')


def turn_links(source: Source) -> None:
    """Changes links whose paths begin with the name of a crate."""
    for place, token in enumerate(source.tokens):
        if not source.taken[place] and token.startswith(('///', '//!')):
            turned = re.sub(r'(?<=\()crate(?=::)', source.crate.here, token)
            turned = re.sub(r'\b(wasm_\w+)::laws(?=::)', lambda m: source.crate.laws(m[1]), turned)
            turned = re.sub(r'\b(wasm_\w+)(?=::)', lambda m: source.crate.library(m[1]) or m[1], turned)
            if turned != token:
                source.edit(place, place + 1, turned, 'link')
