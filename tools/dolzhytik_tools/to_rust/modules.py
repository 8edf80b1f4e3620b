"""Declarations of modules, single replacements, and items that need a feature."""
from __future__ import annotations

from ..errors import Stop
from ..rattle.lexer import solid_words
from .source import Source
from .tables import BELOW_ROOT, BORDERS, FEATURES, ITEMS, LAST_ARMS, PLACES, TESTS

# The arm that a `match` on an enum of another package needs. The proved source has all cases.
WILDCARD = '_ => unreachable!("the library has no other case"),'

# Before the declaration of a generated module: rustfmt skips the module.
SKIP = '#[rustfmt::skip]\n'


def the_place(source: Source, text: str) -> int:
    """Returns the index of the first of these tokens, which are in the file exactly once."""
    wanted = solid_words(text)
    found = [at for at in source.solid_places() if source.after(at, *wanted) is not None]
    if len(found) != 1:
        raise Stop(f'{source.path}:1: {text} is there {len(found)} times')
    return found[0]


def turn_places(source: Source) -> None:
    """Makes the replacements of `PLACES`."""
    for it in PLACES:
        if source.path.partition('/')[2] == it.path:
            place = the_place(source, f'{it.old} {it.behind}')
            source.edit(place, source.after(place, *solid_words(it.old)), it.new, 'place')


def add_arms(source: Source) -> None:
    """Adds a wildcard behind the arms of `LAST_ARMS`."""
    for path, last in LAST_ARMS:
        if source.path.partition('/')[2] == path:
            place = the_place(source, last)
            end = source.after(place, *solid_words(last))
            source.edit(end, end, source.tokens[place - 1] + WILDCARD, 'arm')


def need_features(source: Source) -> None:
    """Has the items of `FEATURES` need a feature."""
    for it in FEATURES:
        if source.path.partition('/')[2] == it.path:
            place = the_place(source, it.item)
            source.edit(place, place, f'#[cfg(feature = "{it.feature}")]\n', 'feature')


def share_modules(source: Source) -> None:
    """Opens the private modules of libraries to the root of the package."""
    if source.crate.name not in BELOW_ROOT or not source.path.endswith('/src/lib.rt'):
        return
    for place in source.solid_places():
        if source.tokens[place] == 'mod' and source.tokens[source.back(place)] != 'pub':
            source.edit(place, place + 1, 'pub(crate) mod', 'module')


def turn_border(source: Source) -> None:
    """Opens the modules of functions that C calls to the border, which calls them."""
    if source.crate.name not in BORDERS:
        return
    for place, token in enumerate(source.tokens):
        if token == 'mod' and source.path.endswith(('/src/lib.rt', '/src/lib.rtt')):
            source.edit(place, place + 1, 'pub(crate) mod', 'border')
        elif token == 'extern' and not source.taken[place]:
            end = source.after(place, 'extern', '"C"')
            if end is None:
                source.stop(place, 'an unknown border')
            source.edit(place, source.skip(end), '', 'border')


def skip_layout(source: Source) -> None:
    """Has rustfmt skip each module of a test program. No stable attribute skips the root, which is
    generated too, so it may only declare modules."""
    if source.crate.name not in TESTS or not source.path.endswith('/src/lib.rtt'):
        return
    for place in source.solid_places():
        if source.tokens[place] == 'mod':
            source.edit(place, place, SKIP, 'layout')
        elif source.tokens[place] in ITEMS:
            source.stop(place, f'an item in the root of a test program: {source.tokens[place]}')
