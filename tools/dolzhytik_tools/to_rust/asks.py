"""The list of public calls that require something that types do not ensure."""
from __future__ import annotations

from dataclasses import dataclass

from ..rattle.lexer import is_word
from .crates import Crate
from .glosses import asked
from .source import Source
from .tables import BETWEEN, PUBLIC, READERS


@dataclass(frozen=True)
class Asked:
    """What a call asks, in words, and the link to the call."""

    words: str
    link: str


def asks(crate: Crate, source: Source) -> list[Asked]:
    """Returns what the calls of a source ask."""
    return [it for place in sorted(source.notes) if 'Asks' in source.notes[place] for it in asked_by(crate, source, place)]


def asked_by(crate: Crate, source: Source, place: int) -> list[Asked]:
    """Returns what the function that begins at `place` asks, or nothing if it is private."""
    function = source.tokens.index('fn', place)
    name = source.tokens[source.skip(function + 1)]
    owner = owner_of(source, function)
    visible = [at for at in range(place, function) if source.tokens[at] == 'pub']
    if not (owner.is_public_trait or (visible and source.tokens[source.skip(visible[0] + 1)] != '(')):
        return []
    if (owner.name or name) in BETWEEN.get(crate.name, ()):
        return []
    module = 'reader' if (owner.name or name) in READERS.get(crate.name, ()) else PUBLIC.get(crate.name, 'fallible')
    path = '::'.join(part for part in (module, owner.name, name) if part)
    shown = path.replace('fallible::', '', 1)
    clauses = [' '.join(clause.split()) for clause in source.notes[place]['Asks']]
    words = dict.fromkeys(asked(clause) or f'`{clause}`' for clause in clauses)
    return [Asked(it, f'[`{shown}`](crate::{path})') for it in words]


def list_of(found: list[Asked]) -> str:
    """Returns the list of what is asked, and of the calls that ask it, in Markdown."""
    calls: dict[str, list[str]] = {}
    for it in found:
        calls.setdefault(it.words, []).append(it.link)
    return ''.join(f'- {words} Asked by {", ".join(links)}.\n' for words, links in calls.items())


@dataclass(frozen=True)
class Owner:
    """The type or trait of a function, and whether it is a public trait, whose functions are
    public."""

    name: str = ''
    is_public_trait: bool = False


def alias_of(source: Source, generic: str, argument: str) -> str:
    """Returns the name that a file gives a generic type with this first argument, or else the only
    name that it gives the type, or else the type's own."""
    found = {}
    words = source.solid(0, len(source.tokens))
    for at, word in enumerate(words):
        if word == 'type' and words[at - 1] == 'pub':
            is_at = words.index('=', words.index('>', at) if words[at + 2] == '<' else at)
            if words[is_at + 1] == generic:
                found[words[is_at + 3]] = words[at + 1]
    only = list(found.values())[0] if len(found) == 1 else generic
    return found.get(argument, only)


def owner_of(source: Source, function: int) -> Owner:
    """Returns the owner of a function, without a name for a free function."""
    header = source.header_around(function)
    if header is None:
        return Owner()
    words = source.solid(header.begin, header.end)
    if 'trait' in words:
        return Owner(words[words.index('trait') + 1], 'pub' in words)
    if 'for' in words:
        return Owner(words[words.index('for') + 1])
    depth = 0
    begin = words.index('impl') + 1
    for at, word in enumerate(words[begin:], begin):
        depth += {'<': 1, '>': -1}.get(word, 0)
        if depth == 0 and is_word(word):
            return Owner(alias_of(source, word, ''.join(words[at + 2:at + 3])))
    return Owner()
