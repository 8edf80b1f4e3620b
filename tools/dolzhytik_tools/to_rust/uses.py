"""Imports: paths of std, of the package, and names that only clauses use."""
from __future__ import annotations

from collections.abc import Iterable, Iterator

from ..rattle.lexer import solid_words
from .beside import texts
from .context import traits
from .crates import reading
from .source import Source
from .tables import BETWEEN, CORE_STD, ERASED_STD, HOST_STD, KEPT_STD, LIBRARIES, READERS, READING, TURNED_STD


def turn_uses(source: Source) -> None:
    """Changes `use`s path by path, and drops names that only clauses use."""
    named = names_used(source)
    for place in use_places(source):
        first = source.skip(place + 1)
        end = first
        while source.tokens[end] != ';':
            end += 1
        paths = list(paths_of(source, solid_words(source.text(first, end))))
        turned = [turned_path(source, first, path) for path in paths if is_used(path, named)]
        if turned != paths:
            kept = '\n'.join(grouped(path for path in turned if path))
            source.edit(place, end + 1, kept, 'use')


def use_places(source: Source) -> Iterator[int]:
    """Yields all `use`s but public ones."""
    for place in source.solid_places():
        if source.tokens[place] == 'use':
            before = source.back(place)
            if before < 0 or source.tokens[before] not in ('pub', ')'):
                yield place


def names_used(source: Source) -> set[str]:
    """Returns the names in the tokens that stay, except those of `use`s."""
    names = set()
    skipped = set()
    for place in use_places(source):
        end = place
        while source.tokens[end] != ';':
            end += 1
        skipped.update(range(place, end))
    for place in source.solid_places():
        if place not in skipped:
            names.add(source.tokens[place])
    for it in source.edits:
        names.update(solid_words(it.text))
    return names


def is_used(path: str, named: set[str]) -> bool:
    """Returns whether the name of a path is used. A trait can be used without being named."""
    head, _, alias = path.partition(' as ')
    name = alias or head.split('::')[-1]
    return name in named or (name in traits() and name != 'Allocator')


def paths_of(source: Source, tokens: list[str]) -> Iterator[str]:
    """Yields the paths of a `use`, whose groups may have groups."""
    text = ''.join(' as ' if token == 'as' else token for token in tokens)
    head, brace, group = text.partition('{')
    if not brace:
        yield head
        return
    depth, start = 0, 0
    group = group[:-1].rstrip(',') + ','
    for at, character in enumerate(group):
        depth += {'{': 1, '}': -1}.get(character, 0)
        if character == ',' and depth == 0:
            for path in paths_of(source, [group[start:at]]):
                yield head.rstrip(':') if path == 'self' else head + path
            start = at + 1


def grouped(paths: Iterable[str]) -> Iterator[str]:
    """Yields `use`s of these paths, one for each module."""
    groups = {}
    for path in paths:
        module, _, name = path.rpartition('::')
        groups.setdefault(module, []).append(name)
    for module, names in groups.items():
        yield f'use {module}::{names[0]};' if len(names) == 1 else f'use {module}::{{{", ".join(names)}}};'


def turned_path(source: Source, place: int, path: str) -> str:
    """Returns the path here, or an empty one for a path that is erased."""
    if path in ERASED_STD:
        return ''
    if path in TURNED_STD:
        return source.crate.by_hand(TURNED_STD[path])
    if path in HOST_STD:
        return HOST_STD[path]
    if path in CORE_STD:
        return path.replace('std', 'core', 1)
    head = path.split('::')[0]
    if head in ('std', 'hex', 'thiserror') and path not in KEPT_STD:
        source.stop(place, f'an unknown path: {path}')
    if head == 'crate':
        return source.crate.here + path[len(head):]
    inner = path.split('::')[1:]
    if head in LIBRARIES and inner[0] == 'laws':
        laws = source.crate.laws(head)
        alias = ' as laws' if len(inner) == 1 and not laws.endswith('::laws') else ''
        return '::'.join([laws] + inner[1:]) + alias
    library = source.crate.named(head, inner[0]) if inner else source.crate.library(head)
    return library + path[len(head):] if library else path


def aliases_of(crate: str, path: str) -> list[str]:
    """Returns the words by which search finds the item at a path. Rustdoc takes them from exports,
    and not from definitions."""
    text = texts(crate).get(path.split('::')[-1])
    return text.aliases if text else []


def public(source: Source, paths: list[str]) -> list[str]:
    """Returns the lines of public `use`s of these paths."""
    found = {path: aliases_of(source.crate.name, path) for path in paths}
    lines = [f'pub {line}' for line in grouped(path for path in paths if not found[path])]
    for path, words in found.items():
        if words:
            lines += [*(f'#[doc(alias = "{it}")]' for it in words), f'pub use {path};']
    return lines


def turn_exports(source: Source) -> None:
    """Splits the public `use`s of a library's root: names that decode are private there, and public
    in a module of their own, from which `reader` exports them. Names for libraries above alone are
    private."""
    if source.crate.name not in LIBRARIES or not source.path.endswith('/src/lib.rt'):
        return
    own, between = READERS.get(source.crate.name, set()), BETWEEN.get(source.crate.name, set())
    exports = []
    for place in source.solid_places():
        if source.tokens[place] != 'use' or source.tokens[source.back(place)] != 'pub':
            continue
        first, end = source.skip(place + 1), place
        while source.tokens[end] != ';':
            end += 1
        paths = list(paths_of(source, solid_words(source.text(first, end))))
        inner = [path for path in paths if path.split('::')[-1] in own | between]
        if inner or any(aliases_of(source.crate.name, path) for path in paths):
            exports += [f'    {line}' for line in public(source, ['super::' + path for path in inner if path.split('::')[-1] in own])]
            lines = public(source, [path for path in paths if path not in inner]) + [f'pub(crate) {line}' for line in grouped(inner)]
            source.edit(source.back(place), end + 1, '\n'.join(lines), 'export')
        head = paths[0].split('::')[0]
        if head in READERS and all(path.split('::')[-1] in READERS[head] for path in paths):
            source.edit(source.back(place), end + 1, '\n'.join(f'pub {line}' for line in grouped(reading(head) + path[len(head):] for path in paths)), 'export')
    if exports:
        lines = '\n'.join(exports)
        source.readers = [f'/// The names that decode, which `reader` exports.\npub(crate) mod {READING} {{\n{lines}\n}}\n']
