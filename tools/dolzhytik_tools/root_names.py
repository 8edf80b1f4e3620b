"""tools/root-names: compares the root of the package with the Rust crate, name by name.

rustdoc's pages of the root have what users reach: inherent functions and constants, and impls of
traits, also those of types that the root exports again and those that macros write. LIST has those
of the crate, and each difference with its reason:

    TYPE
        NAME NAME ..       inherent functions and constants
        impl TRAIT; ..     implemented traits
    added TYPES: NAMES: REASON
    lacking TYPES: NAMES: REASON

TYPES and NAMES are patterns of a shell. A trait or type of `fallible` or `reader` has that module's
name before its own. The type `root` has the names of types, traits, functions and constants.
"""
from __future__ import annotations

import pathlib
import re
import subprocess
import sys
from collections.abc import Iterable, Iterator, Sequence
from dataclasses import dataclass, field
from fnmatch import fnmatchcase
from html.parser import HTMLParser

from .errors import Stop
from .repository import TOP, text_of

LIST = 'tools/root-names.txt'
# The tests that compare `Debug` of the root with types of the same names.
PRINTED = 'rust/tests/drop_in/debug.rs'
MANIFEST = 'rust/Cargo.toml'
PAGES = 'rust/target/doc/dolzhytik'
# The lists of a page, by the id of the element around each.
INHERENT, TRAITS = 'implementations-list', 'trait-implementations-list'
# What every derived `PartialEq` brings along.
UNSAID = {'StructuralPartialEq'}
# The pages of types; other pages of the root are of traits, functions, constants and aliases.
TYPES = re.compile(r'(?:struct|enum)\.(\w+)\.html')
ITEMS = re.compile(r'\w+\.(\w+)\.html')


class Page(HTMLParser):
    """A page of a type: its inherent names, and the traits that it implements."""

    def __init__(self, of: str, text: str):
        super().__init__()
        self.of = of
        self.inherent: set[str] = set()
        self.traits: set[str] = set()
        self.part = ''
        # The head of an impl so far, or None outside of one, and the path of the link around a text.
        self.head: list[str] | None = None
        self.path = ''
        self.feed(text)

    def handle_starttag(self, tag: str, attrs: list[tuple[str, str | None]]) -> None:
        found = {name: value or '' for name, value in attrs}
        if 'id' in found and tag in ('div', 'h2'):
            self.part = found['id']
        if tag == 'section' and self.part == INHERENT:
            kind, _, name = found.get('id', '').partition('.')
            if kind in ('method', 'associatedconstant', 'associatedtype'):
                self.inherent.add(name)
        if tag == 'h3' and self.part == TRAITS:
            self.head = []
        if tag == 'a' and self.head is not None:
            self.path = found.get('title', '').partition(' ')[2]

    def handle_endtag(self, tag: str) -> None:
        if tag == 'a':
            self.path = ''
        if tag == 'h3' and self.head is not None:
            self.traits.add(trait_of(''.join(self.head), self.of))
            self.head = None

    def handle_data(self, data: str) -> None:
        if self.head is not None:
            self.head.append(qualified(data, self.path))


def qualified(name: str, path: str) -> str:
    """Returns a name with its module, if it is of a module of the package."""
    crate, _, inside = path.partition('::')
    return inside if crate == 'dolzhytik' and '::' in inside else name


def trait_of(head: str, of: str) -> str:
    """Returns the trait of the head of an impl, and for what it is, unless that is the type."""
    rest = ' '.join(head.split()).removeprefix('impl')
    if rest.startswith('<'):
        depth = 0
        for place, character in enumerate(rest):
            depth += {'<': 1, '>': -1}.get(character, 0)
            if depth == 0:
                rest = rest[place + 1:]
                break
    trait, _, target = rest.strip().partition(' for ')
    return trait if re.match(rf'{of}\b', target) else f'{trait} for {target}'


@dataclass(frozen=True)
class Difference:
    """A line of the list: names that are added or lacking, and why."""

    line: int
    types: str
    names: str

    def covers(self, of: str, name: str) -> bool:
        """Returns whether the line has this name of a type."""
        return fnmatchcase(of, self.types) and fnmatchcase(name, self.names)


@dataclass
class Listed:
    """The names of the crate, by type, and the differences."""

    names: dict[str, set[str]] = field(default_factory=dict)
    added: list[Difference] = field(default_factory=list)
    lacking: list[Difference] = field(default_factory=list)


def listed(text: str) -> Listed:
    """Reads the list."""
    found = Listed()
    names: set[str] = set()
    for number, line in enumerate(text.split('\n'), 1):
        if not line or line.startswith('#'):
            continue
        if difference := re.fullmatch(r'(added|lacking) (\S+): (.*?): (.+)', line):
            kind = found.added if difference[1] == 'added' else found.lacking
            kind.append(Difference(number, difference[2], difference[3]))
        elif line.startswith('    impl '):
            names |= {f'impl {it}' for it in line.removeprefix('    impl ').split('; ')}
        elif line.startswith('    '):
            names |= set(line.split())
        elif re.fullmatch(r'\w+', line) and line not in found.names:
            names = found.names[line] = set()
        else:
            raise Stop(f'{LIST}:{number}: neither a type, nor names, nor a difference with its reason')
    return found


def root_of(pages: pathlib.Path) -> dict[str, set[str]]:
    """Returns the names of the root, by type."""
    links = re.findall(r'<a href="([^"/]+)">', text_of(pages / 'all.html'))
    found = {'root': {match[1] for match in map(ITEMS.fullmatch, links) if match}}
    for name in filter(None, map(TYPES.fullmatch, links)):
        page = Page(name[1], text_of(pages / name[0]))
        # An impl for another type of the root is on that type's page too.
        traits = {it for it in page.traits - UNSAID if it.partition(' for ')[2] not in found['root']}
        found[name[1]] = page.inherent | {f'impl {it}' for it in traits}
    if len(found) == 1:
        raise Stop(f'{pages}/all.html: there are no types')
    return found


def uncovered(names: Iterable[tuple[str, str]], differences: list[Difference]) -> Iterator[str]:
    """Yields the names that no difference covers, and the differences that cover none."""
    names = list(names)
    for of, name in names:
        if not any(it.covers(of, name) for it in differences):
            yield f'{of}: {name}'
    for it in differences:
        if not any(it.covers(of, name) for of, name in names):
            yield f'{LIST}:{it.line}: no name is {it.types}: {it.names}'


def pairs(names: dict[str, set[str]], without: dict[str, set[str]]) -> list[tuple[str, str]]:
    """Returns the names of each type that are not those of the same type in `without`."""
    return sorted((of, name) for of in names for name in names[of] - without.get(of, set()))


def troubles(root: dict[str, set[str]], crate: Listed) -> Iterator[str]:
    """Yields each name that the root has and the crate has not, or the other way around, without a
    reason, and each reason without a name."""
    for it in uncovered(pairs(root, crate.names), crate.added):
        yield it if it.startswith(LIST) else f'added without a reason: {it}'
    for it in uncovered(pairs(crate.names, root), crate.lacking):
        yield it if it.startswith(LIST) else f'lacking without a reason: {it}'


def not_printed(root: dict[str, set[str]], text: str) -> Iterator[str]:
    """Yields the types with `Debug` that the tests of it have no type for."""
    for of in root:
        if 'impl Debug' in root[of] and not re.search(rf'\b(?:struct|enum) {of}\b|^ +{of} {{ \w+ }}$', text, re.MULTILINE):
            yield f'{PRINTED} has no type {of}'


def document() -> None:
    """Writes rustdoc's pages."""
    command = ['cargo', 'doc', '--no-deps', '--package', 'dolzhytik', '--lib', '--manifest-path', TOP / MANIFEST]
    done = subprocess.run(command + ['--target-dir', TOP / 'rust/target'], capture_output=True, text=True)
    if done.returncode:
        raise Stop(f'cargo doc failed\n{done.stderr}')


def main(words: Sequence[str], usage: str) -> int:
    """Runs the command. `usage` is the head of its script."""
    if words:
        print(usage.split('\n\n')[1], file=sys.stderr)
        return 2
    try:
        document()
        root = root_of(TOP / PAGES)
        found = [*troubles(root, listed(text_of(TOP / LIST))), *not_printed(root, text_of(TOP / PRINTED))]
    except Stop as stop:
        print(f'root-names: {stop}', file=sys.stderr)
        return 2
    for it in found:
        print(f'root-names: {it}')
    return 1 if found else 0
