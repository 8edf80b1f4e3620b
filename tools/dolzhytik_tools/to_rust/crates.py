"""The folder of each crate below rust/, and its paths there."""
from __future__ import annotations

import pathlib

from .tables import BESIDE_TESTS, BORDERS, LIBRARIES, PUBLIC, PUBLIC_LAWS, READERS, READING, TESTS


class Crate:
    """A crate: the folders of its sources and of its Rust, and the path of its module."""

    def __init__(self, name: str):
        self.name = name
        self.is_test = name in TESTS or name in BESIDE_TESTS
        self.sources = ('tests/' if name in TESTS else 'crates/') + name + '/src'
        if name in LIBRARIES:
            self.folder = 'src/' + LIBRARIES[name].replace('::', '/')
            self.here, self.root = 'crate::' + LIBRARIES[name], 'mod.rs'
        elif name in BORDERS:
            self.folder = BORDERS[name] + '/src/calls'
            self.here, self.root = 'crate::calls', 'mod.rs'
        elif name in BESIDE_TESTS:
            self.folder = 'tests/' + name
            self.here, self.root = 'crate::' + name, 'mod.rs'
        else:
            self.folder = 'tests/' + name
            self.here, self.root = 'crate', 'main.rs'

    def target(self, source: pathlib.PurePath) -> str:
        """Returns the path below rust/ of the file with this path below src/."""
        path = pathlib.PurePosixPath(source).with_suffix('.rs')
        return self.folder + '/' + (self.root if path.name == 'lib.rs' and len(path.parts) == 1 else str(path))

    def by_hand(self, path: str) -> str:
        """Returns the path here of a name of a hand-written module: others find it in
        `fallible`."""
        if self.name in LIBRARIES:
            return 'crate::' + path
        module, _, name = path.partition('::')
        return 'dolzhytik::fallible::' + (path if module == 'hex' else name)

    def library(self, name: str) -> str | None:
        """Returns the path of a crate here, or None for another name."""
        if name in LIBRARIES:
            return 'crate::' + LIBRARIES[name] if self.name in LIBRARIES else public(name)
        if name == 'hex':
            return self.by_hand(name)
        if name in BESIDE_TESTS and self.is_test:
            return 'crate::' + name
        return None

    def named(self, library: str, name: str) -> str | None:
        """Returns the module here of a name of a library."""
        if name not in READERS.get(library, ()):
            return self.library(library)
        return 'crate::' + LIBRARIES[library] if self.name in LIBRARIES else 'dolzhytik::reader'

    def laws(self, name: str) -> str:
        """Returns the path of a library's laws here."""
        return f'{self.library(name)}::laws' if self.name in LIBRARIES else public_laws(name)


def public(name: str) -> str:
    """Returns the module where users find the names of a library."""
    return 'dolzhytik::' + PUBLIC.get(name, 'fallible')


def public_laws(name: str) -> str:
    """Returns the module where users find the laws of a library."""
    return 'dolzhytik::' + PUBLIC_LAWS.get(name, f'fallible::laws::{LIBRARIES[name]}')


def crates() -> list[Crate]:
    """Returns all crates."""
    return [Crate(name) for name in [*LIBRARIES, *BESIDE_TESTS, *TESTS, *BORDERS]]


def reading(library: str) -> str:
    """Returns the module that exports the names of a library that decode."""
    return f'crate::{LIBRARIES[library]}::{READING}'
