"""Finds the definition that a word means, by the imports of its file."""
from __future__ import annotations

import functools
from collections.abc import Iterable, Sequence
from dataclasses import dataclass

from ..errors import Stop
from ..to_rust.tables import LIBRARIES
from . import specs
from .imports import Import, module_called, origins
from .specs import Definition, Specs
from .terms import bound_in, pattern_words, words_of

# Modules of types and variants that the prover makes of Rust's, and of proofs.
DECLARED = '.specs.declared.'
PROOFS = '.proofs.'
PAGES = 'crate::definitions'


@dataclass(frozen=True)
class Target:
    """A definition, or one of its constructors, and the file that it is in."""

    file: Specs
    definition: Definition
    is_constructor: bool

    @property
    def path(self) -> str:
        """The path of its documentation."""
        return f'{PAGES}::{LIBRARIES[self.file.crate]}::{self.file.page}::{self.definition.name}'


class Library:
    """All files of specs/ of the libraries."""

    def __init__(self, files: Iterable[Specs]):
        self.files = {it.module: it for it in files}

    def find(self, module: str, name: str, where: str) -> Target | None:
        """Returns the definition of a module that has this name. It is None for what has no page: a
        type, a variant, and the words of the prover and of proofs."""
        file = self.files.get(module)
        if file is None:
            if DECLARED in module + '.' or PROOFS in module + '.' or module.split('.')[1] in ('std', 'hex'):
                return None
            raise Stop(f'{where}: there is no {module}')
        for it in file.definitions:
            if name == it.name or name in it.constructors:
                return Target(file, it, name != it.name)
        return self.one_of({(it.module, it.names[name]) for it in file.exports if name in it.names}, name, where)

    def one_of(self, origins: set[tuple[str, str]], word: str, where: str) -> Target | None:
        """Returns the one definition that these names are."""
        if not origins:
            raise Stop(f'{where}: there is no {word}')
        found = {target.path if target else '': target for target in (self.find(*it, where) for it in origins)}
        if len(found) > 1:
            raise Stop(f'{where}: {word} is imported from two modules')
        return next(iter(found.values()))

    def meant(self, word: str, imports: Sequence[Import], where: str) -> tuple[str, Target] | None:
        """Returns the definition that a word means where these imports are, and the part of the
        word that is its name, or None for another word. The name may have a module's before it."""
        head, _, rest = word.partition('.')
        module = module_called(head, imports) if rest else None
        if module is not None:
            target = self.find(module, rest, where) if module in self.files else None
            return (word, target) if target else None
        found = origins(head, imports)
        target = self.one_of(found, head, where) if found else None
        return (head, target) if target else None

    def cited(self, text: str, imports: Sequence[Import], bound: set[str], where: str) -> dict[str, str]:
        """Returns the path of each word of a term that has a definition. A word that the term
        binds, or that is among the given ones, means something else."""
        bound = bound | bound_in(text)
        free = [word for word in words_of(text) if word.partition('.')[0] not in bound]
        found = [self.meant(word, imports, where) for word in free]
        return {name: target.path for name, target in filter(None, found)}

    def imports_within(self, file: Specs) -> list[Import]:
        """Returns the imports of a file, with the names that it defines."""
        names = {name: name for it in file.definitions for name in (it.name, *it.constructors)}
        return [*file.imports, Import(file.module, names)]

    def cited_by(self, file: Specs, it: Definition) -> dict[str, str]:
        """Returns the path of each other definition that a definition names."""
        imports = self.imports_within(file)
        patterns = pattern_words(it.text, it.name)
        bound = {word for word in patterns if not self.is_constructor(word, imports, file.path)}
        return self.cited(it.text, imports, bound | {it.name, *it.constructors}, file.path)

    def is_constructor(self, word: str, imports: Sequence[Import], where: str) -> bool:
        """Returns whether a word in a pattern is a constructor, and no argument."""
        found = origins(word, imports)
        target = self.one_of(found, word, where) if found else None
        return bool(found) and (target is None or target.is_constructor)


@functools.lru_cache(maxsize=None)
def library() -> Library:
    """Returns the library of the repository."""
    return Library(file for crate in LIBRARIES for file in specs.files(crate))
