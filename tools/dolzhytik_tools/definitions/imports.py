"""Imports of the prover: the `use` lines of specs/, and the `ghost use`s of sources."""
from __future__ import annotations

import re
from collections.abc import Iterable
from dataclasses import dataclass, field

from ..errors import Stop

PATH = r'[^\W\d]\w*(?:\.[^\W\d]\w*)*'
GROUP = re.compile(rf'({PATH})\.\{{(.*)\}}', re.S)
WHOLE = re.compile(rf'({PATH})(?: as (\w+))?')
ALL = re.compile(rf'({PATH})\.\*')


@dataclass(frozen=True)
class Import:
    """The path of a module. With names, by what each is called here; or the name of the module
    here; or neither, if all names are taken."""

    module: str
    names: dict[str, str] = field(default_factory=dict)
    alias: str = ''


def parsed(text: str, where: str) -> Import:
    """Returns the import with this text, without `use` and a semicolon."""
    text = ' '.join(text.split())
    group = GROUP.fullmatch(text)
    if group:
        names = [it.strip() for it in group[2].split(',') if it.strip()]
        pairs = [it.partition(' as ') for it in names]
        return Import(group[1], {alias or name: name for name, _, alias in pairs})
    if ALL.fullmatch(text):
        return Import(ALL.fullmatch(text)[1])
    whole = WHOLE.fullmatch(text)
    if not whole:
        raise Stop(f'{where}: an unknown import: {text}')
    if whole[2]:
        return Import(whole[1], alias=whole[2])
    module, _, name = whole[1].rpartition('.')
    return Import(module, {name: name})


def origins(word: str, imports: Iterable[Import]) -> set[tuple[str, str]]:
    """Returns the modules of an imported word, each with its name there. Other words have none."""
    return {(it.module, it.names[word]) for it in imports if word in it.names}


def module_called(word: str, imports: Iterable[Import]) -> str | None:
    """Returns the module that has this name here, or None for another word."""
    return next((it.module for it in imports if it.alias == word), None)
