"""A generated file."""
from __future__ import annotations

import pathlib

from .context import SourceFile
from .crates import Crate
from .heads import examples_run, exported_readers, head_and_rest, prelude, support
from .render import rendered
from .source import Source
from .steps import STEPS
from .tables import PAGES, PROVERS_WORDS


class Written:
    """A generated file: the page at its head, what is before and behind the tokens of its source,
    and its text."""

    def __init__(self, crate: Crate, relative: str | pathlib.Path, text: str):
        self.path = f'{crate.sources}/{relative}'
        self.source = Source(crate, self.path, text)
        for step in STEPS:
            step(self.source)
        check_left(self.source)
        body = rendered(self.source)
        is_root = str(relative) in ['lib.rt', 'lib.rtt']
        self.before = prelude(self.source, body) + exported_readers(crate, relative) + support(crate, is_root)
        self.behind = '\n'.join([*self.source.errors, *self.source.readers])
        body = '\n'.join(examples_run(body.rstrip('\n').split('\n'))) + '\n'
        self.page = f'#![doc = include_str!("../{PAGES[crate.name]}")]\n' if is_root and crate.name in PAGES else ''
        head, rest = head_and_rest(body)
        if self.page:
            head = ''.join(line + '\n' for line in head.split('\n') if line and not line.startswith('//!'))
        parts = [self.page, head, self.before + rest.rstrip('\n') + '\n', self.behind]
        self.text = f'// Written by tools/to-rust from {self.path}: change that.\n' + '\n'.join(part for part in parts if part)


def written(file: SourceFile) -> Written:
    """Returns the generated file of a source."""
    return Written(file.crate, file.relative, file.text)


def check_left(source: Source) -> None:
    """Stops at a token that must not be in Rust."""
    for place in source.solid_places():
        token = source.tokens[place]
        if token in PROVERS_WORDS:
            source.stop(place, f'a word of the prover: {token}')
        if not token.isascii():
            source.stop(place, f'a character outside of ASCII in code: {token}')
