"""Files of specs/: their heads, imports and definitions."""
from __future__ import annotations

import pathlib
import re
from collections.abc import Iterator
from dataclasses import dataclass, field, replace

from ..errors import Stop
from ..repository import TOP, text_of
from .imports import Import, parsed

USE = re.compile(r'((?:unfoldable )?(?:pub )?)use (.*)')
TITLE = re.compile(r'-- ---- (.*)')
MARK = re.compile(r'\s*-- (?:begin: written|end: written|Written) by tools/.*')
# Definitions below it are indented, and have its parameters.
MODULE = re.compile(r'module _ .* where')
# The first line of a definition: its name, and `data` if it lists constructors.
HEAD = re.compile(r'(?:(?:abbrev|unfoldable|opaque|pub|instance|record) |(data) )+([^\W\d]\w*)(?= |$)')
CONSTRUCTOR = re.compile(r' +([^\W\d]\w*) :')


@dataclass(frozen=True)
class Definition:
    """A definition: its name, the sentence above it, its text, the constructors of a `data`, and
    the title of the part of the file that it is in."""

    name: str
    sentence: str
    text: str
    constructors: tuple[str, ...]
    part: str


@dataclass
class Specs:
    """A file of specs/."""

    crate: str
    name: str
    head: str = ''
    imports: list[Import] = field(default_factory=list)
    # The imports that it passes on.
    exports: list[Import] = field(default_factory=list)
    definitions: list[Definition] = field(default_factory=list)
    # The comment below the title of a part, by the title.
    notes: dict[str, str] = field(default_factory=dict)

    @property
    def module(self) -> str:
        """The path by which imports name the file."""
        return f'Rattle.{self.crate}.specs.{self.name}'

    @property
    def page(self) -> str:
        """The name of the file's page."""
        return re.sub(r'(?<!^)(?=[A-Z])', '_', self.name).lower()

    @property
    def path(self) -> str:
        """The path of the file in the repository."""
        return f'crates/{self.crate}/specs/{self.name}.antt'


@dataclass(frozen=True)
class Block:
    """Lines without an empty one between them: comments, and what is below them. In a `module`, its
    first line, and lines without their indentation."""

    line: int
    module: str
    comments: list[str]
    lines: list[str]


def blocks(text: str) -> Iterator[Block]:
    """Yields the blocks of a file, without the marks of tools."""
    found: list[str] = []
    module = ''
    for number, line in enumerate([*text.split('\n'), ''], 1):
        if MODULE.fullmatch(line):
            module = line
        elif line.strip() and not MARK.fullmatch(line):
            found.append(line)
        elif not line.strip() and found:
            module = module if all(it.startswith('  ') for it in found) else ''
            yield block(number - len(found), module, found)
            found = []


def block(line: int, module: str, found: list[str]) -> Block:
    """Returns the block of these lines."""
    lines = [it[2:] for it in found] if module else found
    count = next((at for at, it in enumerate(lines) if not it.startswith('--')), len(lines))
    return Block(line, module, [it[2:].strip() for it in lines[:count]], lines[count:])


def read(crate: str, name: str, text: str, *, is_complete: bool = True) -> Specs:
    """Reads a file of specs/. It stops at a definition without a sentence if there must be none."""
    specs = Specs(crate, name)
    part = ''
    for it in blocks(text):
        where = f'{specs.path}:{it.line}'
        title = TITLE.fullmatch('-- ' + ' '.join(it.comments))
        if not it.lines and title:
            part = title[1]
        elif not it.lines and part and part not in specs.notes:
            specs.notes[part] = ' '.join(it.comments)
        elif all(line.startswith(('use ', 'pub use ', 'unfoldable pub use ', 'pub mod ')) for line in it.lines):
            take_head(specs, it, where)
        else:
            made = definition(it, part, where, is_complete)
            specs.definitions.append(after(specs.definitions[-1], made) if specs.definitions else made)
    names = [it for one in specs.definitions for it in (one.name, *one.constructors)]
    for name in names:
        if names.count(name) > 1:
            raise Stop(f'{specs.path}: {name} is defined twice')
    return specs


# Definitions whose sentence begins `The same for`, and which it means, if that is not the one
# before.
SAME = {'IsGivenSymbol': 'IsFullSymbol'}


def after(before: Definition, it: Definition) -> Definition:
    """Returns a definition with the name of the one before it in a sentence that begins `The same
    for`."""
    same, _, rest = it.sentence.partition('The same for ')
    return it if same or not rest else replace(it, sentence=f'As `{SAME.get(it.name, before.name)}`, for {rest}')


def take_head(specs: Specs, it: Block, where: str) -> None:
    """Reads the comments and the imports at the head of a file."""
    if it.comments:
        if specs.head or specs.definitions:
            raise Stop(f'{where}: a comment above no definition')
        specs.head = ' '.join(it.comments)
    for line in it.lines:
        use = USE.fullmatch(line)
        if use:
            specs.imports.append(parsed(use[2], where))
            if 'pub' in use[1]:
                specs.exports.append(specs.imports[-1])


def definition(it: Block, part: str, where: str, is_complete: bool) -> Definition:
    """Reads a definition: its sentence, its head, and the lines that are indented or begin with its
    name."""
    head = HEAD.match(it.lines[0])
    if not head:
        raise Stop(f'{where}: an unknown definition: {it.lines[0]}')
    name = head[2]
    if is_complete and not it.comments:
        raise Stop(f'{where}: {name} has no sentence: write one above it')
    for line in it.lines[1:]:
        if not line.startswith((' ', '}', name + ' ', 'unfolding ')):
            raise Stop(f'{where}: this is no part of {name}: {line}')
    constructors = tuple(found[1] for found in map(CONSTRUCTOR.match, it.lines[1:]) if found and head[1])
    lines = [it.module, *('  ' + line for line in it.lines)] if it.module else it.lines
    return Definition(name, ' '.join(it.comments), '\n'.join(lines), constructors, part)


def files(crate: str, top: pathlib.Path = TOP, *, is_complete: bool = True) -> list[Specs]:
    """Reads the files of a crate. Each definition has a sentence if `is_complete`."""
    folder = top / 'crates' / crate / 'specs'
    return [read(crate, path.stem, text_of(path), is_complete=is_complete) for path in sorted(folder.rglob('*.antt'))]
