"""The pages of `dolzhytik::definitions`: a trait for each file, with a type for each definition.

Rustdoc has a page for a trait, with the documentation and an anchor of each of its types, which its
search finds. The module exists for rustdoc alone.
"""
from __future__ import annotations

import re
from collections.abc import Iterator, Mapping

from ..errors import Stop
from ..to_rust.tables import LIBRARIES
from .layout import laid_out
from .library import PAGES, Library
from .specs import Definition, Specs

REPOSITORY = 'https://github.com/dolzhytik/dolzhytik/blob/main'
FRONT = 'definitions.md'
WRITTEN = '// Written by tools/to-rust from crates/{}: change that.\n'
# What the definitions of each library are about.
TOPICS = {
    'wasm_base': 'Numbers, names, vectors, types, sections and modules; the promises of calls that append and decode',
    'wasm_immediates': 'Floats, memory arguments, block types, catches and handles',
    'wasm_types': 'The type section',
    'wasm_insn': 'Instructions, their opcodes and immediates',
    'wasm_code': 'Constant expressions, function bodies and the code section',
    'wasm_sections': 'The core sections except types and code',
    'wasm_custom': 'Custom sections',
    'wasm_reader': 'Modules and their sections, decoded and minimized',
    'wasm_remap': 'Maps of indices',
    'wasm_tool': 'Recipes of modules',
}
# Names that no item of Rust can have.
KEYWORDS = set(
    'as break const continue crate dyn else enum extern false fn for if impl in let loop match mod move mut pub ref return self Self static '
    'struct super trait true type unsafe use where while async await abstract become box do final gen macro override priv try typeof '
    'unsized virtual yield'.split()
)


def links(paths: Mapping[str, str]) -> str:
    """Returns links to these paths."""
    return ', '.join(f'[`{word}`]({path})' for word, path in paths.items())


def near(crate: str, paths: Mapping[str, str]) -> dict[str, str]:
    """Returns paths as the page of a crate names them."""
    own, all_pages = f'{PAGES}::{LIBRARIES[crate]}::', f'{PAGES}::'
    return {word: path.removeprefix(own) if path.startswith(own) else path.replace(all_pages, 'super::', 1) for word, path in paths.items()}


def prose(text: str, paths: Mapping[str, str]) -> str:
    """Returns a sentence in Markdown, whose names in backticks are links if they have a path."""
    out = []
    for at, part in enumerate(text.split('`')):
        if at % 2:
            out.append(f'[`{part}`]({paths[part]})' if part in paths else f'`{part}`')
        else:
            out.append(re.sub(r'[][<>*_\\|]', r'\\\g<0>', part))
    return ''.join(out)


def ended(sentence: str) -> str:
    """Returns a sentence with a capital at its start and a full stop at its end."""
    return sentence[:1].upper() + sentence[1:] + ('' if sentence.endswith(('.', ':')) else '.') if sentence else ''


def names_in(text: str) -> str:
    """Returns the parts of a sentence in backticks."""
    return ' '.join(text.split('`')[1::2])


def documented(lines: list[str], indent: str) -> Iterator[str]:
    """Yields lines of documentation."""
    for line in lines:
        yield f'{indent}/// {line}'.rstrip()


def item(library: Library, file: Specs, it: Definition) -> Iterator[str]:
    """Yields the lines of a definition: its sentence, its text, and links to those in it."""
    if it.name in KEYWORDS:
        raise Stop(f'{file.path}: {it.name} is a keyword of Rust, and can have no page')
    cited = library.cited_by(file, it)
    sentence = library.cited(names_in(it.sentence), library.imports_within(file), {it.name}, file.path)
    lines = [prose(ended(it.sentence), near(file.crate, sentence)), '', '```text', *laid_out(it.text), '```']
    if cited:
        lines += ['', f'Definitions: {links(near(file.crate, cited))}.']
    yield from documented(lines, '    ')
    yield f'    type {it.name};'


def parts(file: Specs) -> Iterator[str]:
    """Yields a list of the titled parts of a file, with links to the definitions of each."""
    for title in dict.fromkeys(it.part for it in file.definitions if it.part):
        paths = {it.name: f'{file.page}::{it.name}' for it in file.definitions if it.part == title}
        note = ' ' + prose(file.notes[title], {}) if title in file.notes else ''
        yield f'- {prose(title[0].upper() + title[1:], {})}: {links(paths)}.{note}'


def trait(library: Library, file: Specs) -> Iterator[str]:
    """Yields the lines of the page of a file."""
    if not file.head:
        raise Stop(f'{file.path}: the file has no comment at its head')
    head = file.head.replace('This file defines ', '', 1)
    lines = [prose(head[0].upper() + head[1:], {})]
    if any(it.part for it in file.definitions):
        lines += ['', *parts(file)]
    lines += ['', f'[How to read definitions](super). The file is [`{file.name}.antt`]({REPOSITORY}/{file.path}).']
    yield ''
    yield from documented(lines, '')
    yield f'pub trait {file.page} {{'
    for it in file.definitions:
        yield from item(library, file, it)
    yield '}'


def page(library: Library, crate: str) -> str:
    """Returns the file of a crate's definitions."""
    files = [it for it in library.files.values() if it.crate == crate and it.definitions]
    lines = [f'//! {TOPICS[crate]}.', '//!', f'//! The contracts of [`{crate}`]({REPOSITORY}/crates/{crate}/README.md) name these definitions.']
    for it in files:
        lines += trait(library, it)
    return WRITTEN.format(f'{crate}/specs') + '\n'.join(lines) + '\n'


def pages(library: Library, names: str) -> dict[str, str]:
    """Returns the text of each file, by its path below rust/. `names` is the table of the names of
    clauses."""
    files = {f'src/definitions/{LIBRARIES[crate]}.rs': page(library, crate) for crate in LIBRARIES}
    lines = ['', '# Names of clauses', '', 'These names mean the same on every page.', '', *names.rstrip('\n').split('\n')]
    head = f'#![doc = include_str!("../{FRONT}")]\n' + ''.join(f'//! {line}'.rstrip() + '\n' for line in lines)
    modules = ''.join(f'pub mod {module};\n' for module in sorted(LIBRARIES.values()))
    files['src/definitions/mod.rs'] = WRITTEN.format('*/specs') + f'{head}#![allow(non_camel_case_types)]\n\n{modules}'
    return files
