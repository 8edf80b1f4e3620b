"""The lines of a generated file that its source lacks: imports, inner modules, runnable
examples."""
from __future__ import annotations

import functools
import pathlib
import re
import textwrap

from ..definitions.layout import COLUMNS
from ..rattle.lexer import solid_words
from .context import sources, uses
from .crates import Crate, reading
from .modules import SKIP
from .source import Source
from .tables import BESIDE_TESTS, BY_HAND, INNER, LIBRARIES, PUBLIC, READERS, READING_BY_HAND, TESTS
from .uses import grouped

# The hidden lines around the examples of documentation.
EXAMPLE_HEAD = ['fn example() -> Result<(), Box<dyn std::error::Error>> {', 'use dolzhytik::{fallible::*, reader::*};']
EXAMPLE_END = ['Ok(())', '}', 'example().unwrap();']
# The variables that examples may use, besides `alloc`, which becomes `Global`.
GIVEN = {
    'module': 'let mut module = Module::new(Global)?;',
    'code': 'let mut code = CodeSection::new(Global);',
    'bytes': 'let bytes = *b"\\0\\x01";',
}
BY_HAND_NAMES = {'AllocError', 'AllocFailed', 'Allocator', 'Global', 'Sink', 'String', 'Vec'}
DECLARED = re.compile(r'^pub (?:struct|enum|trait|type|fn|const) (\w+)', re.MULTILINE)


@functools.lru_cache(maxsize=None)
def public_names() -> dict[str, str]:
    """Returns the module of each public name of the package except the root."""
    found = {name: 'fallible' for name in BY_HAND_NAMES}
    for it in sources():
        if it.crate.name in LIBRARIES:
            module = PUBLIC.get(it.crate.name, 'fallible')
            for name in DECLARED.findall(it.text):
                found[name] = 'reader' if name in READERS.get(it.crate.name, ()) else module
    return found


def imports_of(lines: list[str]) -> list[str]:
    """Returns imports of the names that an example uses."""
    used: dict[str, set[str]] = {}
    for name in re.findall(r'(?<![\w.:])([A-Z]\w*|[a-z]\w*(?=\())', '\n'.join(lines)):
        if name in public_names():
            used.setdefault(public_names()[name], set()).add(name)
    order = lambda name: (name[0].islower(), name)
    made = []
    for module in sorted(used):
        names = sorted(used[module], key=order)
        line = f'use dolzhytik::{module}::' + (names[0] if len(names) == 1 else '{' + ', '.join(names) + '}') + ';'
        short = textwrap.wrap(', '.join(names) + ',', COLUMNS - 8)
        made += [line] if len(line) <= COLUMNS - 4 else [f'use dolzhytik::{module}::{{', *('    ' + it for it in short), '};']
    return made


def runnable(text: list[str], lead: str) -> list[str]:
    """Returns the lines of an example, with imports and variables, and hidden lines around it."""
    joined = '\n'.join(text)
    given = [let for name, let in GIVEN.items() if re.search(rf'\b{name}\b(?!: )', joined) and not re.search(rf'\blet (mut )?{name}\b', joined)]
    own = [re.sub(r'\balloc\b', 'Global', line.removeprefix(lead).removeprefix(' ')) for line in text]
    uses = imports_of(given + own)
    shown = [*uses, *([''] if uses else []), *given, *own]
    hidden = [f'# {it}' for it in EXAMPLE_HEAD]
    lines = [*hidden, *shown, *(f'# {it}' for it in EXAMPLE_END)]
    return [f'{lead} ```', *(f'{lead} {line}'.rstrip() for line in lines), f'{lead} ```']


def examples_run(lines: list[str]) -> list[str]:
    """Makes the examples of documentation runnable."""
    out: list[str] = []
    example: list[str] | None = None
    for line in lines:
        mark = line.strip()
        if mark in ('/// ```rust', '//! ```rust'):
            lead = line[:line.index('/') + 3]
            example = []
        elif example is not None and mark == lead.strip() + ' ```':
            out += runnable(example, lead)
            example = None
        elif example is not None:
            example.append(line)
        else:
            out.append(line)
    return out


def prelude(source: Source, text: str) -> str:
    """Returns imports of names of Rattle's prelude that Rust's has in another form."""
    words = set(solid_words(text))
    paths = ['vec::Sink', 'vec::Vec', 'string::String']
    if not source.has_sinks:
        words.discard('Sink')
    found = [source.crate.by_hand(path) for path in paths if path.split('::')[1] in words]
    return ''.join(use + '\n' for use in grouped(found))


def head_and_rest(text: str) -> tuple[str, str]:
    """Splits a file after the comments at its head."""
    lines = text.split('\n')
    count = 0
    while count < len(lines) and (lines[count].startswith('//!') or (lines[count].startswith('//') and not lines[count].startswith('///'))):
        count += 1
    return '\n'.join(lines[:count]) + ('\n' if count else ''), '\n'.join(lines[count:]).lstrip('\n')


def exported_readers(crate: Crate, relative: str | pathlib.Path) -> str:
    """Returns what the root of `reader` exports of the libraries below it, and of modules by hand."""
    if crate.name != 'wasm_reader' or str(relative) != 'lib.rt':
        return ''
    inner = ''.join(f'/// {says}\npub mod {LIBRARIES[name]} {{\n    pub use crate::{LIBRARIES[name]}::*;\n}}\n' for name, says in INNER.items())
    modules = [*map(reading, READERS), *(f'crate::{name}' for name in READING_BY_HAND)]
    return ''.join(f'pub use {module}::*;\n' for module in modules) + f'\n{inner}\n'


def support(crate: Crate, is_root: bool) -> str:
    """Returns the shared modules of a test program."""
    if not is_root or crate.name not in TESTS:
        return ''
    modules = '#![allow(unused_imports, unused_variables, clippy::all)]\n\n#[macro_use]\n#[path = "../support/host.rs"]\nmod host;\n'
    for name in BESIDE_TESTS:
        if name in uses()[crate.name]:
            skip = '' if f'{name}/lib.rt' in BY_HAND else SKIP
            modules += f'#[allow(dead_code)]\n#[path = "../{name}/mod.rs"]\n{skip}mod {name};\n'
    return modules
