"""Writes a package of copied test programs that needs no std."""
from __future__ import annotations

import pathlib
import re
from collections.abc import Iterator
from typing import NamedTuple

from ..repository import TOP
from .copies import Copy, Unknown, without
from .lists import LEFT_OUT, NEED_PROCESSES, PROGRAMS, SHARED
from .target import OUT

TESTS = TOP / 'rust/tests'
HARNESS = TOP / 'rust/wasm32'
PACKAGE = OUT / 'package'


def heads_of(name: str) -> list[str]:
    """Returns the items that are left out of a file with a name of `LEFT_OUT`."""
    return [head for (file, _), heads in LEFT_OUT.items() if file == name for head in heads]


def copy(path: pathlib.Path, name: str, module: list[str]) -> Copy:
    """Returns the copy of a file of tests, whose module has this path."""
    try:
        return Copy(without(path.read_text(encoding='utf-8'), heads_of(name)), module)
    except Unknown as error:
        raise Unknown(f'{path.relative_to(TOP)}: {error}') from error


class CopiedFile(NamedTuple):
    """A copy of a file, and its path in rust/tests."""

    path: str
    copy: Copy


def copies(folder: str, root: list[str]) -> Iterator[CopiedFile]:
    """Yields the copies of the files of a folder but main.rs; `root` is the path of its module."""
    left_out = [*heads_of(f'{folder}/main'), *heads_of(f'{folder}/mod')]
    for path in sorted((TESTS / folder).rglob('*.rs')):
        relative = path.relative_to(TESTS / folder)
        parts = relative.with_suffix('').parts
        if parts != ('main',) and f'mod {parts[0]}' not in left_out:
            yield CopiedFile(f'{folder}/{relative}', copy(path, '/'.join([folder, *parts]), [*root, *(part for part in parts if part != 'mod')]))


def write(path: pathlib.Path, text: str) -> None:
    """Writes a file, unless it has this text: Cargo compiles what is newer."""
    path.parent.mkdir(parents=True, exist_ok=True)
    if not path.is_file() or path.read_text(encoding='utf-8') != text:
        path.write_text(text, encoding='utf-8')


def folder(name: str, root: list[str]) -> list[str]:
    """Writes the copies of the files of a folder but main.rs, and returns the paths of their
    tests."""
    tests: list[str] = []
    for path, copied in copies(name, root):
        write(PACKAGE / 'tests' / path, f'{copied.head}\n#[allow(unused_imports)]\n{copied.body}')
        tests += copied.tests
    return tests


def program(name: str) -> list[str]:
    """Writes the copy of a test program, whose root has the harness and the list of its tests, and
    returns their names."""
    main = HARNESS / 'limits.rs' if name == 'limits' else TESTS / name / 'main.rs'
    root = copy(main, f'{name}/main', [])
    tests = root.tests + folder(name, [])
    for used in re.findall(r'^#\[path = "\.\./(\w+)/mod\.rs"\]$', main.read_text(encoding='utf-8'), re.M):
        tests += folder(used, [used])
    names = [test.removeprefix('crate::') for test in tests]
    rows = ''.join(f'    ("{test}", || harness::Outcome::check(crate::{test}())),\n' for test in names)
    lines = [
        root.head,
        '#![no_std]',
        '#![allow(dead_code, unused_imports)]',
        '#[macro_use]',
        'extern crate alloc as alloc_crate;',
        f'#[path = "{HARNESS}/harness.rs"]',
        'mod harness;',
        root.body,
        f'const TESTS: &[(&str, fn())] = &[\n{rows}];\n',
    ]
    write(PACKAGE / 'tests' / name / 'main.rs', '\n'.join(lines))
    return [f'{name}::{test}' for test in names]


def check_lists() -> None:
    """Stops unless every folder of rust/tests is in a list, and the files of `LEFT_OUT` are
    there."""
    folders = {path.name for path in TESTS.iterdir() if path.is_dir()} | {'limits'}
    listed = {*PROGRAMS, *SHARED, *NEED_PROCESSES}
    files = {name for name, _ in LEFT_OUT if not (TESTS / f'{name}.rs').is_file()}
    if folders != listed or files:
        raise Unknown(f'the lists of this tool and rust/tests differ: {", ".join(sorted((folders ^ listed) | files))}')


MANIFEST = f'''[package]
name = "dolzhytik-wasm32"
version = "0.1.0"
edition = "2024"
autoexamples = false
autotests = false

[lib]
path = "lib.rs"

[dependencies]
dolzhytik = {{ path = "{TOP}/rust", default-features = false, features = ["recipe"] }}

[workspace]

# Tests find a sum of `usize` that overflows. They are compiled in a quarter of the time without
# optimizations.
[profile.release]
panic = "abort"
opt-level = 0
overflow-checks = true
debug-assertions = true

[profile.release.package.dolzhytik]
opt-level = 1
'''


def package(names: list[str]) -> list[str]:
    """Writes a package of the test programs, and returns the names of their tests."""
    check_lists()
    tests = [test for name in names for test in program(name)]
    for name in SHARED:
        folder(name, [name])
    manifest = MANIFEST
    for name in names:
        manifest += f'\n[[example]]\nname = "{name}"\npath = "tests/{name}/main.rs"\ncrate-type = ["cdylib"]\n'
    write(PACKAGE / 'lib.rs', '#![no_std]\n')
    write(PACKAGE / 'Cargo.toml', manifest)
    return tests
