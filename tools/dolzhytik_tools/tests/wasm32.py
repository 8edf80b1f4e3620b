"""Tests of tools/wasm32: copies of tests, a machine without a compiler, and apt's lists that lack
one."""
from __future__ import annotations

import functools
import os
import pathlib
import shutil
import subprocess
import sys
import tempfile
from collections.abc import Callable

from ..repository import TOP
from ..wasm32.copies import PRELUDE, Copy, Unknown, without
from ..wasm32.target import replace_links
from .report import run_all

TESTS = '''//! Tests.
#![allow(dead_code)]

use std::cell::Cell;

#[cfg(test)]
mod others;

#[test]
fn first() -> R<()> {
    ::std::assert!(true);
}

mod inner {
    #[test]
    fn second() {}
}

macro_rules! both {
    ($($name:ident)*) => {
        mod deeper {
            fn f() {}
        }

        #[test]
        fn third() {}
    };
}

pub mod last {
    pub mod within {
        /// A test.
        #[test]
        fn fourth() {}
    }
}
'''

COPY = f'''{PRELUDE}
use crate::harness::std::cell::Cell;

pub(crate) mod others;

pub(crate) fn first() -> R<()> {{
    crate::harness::std::assert!(true);
}}

pub(crate) mod inner {{ {PRELUDE}
    pub(crate) fn second() {{}}
}}
'''

ITEMS = '''use some::{Gone, Kept, Lost};
const LONG: usize = 1;
const LIST: [u8; 2] = [
    1,
];

/// What it is.
#[allow(dead_code)]
pub fn called(
    text: &str,
) {
    let x = 1;
}

mod inner {
    /// A test.
    #[test]
    fn called_too() {
        called("");
    }

    fn kept() {}
}
pub use other::{A, B};
'''

# Stand-ins. The compiler has the target in `lib`. apt's lists lack the package, and newer ones have
# it.
STAND_INS = {
    'cargo': 'exit 0',
    'rustc': 'echo "$PWD/lib"',
    'wasm-ld': 'exit 0',
    'node': 'exit 0',
    'apt-get': '''echo "apt-get $*" >>calls
case "$*" in
    *" update") touch updated ;;
    *" download "*) touch rustc-web_2.deb ;;
esac''',
    'apt-cache': '''case "$*" in
    *Dir::State=*) printf 'Package: rustc-web\\nVersion: %s\\nDepends: libc6, libstd-rust-web-dev (= 2)\\n' "$VERSION" ;;
esac''',
}


class Room:
    """A folder with the tools, and a PATH with stand-ins alone."""

    def __init__(self, path: str):
        self.path = pathlib.Path(path)
        self.bin = self.path / 'bin'
        self.bin.mkdir()
        for name in ('tools', 'rust/wasm32', 'rust/tests'):
            shutil.copytree(TOP / name, self.path / name, ignore=shutil.ignore_patterns('__pycache__'))
        for name in ('sh', 'touch'):
            (self.bin / name).symlink_to(shutil.which(name))
        (self.path / 'lib').mkdir()
        (self.path / 'lib/libcore-1.rlib').touch()

    def stand_in(self, *names: str) -> None:
        """Puts stand-ins on the PATH."""
        for name in names:
            (self.bin / name).write_text(f'#!/bin/sh\n{STAND_INS[name]}\n')
            (self.bin / name).chmod(0o755)

    def run(self, *words: str, **more: str) -> tuple[int, str]:
        """Returns the status of a command and what it prints, its errors too."""
        env = {**os.environ, 'PATH': str(self.bin), 'PYTHONDONTWRITEBYTECODE': '1', **more}
        ran = subprocess.run([sys.executable, *words], cwd=self.path, env=env, stdout=subprocess.PIPE, stderr=subprocess.STDOUT, text=True)
        return ran.returncode, ran.stdout


def copies(_: Room) -> None:
    """A copy has the tests as functions, and their paths."""
    copy = Copy(TESTS, ['a', 'b'])
    assert copy.head == '//! Tests.\n#![allow(dead_code)]\n', copy.head
    assert copy.body.startswith(COPY), copy.body
    assert copy.tests == ['crate::a::b::first', 'crate::a::b::inner::second', 'crate::a::b::third', 'crate::a::b::last::within::fourth'], copy.tests


def items_left_out(_: Room) -> None:
    """Listed items are left out."""
    heads = ['Gone of use some', 'Lost of use some', 'const LONG', 'const LIST', 'fn called', 'fn called_too', 'use other']
    text = without(ITEMS, heads)
    assert text == 'use some::{Kept};\n\n\nmod inner {\n\n    fn kept() {}\n}\n', text


def unknown_forms(_: Room) -> None:
    """An unknown form stops the copy."""
    heads = [(ITEMS, ['fn none']), (ITEMS, ['None of use some']), (ITEMS + ITEMS, ['fn called'])]
    for text, heads in [*heads, ('#[test]\nconst X: u8 = 1;', []), ('#[test]\n#[ignore]\nfn f() {}', [])]:
        try:
            Copy(without(text, heads), [])
        except Unknown:
            continue
        raise AssertionError(text)


def not_run(room: Room) -> None:
    """One line reports the program that is missing."""
    for lacks, name in (('no cargo', 'cargo'), ('no rust-lld and no wasm-ld', 'wasm-ld'), ('apt gives no rustc-web', 'rustc'), ('no node', None)):
        status, said = room.run('tools/wasm32')
        assert status == 77 and said.count('\n') == 1 and said.startswith('wasm32: not run: ') and lacks in said, (status, said)
        if name:
            room.stand_in(name)
    status, said = room.run('tools/wasm32', 'none')
    assert status == 2 and 'tools/wasm32 PROGRAM..' in said, (status, said)


def newer_lists(room: Room) -> None:
    """apt fetches newer lists once if its own lack the package."""
    room.stand_in(*STAND_INS)
    program = 'import sys; sys.path.insert(0, "tools"); import pathlib; from dolzhytik_tools.wasm32 import target; print(target.fetched(pathlib.Path.cwd()))'
    for version, is_fetched, commands in (('1.9.0', 'False', ['update']), ('2.0.1', 'True', ['update', 'download'])):
        (room.path / 'calls').unlink(missing_ok=True)
        assert room.run('-c', program, VERSION=version) == (0, f'{is_fetched}\n')
        calls = (room.path / 'calls').read_text().splitlines()
        assert [next(word for word in call.split() if word in ('update', 'download')) for call in calls] == commands, calls
    assert calls[-1].endswith('download rustc-web rust-web-src libstd-rust-web-dev') and 'Dir::State=' in calls[-1], calls


def links_replaced(room: Room) -> None:
    """The sysroot has no links: those to files are files, and others are gone."""
    folder = room.path / 'sysroot'
    (folder / 'lib').mkdir(parents=True)
    (folder / 'lib/file').write_text('text')
    for link, target in (('lib/same', 'file'), ('folder', 'lib'), ('lib/none', 'gone')):
        (folder / link).symlink_to(target)
    replace_links(folder)
    left = sorted(str(path.relative_to(folder)) for path in folder.rglob('*'))
    assert left == ['lib', 'lib/file', 'lib/same'], left
    assert not (folder / 'lib/same').is_symlink() and (folder / 'lib/same').read_text() == 'text'


def lists_of_the_tool(room: Room) -> None:
    """A folder of tests that no list names is an error, and so is a test that is not there."""
    room.stand_in('cargo', 'rustc', 'node')
    (room.path / 'rust/tests/new').mkdir()
    status, said = room.run('tools/wasm32', 'limits')
    assert status == 1 and said == 'wasm32: the lists of this tool and rust/tests differ: new\n0 passed, 1 failed\n', (status, said)
    (room.path / 'rust/tests/new').rmdir()
    moved = room.path / 'rust/tests/drop_in/moved.rs'
    moved.write_text(moved.read_text().replace('the_page_shows_these_programs', 'renamed'))
    status, said = room.run('tools/wasm32', 'drop_in')
    assert status == 1 and 'drop_in/moved.rs: 0 items begin with `fn the_page_shows_these_programs`\n' in said, (status, said)


ALL = [copies, items_left_out, unknown_forms, not_run, newer_lists, links_replaced, lists_of_the_tool]


def in_a_room(test: Callable[[Room], None]) -> Callable[[], None]:
    """Returns the test with a room of its own."""
    @functools.wraps(test)
    def run() -> None:
        with tempfile.TemporaryDirectory(prefix='wasm32-test-') as path:
            test(Room(path))
    return run


def main() -> int:
    """Runs the tests."""
    return run_all('wasm32-test', [in_a_room(test) for test in ALL])
