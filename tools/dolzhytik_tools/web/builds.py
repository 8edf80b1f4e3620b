"""Builds the module of the JavaScript package, and others to read."""
from __future__ import annotations

import os
import pathlib
import shutil
import subprocess

from ..repository import TOP
from ..wasm32.target import OUT, TARGET, cargo

WEB = TOP / 'rust/web'
MANIFEST = str(WEB / 'Cargo.toml')
MODULE = WEB / 'dolzhytik.wasm'
EXAMPLE = WEB / 'example.wasm'


def native(*words: str) -> str:
    """Runs a command of Cargo for this machine, and returns its output."""
    env = {**os.environ, 'CARGO_TARGET_DIR': str(TOP / 'rust/target'), 'CARGO_NET_OFFLINE': 'true'}
    return subprocess.run(['cargo', *words], env=env, check=True, stdout=subprocess.PIPE, text=True).stdout


def build() -> None:
    """Builds the example of the page, and the module of the package. The example has one call, and
    the names of functions as people read them."""
    named = ['--config', 'profile.release.strip="debuginfo"', '--config', 'profile.release.opt-level="z"']
    readable = ('-C', 'symbol-mangling-version=v0', '-C', 'link-arg=--demangle')
    cargo('build', '--locked', '--manifest-path', MANIFEST, '--features', 'example', *named, flags=readable)
    shutil.copyfile(OUT / TARGET / 'release/dolzhytik_web.wasm', EXAMPLE)
    # Without it the linker pads each number that it writes.
    minimal = ('-C', 'link-arg=--compress-relocations')
    cargo('rustc', '--locked', '--manifest-path', MANIFEST, '--', *minimal)
    shutil.copyfile(OUT / TARGET / 'release/dolzhytik_web.wasm', MODULE)


def modules(folder: pathlib.Path) -> list[pathlib.Path]:
    """Builds the modules that rustc makes of the package: its own, one with debugging information,
    and one for a linker, with relocations."""
    cargo('build', '--locked', '--manifest-path', MANIFEST, '--config', 'profile.release.strip=false', '--config', 'profile.release.debug=2')
    shutil.copyfile(OUT / TARGET / 'release/dolzhytik_web.wasm', folder / 'debug.wasm')
    cargo('rustc', '--locked', '--manifest-path', MANIFEST, '--', '--emit', f'obj={folder / "linked.wasm"}')
    return [MODULE, folder / 'debug.wasm', *folder.glob('linked*.wasm')]
