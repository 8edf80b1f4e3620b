"""Finds or makes a compiler for wasm32-unknown-unknown: rustup's, where that target is installed,
or one of Debian's packages.

Debian's rustc-web is unpacked, not installed, and core and alloc are compiled from its source,
which takes a minute once. Where apt's lists lack the package, or name one that is gone, newer
lists are fetched into a folder of their own. All that is made is in rust/target/wasm32. There is
no std.
"""
from __future__ import annotations

import os
import pathlib
import re
import shutil
import subprocess

from ..repository import TOP

OUT = TOP / 'rust/target/wasm32'
TARGET = 'wasm32-unknown-unknown'
OLDEST_RUSTC = (1, 88)
# What apt makes. It gives up soon where there is no network: in each request, and as a whole.
APT = OUT / 'apt'
APT_OPTIONS = {
    'Acquire::Retries': '0',
    'Acquire::http::Timeout': '10',
    'Acquire::https::Timeout': '10',
    'Dir::Cache': f'{APT}/cache',
    'Dir::Cache::pkgcache': 'pkgcache.bin',
    'Dir::Cache::srcpkgcache': 'srcpkgcache.bin',
}
OWN_LISTS = {'Dir::State': f'{APT}/state', 'Dir::State::status': '/var/lib/dpkg/status'}
LISTS_SECONDS = 120
PACKAGES_SECONDS = 600


class NotRun(Exception):
    """The reason why nothing can run here."""


def ran(*words: str, seconds: int = 60, cwd: pathlib.Path | None = None) -> str | None:
    """Returns the output of a command, or None if it fails, is missing or takes too long."""
    env = {**os.environ, 'LC_ALL': 'C'}
    try:
        return subprocess.run(words, capture_output=True, text=True, check=True, timeout=seconds, cwd=cwd, env=env).stdout
    except (OSError, subprocess.SubprocessError):
        return None


def output(*words: str) -> str:
    """Returns the output of a command, or an empty text if it fails."""
    return ran(*words) or ''


def compiler() -> dict[str, str]:
    """Returns the variables by which Cargo finds a compiler and a linker of the target."""
    if not shutil.which('cargo'):
        raise NotRun('there is no cargo')
    folder = output('rustc', '--print', 'target-libdir', '--target', TARGET).strip()
    if folder and list(pathlib.Path(folder).glob('libcore-*.rlib')):
        return {}
    return {**linker(), 'RUSTC': str(debian())}


def linker() -> dict[str, str]:
    """Returns the variable of the linker: of the rustc on the path, or the newest wasm-ld."""
    lines = output('rustc', '-vV').split('\n')
    host = next((line[6:] for line in lines if line.startswith('host: ')), '')
    own = pathlib.Path(output('rustc', '--print', 'sysroot').strip()) / f'lib/rustlib/{host}/bin/rust-lld'
    newest = [f'wasm-ld-{version}' for version in range(40, 13, -1)]
    found = [path for path in map(shutil.which, [str(own), *newest, 'wasm-ld']) if path]
    if not found:
        raise NotRun('there is no rust-lld and no wasm-ld')
    return {'CARGO_TARGET_WASM32_UNKNOWN_UNKNOWN_LINKER': found[0]}


def debian() -> pathlib.Path:
    """Returns a rustc with core and alloc for the target, of Debian's packages. It is kept."""
    folder = OUT / 'sysroot'
    rustc = folder / 'rustc'
    if rustc.exists():
        return rustc
    # What was compiled over other libraries does not fit these.
    shutil.rmtree(OUT / TARGET, ignore_errors=True)
    shutil.rmtree(folder, ignore_errors=True)
    folder.mkdir(parents=True)
    are_fetched = fetched(folder)
    shutil.rmtree(APT, ignore_errors=True)
    if not are_fetched:
        oldest = '.'.join(map(str, OLDEST_RUSTC))
        raise NotRun(f'rustup has no target {TARGET}, and apt gives no rustc-web {oldest} or newer')
    for package in folder.glob('*.deb'):
        subprocess.run(['dpkg', '-x', package, folder / 'root'], check=True)
        package.unlink()
    return sysroot(folder)


def apt(command: str, *words: str, options: dict[str, str] = APT_OPTIONS, seconds: int = 60, cwd: pathlib.Path | None = None) -> str | None:
    """Returns the output of a command of apt with these options, or None if it fails."""
    given = [word for name, value in options.items() for word in ('-o', f'{name}={value}')]
    return ran(command, '-q', *given, *words, seconds=seconds, cwd=cwd)


def fetched(folder: pathlib.Path) -> bool:
    """Downloads the packages, by apt's lists or newer ones of its own, and returns whether they are
    there."""
    for made in ('state/lists/partial', 'cache/archives/partial'):
        (APT / made).mkdir(parents=True, exist_ok=True)
    if downloaded(folder, APT_OPTIONS):
        return True
    options = APT_OPTIONS | OWN_LISTS
    apt('apt-get', 'update', options=options, seconds=LISTS_SECONDS)
    return downloaded(folder, options)


def downloaded(folder: pathlib.Path, options: dict[str, str]) -> bool:
    """Downloads the packages, and returns whether they are there."""
    names = packages(options)
    for left_over in folder.glob('*.deb'):
        left_over.unlink()
    return bool(names) and apt('apt-get', 'download', *names, options=options, seconds=PACKAGES_SECONDS, cwd=folder) is not None


def packages(options: dict[str, str]) -> list[str]:
    """Returns the packages of the compiler, of its libraries and of its source, or none if apt
    knows no compiler that is new enough."""
    wanted: list[str] = []
    new = ['rustc-web', 'rust-web-src']
    while new:
        shown = apt('apt-cache', 'show', '--no-all-versions', *new, options=options) or ''
        version = re.search(r'^Package: rustc-web\n(?:.+\n)*?Version: (\d+)\.(\d+)\.', shown, re.M)
        if not wanted and (not version or tuple(map(int, version.groups())) < OLDEST_RUSTC):
            return []
        wanted += new
        depends = ' '.join(re.findall(r'^Depends: (.*)$', shown, re.M))
        new = sorted(set(re.findall(r'\blib(?:std-rust|llvm)[-\w.+]*', depends)) - set(wanted))
    return wanted


def sysroot(folder: pathlib.Path) -> pathlib.Path:
    """Compiles the libraries of the target from the unpacked source, and writes a rustc that uses
    them."""
    usr = folder / 'root/usr'
    source = next(usr.glob('src/rustc-*/library'))
    libraries = folder / 'made/lib/rustlib' / TARGET / 'lib'
    libraries.mkdir(parents=True)
    paths = ':'.join(str(path) for path in [*usr.glob('lib/*-linux-gnu'), usr / 'lib'])
    env = {**os.environ, 'LD_LIBRARY_PATH': paths, 'RUSTC_BOOTSTRAP': '1'}
    options = ['--edition', '2024', '--crate-type', 'rlib', '--target', TARGET, '-C', 'opt-level=3', '-C', 'panic=abort']
    options += ['-Z', 'force-unstable-if-unmarked', '--cap-lints', 'allow', '-L', libraries, '--out-dir', libraries]
    built = ['compiler-builtins/compiler-builtins', '--cfg', 'feature="compiler-builtins"', '--cfg', 'feature="mem"']
    for path, *words in [['core'], built, ['alloc']]:
        name = path.split('/')[-1].replace('-', '_')
        print(f'wasm_target: compiling {name}', flush=True)
        subprocess.run([usr / 'bin/rustc', *options, '--crate-name', name, *words, source / path / 'src/lib.rs'], env=env, check=True)
    rustc = folder / 'rustc'
    paths = paths.replace(str(folder), '$here')
    command = f'LD_LIBRARY_PATH="{paths}" exec "$here/root/usr/bin/rustc" --sysroot "$here/made" "$@"'
    rustc.write_text(f'#!/bin/sh\nhere=$(dirname "$(readlink -f "$0")")\n{command}\n')
    rustc.chmod(0o755)
    shutil.rmtree(usr / 'src')
    replace_links(folder)
    return rustc


def replace_links(folder: pathlib.Path) -> None:
    """Puts files in the place of links to them, and removes other links: `rt ci` rejects links in
    the repository."""
    for link in [path for path in folder.rglob('*') if path.is_symlink()]:
        file = link.resolve()
        link.unlink()
        if file.is_file():
            shutil.copy(file, link)


def cargo(command: str, *words: str, flags: tuple[str, ...] = ()) -> None:
    """Runs a command of Cargo for the target, in release, with flags of rustc."""
    env = compiler()
    flavor = ('-C', 'linker-flavor=wasm-ld') if 'RUSTC' in env else ()
    given = {'RUSTFLAGS': ' '.join([*flavor, *flags])} if flavor or flags else {}
    env = {**os.environ, **env, **given, 'CARGO_TARGET_DIR': str(OUT), 'CARGO_NET_OFFLINE': 'true'}
    subprocess.run(['cargo', command, '--release', '--target', TARGET, *words], env=env, check=True)
