"""The command tools/web."""
from __future__ import annotations

import json
import os
import re
import shutil
import subprocess
import sys
import tempfile
from collections.abc import Sequence

from ..wasm32.target import NotRun
from .both import compared, said
from .builds import MANIFEST, MODULE, WEB, build, native

NOT_RUN = 77
# The size of the module, in bytes.
MOST_BYTES = 260_000


def counted(pattern: str, output: str) -> list[int]:
    """Returns the numbers of tests that passed and failed, which a pattern finds in an output."""
    return [sum(int(number) for number in column) for column in zip(*re.findall(pattern, output, re.M))] or [0, 1]


def rust_tests() -> list[int]:
    """Runs the tests of the Rust modules."""
    output = native('test', '--locked', '--manifest-path', MANIFEST)
    print(output, end='')
    return counted(r'^test result: \w+\. (\d+) passed; (\d+) failed', output)


def node_tests() -> list[int]:
    """Runs the tests in node: those of the calls, and those of the package as npm packs it."""
    scripts = [WEB / 'test.mjs', WEB / 'package-test.mjs']
    done = subprocess.run(['node', '--test', '--test-reporter', 'spec', *scripts], stdout=subprocess.PIPE, text=True)
    print(done.stdout, end='')
    return counted(r'^\S+ pass (\d+)$\n^\S+ fail (\d+)$', done.stdout)


def listed() -> list[str]:
    """Returns the files that package.json lists, and those that npm always publishes."""
    patterns = json.loads((WEB / 'package.json').read_text(encoding='utf-8'))['files']
    files = {path.name for pattern in patterns for path in WEB.glob(pattern)}
    return sorted(files | {'README.md', 'package.json'})


def published() -> bool:
    """Compares the files that npm would publish with those that package.json lists: npm leaves out
    some files, and reads nothing outside of the folder."""
    with tempfile.TemporaryDirectory() as cache:
        env = {**os.environ, 'npm_config_cache': cache, 'npm_config_offline': 'true', 'npm_config_update_notifier': 'false'}
        done = subprocess.run(['npm', 'pack', '--dry-run', '--json'], cwd=WEB, env=env, check=True, stdout=subprocess.PIPE, text=True)
    files = sorted(file['path'] for file in json.loads(done.stdout)[0]['files'])
    return said(files == listed(), f'npm publishes {", ".join(files)}')


def tests() -> list[int]:
    """Runs all tests, and returns the numbers of those that passed and failed."""
    size = MODULE.stat().st_size
    alone = [said(size <= MOST_BYTES, f'dolzhytik.wasm has {size} bytes, of at most {MOST_BYTES}'), published(), *compared()]
    rows = [[sum(alone), len(alone) - sum(alone)], rust_tests(), node_tests()]
    return [sum(column) for column in zip(*rows)]


def main(words: Sequence[str], usage: str) -> int:
    """Runs the command. `usage` is the head of its script."""
    if list(words) not in ([], ['--build']):
        print(usage.split('\n\n')[1], file=sys.stderr)
        return 2
    try:
        missing = [name for name in ['node', 'npm'] if not words and not shutil.which(name)]
        if missing:
            raise NotRun(f'there is no {missing[0]}')
        build()
        if words:
            return 0
        passed, failed = tests()
    except NotRun as reason:
        print(f'web: not run: {reason}')
        return NOT_RUN
    except subprocess.CalledProcessError as error:
        print(error.stdout or '', end='')
        print(f'web: {error.cmd[0]} failed')
        passed, failed = 0, 1
    print(f'{passed} passed, {failed} failed')
    return 1 if failed else 0
