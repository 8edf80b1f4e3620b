"""The command tools/wasm32."""
from __future__ import annotations

import concurrent.futures
import fnmatch
import re
import shutil
import subprocess
import sys
from collections.abc import Sequence

from . import recipes
from .copies import Unknown
from .lists import LEFT_OUT, PROCESS, PROGRAMS, RECIPES, SHOWN
from .package import HARNESS, PACKAGE, package
from .target import OUT, TARGET, NotRun, cargo, compiler

NOT_RUN = 77


def run(names: list[str]) -> tuple[int, int]:
    """Runs test programs, and compares recipes, whose native results are made meanwhile. Returns
    how many tests passed and failed."""
    compiler()
    if not shutil.which('node'):
        raise NotRun('there is no node')
    programs = [name for name in names if name != RECIPES]
    with concurrent.futures.ThreadPoolExecutor(1) as pool:
        natively = pool.submit(recipes.native) if RECIPES in names else None
        passed, failed = run_tests(programs) if programs else (0, 0)
        is_equal = natively and recipes.compared(natively.result())
    if not natively:
        return passed, failed
    return (passed + 1, failed) if is_equal else (passed, failed + 1)


def run_tests(names: list[str]) -> tuple[int, int]:
    """Compiles and runs test programs, and returns how many tests passed and failed."""
    tests = package(names)
    cargo('build', '--examples', '--manifest-path', str(PACKAGE / 'Cargo.toml'))
    modules = [OUT / TARGET / f'release/examples/{name}.wasm' for name in names]
    ran = subprocess.run(['node', HARNESS / 'run.mjs', *modules], stdout=subprocess.PIPE, text=True, check=True)
    print(ran.stdout, end='')
    counts = re.findall(r'^\w+: (\d+) passed, (\d+) failed, \d+ bytes$', ran.stdout, re.M)
    passed, failed = [sum(int(count) for count in column) for column in zip(*counts)]
    if passed + failed != len(tests):
        raise Unknown(f'{passed + failed} tests ran, of {len(tests)}')
    if names == PROGRAMS:
        print(table(tests), end='')
    return passed, failed


def table(tests: list[str]) -> str:
    """Returns lines: the tests of `SHOWN`, and what is left out."""
    lines = []
    for kind, patterns in SHOWN.items():
        counts = [len(fnmatch.filter(tests, pattern)) for pattern in patterns]
        if 0 in counts:
            raise Unknown(f'there is no test {patterns[counts.index(0)]}')
        lines.append(f'wasm32: {kind}: {sum(counts)} tests, {", ".join(patterns)}\n')
    needs = ', '.join(sorted({PROCESS, *(needed for _, needed in LEFT_OUT)}))
    return ''.join([*lines, f'wasm32: left out: tests with {needs}\n'])


def main(words: Sequence[str], usage: str) -> int:
    """Runs the command. `usage` is the head of its script."""
    if any(word not in [*PROGRAMS, RECIPES] for word in words):
        print(usage.split('\n\n')[1], file=sys.stderr)
        return 2
    try:
        passed, failed = run(list(words) or [*PROGRAMS, RECIPES])
    except NotRun as reason:
        print(f'wasm32: not run: {reason}')
        return NOT_RUN
    except Unknown as error:
        print(f'wasm32: {error}')
        passed, failed = 0, 1
    except subprocess.CalledProcessError as error:
        print(f'wasm32: {error.cmd[0]} failed')
        passed, failed = 0, 1
    print(f'{passed} passed, {failed} failed')
    return 1 if failed else 0
