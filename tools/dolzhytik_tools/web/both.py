"""The JavaScript package and the program, which are called with the same modules and recipes."""
from __future__ import annotations

import json
import pathlib
import random
import subprocess
import tempfile
from collections.abc import Iterator

from ..both_builds import recipe_of
from ..repository import TOP
from .builds import WEB, modules, native
from .outlines import row_of, rows_of

# How often each module is damaged, and how many recipes are assembled.
DAMAGES = 40
RECIPES = 200


def same(call: object, path: pathlib.Path, first: object, second: object) -> bool:
    """Compares two answers, and reports those that differ."""
    if first != second:
        print(f'web: {call} {path}: {str(first)[:300]} and {str(second)[:300]}')
    return first == second


def said(passed: bool, name: str) -> bool:
    """Reports how a test ended, and returns whether it passed."""
    print(f'web: {name}: {"passed" if passed else "failed"}', flush=True)
    return bool(passed)


class Both:
    """The package in node, and the program `dolzhytik`."""

    def __init__(self, folder: pathlib.Path):
        native('build', '--release', '--features', 'programs', '--bins', '--manifest-path', str(TOP / 'rust/Cargo.toml'))
        self.programs = TOP / 'rust/target/release'
        self.node = subprocess.Popen(['node', WEB / 'answer.mjs'], stdin=subprocess.PIPE, stdout=subprocess.PIPE, text=True)
        self.outputs = [folder / 'package.out', folder / 'program.out']

    def close(self) -> None:
        """Ends node."""
        self.node.stdin.close()
        self.node.wait()

    def of_package(self, **request: object) -> dict:
        """Calls the package."""
        print(json.dumps(request), file=self.node.stdin, flush=True)
        return json.loads(self.node.stdout.readline())

    def of_program(self, path: pathlib.Path, *words: str | pathlib.Path) -> tuple[str | None, str | None]:
        """Returns the output of `dolzhytik`, or its message as JavaScript has it: without the names
        of the program and of the file, and with the JavaScript name of the option."""
        done = subprocess.run([self.programs / 'dolzhytik', *words], capture_output=True)
        if done.returncode == 0:
            return done.stdout.decode(), None
        message = done.stderr.decode().removeprefix(f'dolzhytik: {path}: ').removesuffix('\n')
        more = ', --keep-code keeps code and data byte for byte, and --dry-run prints what each saves'
        return None, message.replace('--drop-offsets', 'dropOffsets').replace(more, '')

    def outline(self, path: pathlib.Path) -> bool:
        """Compares outlines of a module."""
        answer = self.of_package(call='outline', input=str(path))
        output, message = self.of_program(path, 'outline', path)
        if message is not None:
            return same('outline', path, answer, {'message': message})
        return same('outline', path, [row_of(section) for section in answer.get('result', [])], rows_of(output))

    def list(self, path: pathlib.Path) -> bool:
        """Compares lists of a module with strict outlines, which report each section that does not
        decode in a line of its own: the package throws the first."""
        answer = self.of_package(call='list', input=str(path))
        output, message = self.of_program(path, 'outline', '--strict', path)
        if message is not None:
            return same('list', path, answer, {'message': message.split('\n')[0]})
        return same('list', path, [row_of(section) for section in answer.get('result', [])], rows_of(output))

    def written(self, path: pathlib.Path, request: dict, words: tuple[str, ...]) -> bool:
        """Compares written modules."""
        first, second = self.outputs
        answer = self.of_package(**request, input=str(path), output=str(first))
        _, message = self.of_program(path, *words, path, '-o', second)
        if message is not None:
            return same([*words], path, answer, {'message': message})
        return same([*words], path, answer, {'result': None}) and same([*words], path, first.read_bytes(), second.read_bytes())

    def with_options(self, path: pathlib.Path, request: dict, words: tuple[str, ...]) -> bool:
        """Compares written modules, and whether there is one. The messages differ, since the options
        do."""
        first, second = self.outputs
        answer = self.of_package(**request, input=str(path), output=str(first))
        _, message = self.of_program(path, *words, path, '-o', second)
        if 'message' in answer or message is not None:
            return same([*words], path, 'message' in answer, message is not None)
        return same([*words], path, first.read_bytes(), second.read_bytes())

    def module(self, path: pathlib.Path) -> bool:
        """Compares the answers of all calls for a module."""
        with_options = [
            self.with_options(path, {'call': 'strip', 'options': {}}, ('strip',)),
            self.with_options(path, {'call': 'strip', 'options': {'all': True}}, ('strip', '--all')),
            self.with_options(path, {'call': 'strip', 'options': {'debug': True}}, ('strip', '--debug')),
            self.with_options(path, {'call': 'minimize', 'keepCode': True}, ('shorten', '--keep-code')),
        ]
        minimal = self.written(path, {'call': 'minimize'}, ('shorten',))
        without_offsets = self.written(path, {'call': 'minimize', 'dropOffsets': True}, ('shorten', '--drop-offsets'))
        return self.outline(path) and self.list(path) and minimal and without_offsets and all(with_options)

    def recipe(self, path: pathlib.Path) -> bool:
        """Compares the modules of a recipe."""
        return self.written(path, {'call': 'assemble'}, ('build',))


def damaged(rng: random.Random, module: bytes) -> bytes:
    """Returns a module with a few other bytes, or that ends early."""
    changed = bytearray(module)
    for _ in range(rng.choice([0, 1, 1, 4])):
        # Mostly before the first body, where the sizes are.
        changed[rng.randrange(min(len(changed), rng.choice([40, 4000, len(changed)])))] = rng.randrange(256)
    return changed[:rng.choice([len(changed), rng.randrange(len(changed))])]


def same_modules(both: Both, folder: pathlib.Path, paths: list[pathlib.Path]) -> Iterator[bool]:
    """Compares the answers for modules and damaged ones."""
    rng = random.Random(1)
    bad = folder / 'damaged.wasm'
    for path in paths:
        module = path.read_bytes()
        same = [both.module(path)]
        for _ in range(DAMAGES):
            bad.write_bytes(damaged(rng, module))
            same.append(both.module(bad))
        yield said(all(same), f'{path.name}, {len(module)} bytes, and {DAMAGES} damaged ones, as the programs have them')


def is_text(recipe: bytes) -> bool:
    try:
        recipe.decode()
    except UnicodeDecodeError:
        return False
    return True


def versions(rng: random.Random) -> bytes:
    """Returns the front of a recipe: for half of them that of version 2, with lines that version 1
    has not, some of which are faulty."""
    lines = [b'memory 1 2', b'table 0 7', b'elem 0 0 1', b'import m f func 0', b'import m g global mut f64', b'locals 2 i64', b'# none', b'memory 1 2 3', b'locals 1 i16']
    if rng.random() < 0.5:
        return b''
    return b'\n'.join([b'version 2', *rng.sample(lines, rng.randrange(4)), b''])


def same_recipes(both: Both, folder: pathlib.Path) -> bool:
    """Compares the modules of random recipes, some of them faulty, half of them of version 2. A
    string of JavaScript is text."""
    rng = random.Random(1)
    random_recipes = (versions(rng) + recipe_of(rng) for _ in range(RECIPES))
    recipes = filter(is_text, random_recipes)
    path = folder / 'recipe'
    same = []
    for recipe in recipes:
        path.write_bytes(recipe)
        same.append(both.recipe(path))
    return said(all(same), f'{len(same)} recipes, as the program has them')


def compared() -> Iterator[bool]:
    """Compares the package and the programs."""
    with tempfile.TemporaryDirectory() as name:
        folder = pathlib.Path(name)
        paths = modules(folder)
        both = Both(folder)
        try:
            yield from same_modules(both, folder, paths)
            yield same_recipes(both, folder)
        finally:
            both.close()
