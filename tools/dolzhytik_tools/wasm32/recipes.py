"""Assembles random recipes by the native program `wasmrow` and by `assemble` of the JavaScript
package, for tools/wasm32.

tools/both-builds makes the recipes. The modules, and the lines and causes of errors, must be
equal. The recipes and the native results are kept in rust/target/wasm32/recipes while the
program and the generator stay the same.
"""
from __future__ import annotations

import concurrent.futures
import hashlib
import itertools
import json
import os
import random
import shutil
import subprocess
from typing import NamedTuple

from .. import both_builds
from ..repository import TOP
from .target import OUT, TARGET, cargo

COUNT = 10000
GENERATOR = TOP / 'tools/dolzhytik_tools/both_builds.py'
WASMROW = TOP / 'rust/target/release/wasmrow'
WEB = TOP / 'rust/web'
FOLDER = OUT / 'recipes'


class Assembled(NamedTuple):
    """A recipe, and what `wasmrow` writes: a module in hexadecimal digits, or an error."""

    recipe: str
    written: str


def is_utf8(recipe: bytes) -> bool:
    try:
        return recipe.decode() is not None
    except UnicodeDecodeError:
        return False


def assembled() -> list[Assembled]:
    """Assembles random recipes by `wasmrow`.

    They are UTF-8, since the JavaScript function takes a string.
    """
    rng = random.Random(1)
    made = (both_builds.recipe_of(rng) for _ in itertools.count())
    recipes = list(itertools.islice(filter(is_utf8, made), COUNT))
    with concurrent.futures.ThreadPoolExecutor(os.cpu_count()) as pool:
        answers = pool.map(lambda recipe: both_builds.answer_of(str(WASMROW), [], recipe), recipes)
        return [Assembled(recipe.decode(), (it.out + it.error).decode()) for recipe, it in zip(recipes, answers)]


def native() -> list[Assembled]:
    """Builds `wasmrow`, and returns the assembled recipes, which are kept."""
    words = ['--release', '--bin', 'wasmrow', '--features', 'programs', '--manifest-path', str(TOP / 'rust/Cargo.toml')]
    subprocess.run(['cargo', 'build', *words, '--target-dir', str(TOP / 'rust/target')], check=True)
    key = hashlib.sha256(WASMROW.read_bytes() + GENERATOR.read_bytes()).hexdigest()
    kept = FOLDER / f'{key}.json'
    if not kept.is_file():
        written = json.dumps(assembled())
        shutil.rmtree(FOLDER, ignore_errors=True)
        FOLDER.mkdir(parents=True)
        kept.write_text(written, encoding='utf-8')
    return [Assembled(*it) for it in json.loads(kept.read_text(encoding='utf-8'))]


def in_node(recipes: list[str]) -> list[str]:
    """Returns what the JavaScript package returns for each recipe, as `wasmrow` writes it."""
    cargo('build', '--locked', '--manifest-path', str(WEB / 'Cargo.toml'))
    folder = OUT / 'web'
    folder.mkdir(exist_ok=True)
    shutil.copyfile(OUT / TARGET / 'release/dolzhytik_web.wasm', folder / 'dolzhytik.wasm')
    for file in [WEB / 'package.json', *WEB.glob('*.js')]:
        shutil.copyfile(file, folder / file.name)
    command = ['node', TOP / 'rust/wasm32/recipes.mjs', folder / 'node.js']
    ran = subprocess.run(command, input=json.dumps(recipes), stdout=subprocess.PIPE, encoding='utf-8', check=True)
    return json.loads(ran.stdout)


def compared(natively: list[Assembled]) -> bool:
    """Compares the results in node with those of `native`, and returns whether they are equal."""
    found = in_node([recipe for recipe, _ in natively])
    different = [(recipe, answer, expected) for (recipe, expected), answer in zip(natively, found) if answer != expected]
    for recipe, answer, expected in different[:5]:
        print(f'recipes: {recipe!r}: {answer!r} in node, and {expected!r} natively')
    errors = [expected for _, expected in natively if expected.startswith('line ')]
    causes = ', '.join(sorted({error.split(': ')[1].strip() for error in errors}))
    modules = len(natively) - len(errors)
    print(f'recipes: {len(found)}, of them {modules} modules, the others: {causes}; {len(different)} differences')
    return not different and len(found) == COUNT and modules > 0 and len(errors) > 0
