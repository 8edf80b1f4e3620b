"""Compares two builds of `wasmrow` on random recipes and modules."""
from __future__ import annotations

import argparse
import concurrent.futures
import os
import random
import subprocess
from collections.abc import Iterable, Sequence
from typing import NamedTuple

WORDS = ['type', 'func', 'memory', 'global', 'export', 'start', 'body', 'data', 'name', 'Body', 'table']
KINDS = ['func', 'table', 'memory', 'global', 'tag', 'Func', 'type']
TYPES = ['600000', '60017f017f', '6002 7f7f 00', '5e7f00', '60027f7e027d7c', '5f00']
BODIES = ['0b', '200020016a0b', '41000b', '027f41010b0b', '4180808080780b', '0', '2000zz0b', '', 'fc0a00000b', '43000080ff0b', '1f', '0b0b']
PLACES = ['0', '1', '-1', '65536', '2147483647', '-2147483648', '2147483648', '4294967295', '4294967296', '18446744073709551615', '18446744073709551616', '+1', '0x10',
          '007', '-', '1_000', '']
TEXTS = ['a', 'main', 'add one', '  spaces  ', 'na\u00efve', '\u65e5\u672c', 'x' * 127, 'y' * 128, 'z' * 300, '\u0000', '']


def line_of(rng: random.Random) -> str:
    """Returns a line: a command with its arguments, at times with others, with one more or one
    less."""
    command = rng.choice(WORDS[:9]) if rng.random() < 0.93 else rng.choice(WORDS)
    number = rng.choice(PLACES) if rng.random() < 0.3 else str(rng.randrange(1 << rng.randrange(1, 40)))
    data = ''.join(rng.choice('0123456789abcdefABCDEF') for _ in range(2 * rng.randrange(40)))
    words = {
        'type': [rng.choice(TYPES)],
        'export': [rng.choice(TEXTS).replace(' ', '_') or 'e', rng.choice(KINDS[:5]) if rng.random() < 0.95 else rng.choice(KINDS), number],
        'body': [rng.choice(BODIES) if rng.random() < 0.3 else data],
        'data': [number, data],
        'name': [rng.choice(TEXTS)],
    }.get(command, [number])
    if rng.random() < 0.02:
        words = words[:-1]
    if rng.random() < 0.05:
        words.append('more')
    return rng.choice([' ', ' ', ' ', '  ']).join([command, *words])


def recipe_of(rng: random.Random) -> bytes:
    """Returns a recipe: lines, at times empty ones, with either line end, and at times bytes that
    are not UTF-8."""
    lines = [line_of(rng) if rng.random() < 0.95 else '' for _ in range(rng.choice([0, 1, 1, 2, 3, 5, 8, 13, 40]))]
    text = rng.choice(['\n', '\n', '\n', '\r\n']).join(lines).encode()
    if rng.random() < 0.03:
        at = rng.randrange(len(text) + 1)
        text = text[:at] + bytes([rng.randrange(128, 256)]) + text[at:]
    return text + rng.choice([b'\n', b'\n', b''])


def changed(rng: random.Random, text: bytes) -> bytes:
    """Returns the hexadecimal text of a module, mostly with a few other digits."""
    digits = bytearray(text)
    for _ in range(rng.choice([0, 0, 1, 1, 2, 4])):
        at = rng.randrange(len(digits) + 1)
        digits[at:at + rng.randrange(3)] = bytes(rng.choice(b'0123456789abcdef') for _ in range(rng.randrange(3)))
    return bytes(digits)


class Answer(NamedTuple):
    """The output of a program, its errors and its status."""

    out: bytes
    error: bytes
    status: int


def answer_of(program: str, words: Sequence[str], text: bytes) -> Answer:
    """Runs a program on a text."""
    done = subprocess.run([program, *words], input=text, stdout=subprocess.PIPE, stderr=subprocess.PIPE, timeout=60)
    return Answer(done.stdout, done.stderr, done.returncode)


def compared(programs: Sequence[str], words: Sequence[str], text: bytes) -> tuple[Answer, bool]:
    """Returns the answer of the first program, and whether that of the second is the same."""
    answers = [answer_of(program, words, text) for program in programs]
    if answers[0] != answers[1]:
        print(f'both-builds: {" ".join(words)} {text!r}: {tuple(answers[0])} and {tuple(answers[1])}')
    return answers[0], answers[0] == answers[1]


def tried(programs: Sequence[str], words: Sequence[str], texts: Iterable[bytes]) -> tuple[list[Answer], int]:
    """Returns the answers to the texts, and how many differ."""
    with concurrent.futures.ThreadPoolExecutor(os.cpu_count()) as pool:
        outcomes = list(pool.map(lambda text: compared(programs, words, text), texts))
    return [answer for answer, _ in outcomes], sum(not same for _, same in outcomes)


def main(usage: str) -> int:
    """Runs the command. `usage` is the head of its script."""
    parser = argparse.ArgumentParser(description=usage.split('\n', 1)[0])
    parser.add_argument('--recipes', type=int, default=10000)
    parser.add_argument('--seed', type=int, default=1)
    parser.add_argument('programs', nargs=2, metavar='PROGRAM')
    given = parser.parse_args()
    rng = random.Random(given.seed)
    recipes = [recipe_of(rng) for _ in range(given.recipes)]
    answers, wrong_recipes = tried(given.programs, [], recipes)
    good = [it.out for it in answers if it.status == 0]
    faults = sorted({it.error.decode().split(':')[-1].strip() for it in answers if it.status})
    print(f'both-builds: {len(recipes)} recipes, {len(good)} of them modules, the others: {", ".join(faults)}; {wrong_recipes} differences')
    modules = [changed(rng, rng.choice(good)) for _ in range(given.recipes // 4)] if good else []
    answers, wrong_modules = tried(given.programs, ['--read'], modules)
    listed = sum(it.status == 0 for it in answers)
    faults = sorted({it.error.decode().split(':')[-1].strip() for it in answers if it.status})
    print(f'both-builds: {len(modules)} modules to read, {listed} of them listed, the others: {", ".join(faults)}; {wrong_modules} differences')
    failed = (wrong_recipes > 0 or not good) + (wrong_modules > 0 or not listed)
    print(f'{2 - failed} passed, {failed} failed')
    return 1 if failed else 0
