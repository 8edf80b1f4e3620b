"""Finds arithmetic and casts in Rust, for the table tools/widths.tsv of why each is right where
`usize` has 32 bits.

An expression is listed by the file, the function and its text: each that has `+`, `-`, `*`,
`<<`, a cast to a primitive type, or a call of an integer's method that adds, subtracts,
multiplies or shifts. Its type is not known here: the table says it. Division and remainder are
not listed, since their results are not larger than what is divided.
"""
from __future__ import annotations

import csv
import pathlib
import re
from typing import NamedTuple

from .rattle import lexer

METHODS = re.compile(r'(?:saturating|wrapping|checked|overflowing|strict|unchecked)_\w+|sum|product|pow|next_power_of_two|next_multiple_of')
PRIMITIVE = re.compile(r'[iu](?:8|16|32|64|128|size)|f32|f64|char|_')
TYPE_NAME = re.compile(r'[A-Z]\w*[a-z]\w*')
KEYWORDS = {'as', 'break', 'else', 'if', 'in', 'let', 'match', 'mut', 'ref', 'return', 'while'}
ENDS = KEYWORDS - {'as', 'mut', 'ref'} | {';', '{', '}', ',', '=', '=>', '==', '!=', '<=', '>=', '<', '>', '&&', '||', '..', '..=', '->', ':'}
ASSIGNING = {'+=', '-=', '*=', '<<='}
OPENING = {'(': ')', '[': ']'}
CLOSING = {')': '(', ']': '['}


class Row(NamedTuple):
    """The key of a row of the table."""

    file: str
    function: str
    expression: str


# The type of each expression, and the reason.
Table = dict[Row, tuple[str, str]]


class Expressions:
    """The listed expressions of a file."""

    def __init__(self, text: str):
        self.tokens = [it for it in lexer.words_of(text, lexer.RUST_MARKS) if not lexer.is_comment(it)]
        self.solid = [at for at, it in enumerate(self.tokens) if not it.isspace()]

    def token(self, at: int) -> str:
        return self.tokens[self.solid[at]] if 0 <= at < len(self.solid) else ''

    def rows(self) -> list[tuple[str, str]]:
        """Returns each function's name and listed expression, in the order of the file, once
        each."""
        rows: dict[tuple[str, str], None] = {}
        function = ''
        for at in range(len(self.solid)):
            if self.token(at) == 'fn':
                function = self.token(at + 1)
            elif self.is_listed(at):
                rows[function, self.around(at)] = None
        return list(rows)

    def is_listed(self, at: int) -> bool:
        token = self.token(at)
        if token in ASSIGNING:
            return True
        if token == 'as':
            return bool(PRIMITIVE.fullmatch(self.token(at + 1)))
        if token in ('+', '-', '*'):
            return self.has_left(at) and not (token == '+' and self.is_bound(at))
        if token == '<<':
            return self.token(at + 2) not in ('as', '::', '<')
        return bool(METHODS.fullmatch(token)) and self.token(at - 1) in ('.', '::') and self.token(at + 1) in ('(', '::')

    def has_left(self, at: int) -> bool:
        """Returns whether an operand is before the operator."""
        before = self.token(at - 1)
        return before not in KEYWORDS and bool(re.match(r'''[\w)\]?"']''', before))

    def is_bound(self, at: int) -> bool:
        """Returns whether the `+` joins bounds: a lifetime or the name of a trait is behind it."""
        at += 1
        while self.token(at + 1) == '::':
            at += 2
        name = self.token(at)
        is_trait = bool(TYPE_NAME.fullmatch(name)) and self.token(at + 1) not in ('(', '::', '.')
        return name.startswith("'") or is_trait

    def around(self, at: int) -> str:
        """Returns the largest expression that has the operator outside of its brackets."""
        ends = {';', '{', '}', '=>'} if self.token(at) in ASSIGNING else ENDS
        first, last = at, at
        while self.token(first - 1) and self.token(first - 1) not in ends | set(OPENING):
            first = self.across(first - 1, -1)
        while self.token(last + 1) and self.token(last + 1) not in ends | set(CLOSING):
            last = self.across(last + 1, 1)
        text = ' '.join(''.join(self.tokens[self.solid[first]:self.solid[last] + 1]).split())
        return re.sub(r'(?<=[(\[]) | (?=\.\w)|,? (?=[)\]])', '', text)

    def across(self, at: int, step: int) -> int:
        """Returns the bracket that matches the one at `at` in this direction, or `at` itself."""
        entered, left = (OPENING, CLOSING) if step > 0 else (CLOSING, OPENING)
        depth = 0
        while True:
            depth += (self.token(at) in entered) - (self.token(at) in left)
            if depth == 0:
                return at
            at += step


def table(path: pathlib.Path) -> Table:
    """Reads the table. An expression of `usize` needs a reason."""
    with open(path, encoding='utf-8', newline='') as file:
        lines = [line for line in file if not line.startswith('#')]
    rows = list(csv.DictReader(lines, delimiter='\t', quoting=csv.QUOTE_NONE))
    for row in rows:
        if row['type'] == 'usize' and not row['why']:
            raise SystemExit(f'{path}: no reason: {row["expression"]}')
    return {Row(row['file'], row['function'], row['expression']): (row['type'], row['why']) for row in rows}
