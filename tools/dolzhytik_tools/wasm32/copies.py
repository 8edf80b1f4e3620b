"""Turns a file of Rust tests into one that needs no std, for tools/wasm32.

`#[test]` needs std, so the copy has plain functions, whose paths it lists. Paths of `std` become
paths of the harness (rust/wasm32/harness.rs), and each module uses the prelude of the harness.
The file is laid out as rustfmt does it.
"""
from __future__ import annotations

import re
from collections.abc import Iterator
from typing import NamedTuple

TEST = '#[test]'
PRELUDE = 'use crate::harness::prelude::*;'
STD = re.compile(r'(?:(?<!\w)::)?\bstd::')
HEAD = re.compile(r'$|//(?!/)|#!\[')
MODULE = re.compile(r'( *)(?:pub )?mod (\w+)( \{|;)$')
FUNCTION = re.compile(r' *fn (\w+)\(')
NOT_RUN_AS_IT_IS = re.compile(r'#\[(?:ignore|should_panic)\b')


class Unknown(Exception):
    """A text that the tool cannot copy."""


class Inner(NamedTuple):
    """A module within the file: its indentation and its name."""

    indent: str
    name: str


def first(lines: list[str], head: str) -> int:
    """Returns the number of the one line that begins an item, such as `fn name`."""
    heads = [number for number, line in enumerate(lines) if re.match(rf' *(?:pub )?{head}\b', line)]
    if len(heads) != 1:
        raise Unknown(f'{len(heads)} items begin with `{head}`')
    return heads[0]


def item(lines: list[str], head: str) -> slice:
    """Returns the range of lines of an item, with its attributes and comments."""
    begin = last = first(lines, head)
    indent = re.match(' *', lines[begin])[0]
    while re.match(rf'{indent}(?:#\[|///)', lines[begin - 1]):
        begin -= 1
    while not re.match(rf'{indent}(?:\}}|\S.*[;}}])$', lines[last]):
        last += 1
    return slice(begin, last + 1)


def without_name(line: str, name: str) -> str:
    """Returns a `use` of one line without a name in its list."""
    shorter = re.sub(rf'\b{name}, |, {name}\b', '', line, count=1)
    if shorter == line:
        raise Unknown(f'there is no {name} in `{line.strip()}`')
    return shorter


def without(text: str, heads: list[str]) -> str:
    """Returns the text of a file without the items that begin so, and the names of the form `name
    of use path`."""
    lines = text.split('\n')
    for head in heads:
        name, _, use = head.rpartition(' of ')
        if name:
            number = first(lines, use)
            lines[number] = without_name(lines[number], name)
        else:
            del lines[item(lines, head)]
    return '\n'.join(lines)


class Copy:
    """The copy of a text, whose module has this path, and the paths of its tests."""

    def __init__(self, text: str, path: list[str]):
        self.path = ['crate', *path]
        self.inner: list[Inner] = []
        self.tests: list[str] = []
        lines = text.split('\n')
        head = next((number for number, line in enumerate(lines) if not HEAD.match(line)), len(lines))
        self.head = '\n'.join(lines[:head])
        self.body = '\n'.join([PRELUDE, *self.turned(lines[head:])])
        if len(self.tests) != text.count(TEST) or NOT_RUN_AS_IT_IS.search(text):
            raise Unknown('a test of an unknown form')

    def turned(self, lines: list[str]) -> Iterator[str]:
        """Yields the lines of the copy."""
        is_test = False
        for line in lines:
            line = STD.sub('crate::harness::std::', line)
            if line.strip() == TEST:
                is_test = True
            elif is_test and FUNCTION.match(line):
                is_test = False
                yield self.test(line)
            elif line.strip() != '#[cfg(test)]':
                yield self.module(line)

    def test(self, line: str) -> str:
        """Lists a test, and returns the head of a function that the root can call."""
        names = [it.name for it in self.inner]
        self.tests.append('::'.join([*self.path, *names, FUNCTION.match(line)[1]]))
        return line.replace('fn', 'pub(crate) fn', 1)

    def module(self, line: str) -> str:
        """Returns a line. A module that it declares is visible to the root, and uses the
        prelude."""
        if self.inner and line == self.inner[-1].indent + '}':
            self.inner.pop()
        declared = MODULE.match(line)
        if not declared:
            return line
        indent, name, end = declared.groups()
        if end == ';':
            return f'{indent}pub(crate) mod {name};'
        self.inner.append(Inner(indent, name))
        return f'{indent}pub(crate) mod {name} {{ {PRELUDE}'
