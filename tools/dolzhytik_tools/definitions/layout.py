"""Breaks long lines of terms."""
from __future__ import annotations

from collections.abc import Iterator

# The columns of a block of code in rustdoc, on a screen that is not small.
COLUMNS = 88
# No line is broken before this column, so that a term in many brackets makes progress.
FIRST = 24
# A line is rather broken behind a semicolon, or before an operator that binds less, and before a
# bracket than a word.
OPERATORS = [':', '→', '×', '⊎', '≡', '≢', '≤', '<', '++', '∷', '+']


BRACKETS = {'(': 1, '{': 1, '[': 1, ')': -1, '}': -1, ']': -1}


def rank(word: str) -> int:
    """Returns how much a word binds those around it."""
    if word in OPERATORS:
        return OPERATORS.index(word)
    return len(OPERATORS) + (0 if word.startswith(('(', '{', '[')) else 1)


def breaks(line: str, depth: int, first: int) -> Iterator[tuple[int, int, int]]:
    """Yields the spaces between a column and the last one: the number of brackets around each, how
    much the operator behind it binds, and minus its column."""
    for at, character in enumerate(line[:COLUMNS + 1]):
        depth += BRACKETS.get(character, 0)
        if character == ' ' and at >= first:
            yield depth, -1 if line[at - 1] == ';' else rank(line[at + 1:].partition(' ')[0]), -at


def wrapped(line: str) -> Iterator[str]:
    """Yields the lines of a line, broken where the fewest brackets are open. Each is indented by
    the number of those."""
    indent = first = len(line) - len(line.lstrip())
    depth = 0
    while len(line) > COLUMNS:
        found = min(breaks(line, depth, FIRST + first), default=None)
        if found is None:
            break
        depth, _, at = found
        yield line[:-at]
        first = indent + 4 * max(1, depth)
        line = ' ' * first + line[1 - at:]
    yield line


def laid_out(text: str) -> list[str]:
    """Returns the lines of a text, broken where they are long."""
    return [it for line in text.split('\n') for it in wrapped(line)]
