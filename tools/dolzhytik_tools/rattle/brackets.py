"""Brackets and lists in a sequence of tokens, given as their texts."""
from __future__ import annotations

from collections.abc import Iterator, Sequence
from dataclasses import dataclass

from ..errors import Stop

CLOSING = {"(": ")", "[": "]", "{": "}"}
CLOSERS = frozenset(CLOSING.values())


@dataclass(frozen=True)
class Span:
    """The tokens from an index up to another one."""

    begin: int
    end: int

    def of(self, words: Sequence[str]) -> Sequence[str]:
        """Returns the texts of these tokens."""
        return words[self.begin : self.end]


class Unclosed(Stop):
    """A bracket that nothing closes."""

    def __init__(self, closer: str):
        super().__init__(f"no {closer} closes this")


def behind(words: Sequence[str], at: int) -> int:
    """Returns the index after the bracket that closes the first one from `at` on."""
    depth, opener = 0, "{"
    for i in range(at, len(words)):
        word = words[i]
        if word in CLOSING:
            opener, depth = word if depth == 0 else opener, depth + 1
        elif word in CLOSERS:
            depth -= 1
            if depth == 0:
                return i + 1
    raise Unclosed(CLOSING[opener])


def is_arrow(words: Sequence[str], at: int) -> bool:
    """Returns whether the `>` at `at` is the end of an arrow."""
    return at > 0 and words[at - 1] in ("-", "=")


def behind_angle(words: Sequence[str], at: int) -> int:
    """Returns the index after the `>` that closes the `<` at `at`."""
    depth = 0
    while at < len(words):
        word = words[at]
        if word == "<":
            depth += 1
        elif word == ">" and not is_arrow(words, at):
            depth -= 1
            if depth == 0:
                return at + 1
        at = behind(words, at) if word in CLOSING else at + 1
    raise Unclosed(">")


def behind_angle_or(words: Sequence[str], at: int, end: int) -> int:
    """Returns the index after the `>` that closes the `<` at `at`, or `end` for a comparison."""
    try:
        return behind_angle(words, at)
    except Unclosed:
        return end


def behind_item(words: Sequence[str], at: int) -> int:
    """Returns the index after the `;` that ends the item at `at`, outside of brackets."""
    while at < len(words) and words[at] != ";":
        at = behind(words, at) if words[at] in CLOSING else at + 1
    return at + 1


def parts(words: Sequence[str], within: Span) -> Iterator[Span]:
    """Yields what is between the commas of a list that are in no brackets; empty parts are left
    out."""
    at = start = within.begin
    while at < within.end:
        if words[at] in CLOSING:
            at = behind(words, at)
        elif words[at] == "<":
            at = behind_angle_or(words, at, within.end)
        elif words[at] == ",":
            if start < at:
                yield Span(start, at)
            at = start = at + 1
        else:
            at += 1
    if start < within.end:
        yield Span(start, within.end)
