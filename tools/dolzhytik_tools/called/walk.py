"""Follows the statements of a body in order, with the types of its variables."""
from __future__ import annotations

import re
from dataclasses import dataclass

from ..rattle.brackets import CLOSING, Span, behind, parts
from .definitions import Definitions, Function, Key
from .expressions import RESULTS, Expressions, item_of
from .types import UNKNOWN, Type, type_at

# The variants of a result in patterns.
VARIANTS = ("Ok", "Some", "Err")


@dataclass(frozen=True)
class Binding:
    """A pattern of a `let`, and the index from which on its names hold."""

    holds: int
    pattern: Span
    type: Type


@dataclass(frozen=True)
class Matched:
    """The type of a `match`, and the index of its end."""

    end: int
    type: Type


class Walk:
    """Follows a body, and adds the functions that it calls to `called`."""

    def __init__(self, known: Definitions, function: Function, called: set[Key]):
        self.function, self.words = function, function.words
        self.expressions = Expressions(known, function, called)
        self.matched: list[Matched] = []
        self.bindings: list[Binding] = []

    def run(self) -> None:
        if self.function.body is None:
            return
        for it in self.function.parameters:
            self.expressions.variables[it.name] = self.expressions.own(it.type)
        end = self.function.body.end
        for at in range(self.function.body.begin, end):
            self.step(at, end)
            for it in [it for it in self.bindings if it.holds <= at + 1]:
                self.bind(it.pattern, it.type)
                self.bindings.remove(it)

    def step(self, at: int, end: int) -> None:
        """Reads the statement or expression that begins at a token, if one does."""
        words, word = self.words, self.words[at]
        if word == "let":
            self.bindings.append(self.binding(at + 1, end))
        elif word == "for" and "in" in words[at:end]:
            begins = self.index("in", at) + 1
            self.bind(Span(at + 1, begins - 1), item_of(self.expressions.value(begins, end).type))
        elif word == "match":
            found = self.expressions.value(at + 1, end)
            is_block = found.end < end and words[found.end] == "{"
            self.matched.append(Matched(behind(words, found.end) if is_block else found.end, found.type))
        elif word in VARIANTS and self.is_pattern(at, end):
            self.matched = [it for it in self.matched if it.end > at]
            if self.matched:
                self.bind(Span(at, behind(words, at + 1)), self.matched[-1].type)
        elif re.match(r"[A-Za-z_(]", word) and words[at - 1] not in (".", "::"):
            self.expressions.value(at, end)

    def index(self, word: str, at: int) -> int:
        while self.words[at] != word:
            at += 1
        return at

    def is_pattern(self, at: int, end: int) -> bool:
        """Returns whether a variant begins an arm of a match."""
        if at + 1 >= end or self.words[at + 1] != "(":
            return False
        after = behind(self.words, at + 1)
        return after < end and self.words[after] == "=>"

    def binding(self, at: int, end: int) -> Binding:
        """Returns the binding of a `let`, whose pattern begins at `at`."""
        words, begin = self.words, at
        while at < end and words[at] not in ("=", ":", ";"):
            at = behind(words, at) if words[at] in CLOSING else at + 1
        pattern, found = Span(begin, at), UNKNOWN
        if at < end and words[at] == ":":
            parsed = type_at(words, at + 1)
            found, at = self.expressions.own(parsed.type), parsed.end
        if at < end and words[at] == "=" and found == UNKNOWN:
            found = self.expressions.value(at + 1, end).type
        return Binding(self.ends(at, end), pattern, found)

    def ends(self, at: int, end: int) -> int:
        """Returns where names begin to hold: behind the statement, or in the block behind the
        condition."""
        while at < end and self.words[at] not in (";", "{", "else"):
            at = behind(self.words, at) if self.words[at] in ("(", "[") else at + 1
        return at

    def bind(self, pattern: Span, type_: Type) -> None:
        """Gives the names of a pattern their types."""
        words, at, end = self.words, pattern.begin, pattern.end
        while at < end and words[at] in ("mut", "&", "ref"):
            at += 1
        if at >= end:
            return
        if words[at] in VARIANTS and words[at + 1] == "(":
            is_result = type_.name in RESULTS
            self.bind(Span(at + 2, end - 1), type_.argument(int(words[at] == "Err")) if is_result else UNKNOWN)
        elif words[at] == "(":
            for index, it in enumerate(parts(words, Span(at + 1, behind(words, at) - 1))):
                self.bind(it, type_.argument(index) if type_.name == "()" else UNKNOWN)
        elif re.match(r"[a-z_]\w*$", words[at]):
            self.expressions.variables[words[at]] = type_
