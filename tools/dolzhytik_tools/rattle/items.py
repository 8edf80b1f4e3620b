"""Parses the items of a source: functions with their contracts, impls, traits, modules, structs,
constants, aliases and imports. Bodies and types stay spans of tokens, which callers read."""
from __future__ import annotations

from collections.abc import Iterator, Sequence
from dataclasses import dataclass, field
from typing import Union

from .brackets import CLOSING, Span, behind, behind_angle, behind_item, parts


@dataclass(frozen=True)
class Clause:
    """A `requires` or `ensures`, with the tokens between its braces."""

    kind: str
    name: str | None
    inside: Span


@dataclass(frozen=True)
class Parameter:
    """A parameter and its type; of a `self` without a type the type is all its tokens."""

    name: str
    type: Span
    is_typed: bool


@dataclass(frozen=True)
class Function:
    """A function; one of a trait may have no body."""

    name: str
    is_public: bool
    generics: tuple[Span, ...]
    parameters: tuple[Parameter, ...]
    result: Span | None
    clauses: tuple[Clause, ...]
    body: Span | None


@dataclass(frozen=True)
class Block:
    """An `impl`, a `trait` or a `mod`: its header after the generics, and the items between its
    braces."""

    kind: str
    generics: tuple[Span, ...]
    header: Span
    items: tuple[Item, ...] = field(default=())


@dataclass(frozen=True)
class Struct:
    """A struct: its fields, each with its attributes, or none."""

    name: str
    is_tuple: bool
    fields: tuple[Span, ...]


@dataclass(frozen=True)
class Alias:
    """A type alias; that of a trait may have no type."""

    name: str
    generics: tuple[Span, ...]
    type: Span | None


@dataclass(frozen=True)
class Constant:
    """A constant with its type and value; that of a trait may have no value."""

    name: str
    type: Span
    value: Span | None


@dataclass(frozen=True)
class Use:
    """An import of names of Rust, or of the prover's."""

    is_ghost: bool
    path: Span


Item = Union[Function, Block, Struct, Alias, Constant, Use]


def items_of(words: Sequence[str], within: Span | None = None) -> tuple[Item, ...]:
    """Returns the items of the tokens, which have no spaces and comments."""
    return tuple(Items(words).within(within or Span(0, len(words))))


class Items:
    """Parses the items of a list of tokens."""

    def __init__(self, words: Sequence[str]):
        self.words, self.at = words, 0

    def within(self, span: Span) -> Iterator[Item]:
        """Yields the items of a file or of a block."""
        is_public, at = False, span.begin
        while at < span.end:
            word = self.words[at]
            if word == "pub":
                is_public = self.words[at + 1] != "("
                at = at + 1 if is_public else behind(self.words, at + 1)
            elif word == "#":
                at = behind(self.words, at + 1)
            elif self.begins_item(at):
                found, at = self.item(at, is_public)
                yield from [found] if found else []
                is_public = False
            else:
                at += 1

    def begins_item(self, at: int) -> bool:
        """Returns whether an item begins here, behind the words that may be before it."""
        word, following = self.words[at], self.words[at + 1] if at + 1 < len(self.words) else ""
        if word == "const":
            return following != "fn"
        if word == "mod":
            return at + 2 < len(self.words) and self.words[at + 2] == "{"
        return word in ("fn", "ghost", "impl", "trait", "struct", "enum", "type", "use", "static", "macro_rules")

    def item(self, at: int, is_public: bool) -> tuple[Item | None, int]:
        """Returns the item that begins at `at`, or None for one without meaning here, and the index
        after it."""
        word = self.words[at]
        if word == "fn":
            return self.function(at + 1, is_public)
        if word in ("impl", "trait", "mod"):
            return self.block(at)
        if word == "struct":
            return self.struct(at + 1)
        if word == "type":
            return self.alias(at + 1)
        if word == "const":
            return self.constant(at + 1)
        if word == "enum":
            return None, behind(self.words, self.index("{", at))
        if word == "macro_rules":
            return None, behind(self.words, at)
        is_ghost = word == "ghost"
        is_use = word == "use" or is_ghost and self.words[at + 1] == "use"
        end = behind_item(self.words, at)
        return (Use(is_ghost, Span(at + 1 + is_ghost, end - 1)) if is_use else None), end

    def index(self, word: str, at: int) -> int:
        while self.words[at] != word:
            at += 1
        return at

    def generics(self, at: int) -> tuple[tuple[Span, ...], int]:
        """Returns the generics that begin at `at`, if there are some, and the index after them."""
        if at >= len(self.words) or self.words[at] != "<":
            return (), at
        end = behind_angle(self.words, at)
        return tuple(parts(self.words, Span(at + 1, end - 1))), end

    def function(self, at: int, is_public: bool) -> tuple[Function, int]:
        name = self.words[at]
        generics, at = self.generics(at + 1)
        after = behind(self.words, at)
        parameters = tuple(map(self.parameter, parts(self.words, Span(at + 1, after - 1))))
        result, at = self.result(after)
        clauses, at = self.clauses(at)
        body, at = self.body(at)
        return Function(name, is_public, generics, parameters, result, clauses, body), at

    def parameter(self, part: Span) -> Parameter:
        words = list(part.of(self.words))
        if ":" not in words:
            return Parameter("self", part, False)
        colon = part.begin + words.index(":")
        return Parameter(self.words[colon - 1], Span(colon + 1, part.end), True)

    def result(self, at: int) -> tuple[Span | None, int]:
        if self.words[at] != "->":
            return None, at
        begin = at = at + 1
        while self.words[at] not in ("where", "requires", "ensures", "{", ";"):
            at = behind(self.words, at) if self.words[at] in CLOSING else at + 1
        return Span(begin, at), at

    def clauses(self, at: int) -> tuple[tuple[Clause, ...], int]:
        """Returns the clauses of a function, and the index of its body or of its semicolon."""
        found = []
        while self.words[at] not in ("{", ";"):
            kind, at = self.words[at], at + 1
            if kind in ("requires", "ensures"):
                brace = self.index("{", at)
                name = self.words[brace - 1] if brace > at and self.words[brace - 1] != "*" else None
                at = behind(self.words, brace)
                found.append(Clause(kind, name, Span(brace + 1, at - 1)))
            elif kind in ("(", "["):
                at = behind(self.words, at - 1)
        return tuple(found), at

    def body(self, at: int) -> tuple[Span | None, int]:
        if self.words[at] == ";":
            return None, at + 1
        after = behind(self.words, at)
        return Span(at + 1, after - 1), after

    def block(self, at: int) -> tuple[Block, int]:
        kind = self.words[at]
        generics, at = self.generics(at + 1)
        begin = at
        while self.words[at] not in ("{", ";"):
            if self.words[at] in ("(", "["):
                at = behind(self.words, at)
            else:
                at = behind_angle(self.words, at) if self.words[at] == "<" else at + 1
        if self.words[at] == ";":
            return Block(kind, generics, Span(begin, at)), at + 1
        after = behind(self.words, at)
        inside = tuple(self.within(Span(at + 1, after - 1)))
        return Block(kind, generics, Span(begin, at), inside), after

    def struct(self, at: int) -> tuple[Struct, int]:
        name = self.words[at]
        _, at = self.generics(at + 1)
        while self.words[at] not in ("{", "(", ";"):
            at += 1
        if self.words[at] == ";":
            return Struct(name, True, ()), at + 1
        after = behind(self.words, at)
        fields = tuple(parts(self.words, Span(at + 1, after - 1)))
        return Struct(name, self.words[at] == "(", fields), after

    def alias(self, at: int) -> tuple[Alias, int]:
        name, end = self.words[at], behind_item(self.words, at)
        generics, at = self.generics(at + 1)
        return Alias(name, generics, Span(at + 1, end - 1) if self.words[at] == "=" else None), end

    def constant(self, at: int) -> tuple[Constant | None, int]:
        end = behind_item(self.words, at)
        if self.words[at + 1] != ":":
            return None, end
        words = self.words[at:end]
        if "=" not in words:
            return Constant(self.words[at], Span(at + 2, end - 1), None), end
        equals = at + list(words).index("=")
        return Constant(self.words[at], Span(at + 2, equals), Span(equals + 1, end - 1)), end
