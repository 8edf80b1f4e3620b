"""Types, as far as the text of a source shows them."""
from __future__ import annotations

import re
from collections.abc import Collection, Mapping, Sequence
from dataclasses import dataclass

from ..rattle.brackets import Span, behind, behind_angle, parts

# Words before a type that do not change it here.
PREFIXES = ("&", "mut", "dyn", "const", "*")


@dataclass(frozen=True)
class Type:
    """A type: its last name and its arguments. `()` is a tuple, and `[]` a slice or an array."""

    name: str
    arguments: tuple[Type, ...] = ()

    def with_arguments(self, given: Mapping[str, Type]) -> Type:
        """Returns the type with types in the place of parameters."""
        if self.name in given and not self.arguments:
            return given[self.name]
        return Type(self.name, tuple(it.with_arguments(given) for it in self.arguments))

    def argument(self, index: int) -> Type:
        """Returns an argument, or the unknown type."""
        return self.arguments[index] if index < len(self.arguments) else UNKNOWN

    def has_methods_of(self, owner: Type, generics: Collection[str]) -> bool:
        """Returns whether a value of this type has the methods of an impl for `owner`, which leaves
        its generics open."""
        if owner.name != self.name:
            return False
        for wanted, given in zip(owner.arguments, self.arguments):
            is_open = wanted.name in generics or wanted.name == "_" or given == UNKNOWN
            if not is_open and not given.has_methods_of(wanted, generics):
                return False
        return len(self.arguments) >= len([it for it in owner.arguments if it.name not in generics])


UNKNOWN = Type("?")
UNIT = Type("()")


@dataclass(frozen=True)
class Parsed:
    """A type, and the index of the token after it."""

    type: Type
    end: int


def type_at(words: Sequence[str], at: int) -> Parsed:
    """Parses the type that begins at `at`."""
    while at < len(words) and words[at] in PREFIXES:
        at += 1
    if at >= len(words):
        return Parsed(UNKNOWN, at)
    if words[at] == "(":
        end = behind(words, at)
        return Parsed(Type("()", types_in(words, Span(at + 1, end - 1))), end)
    if words[at] == "[":
        return Parsed(Type("[]", (type_at(words, at + 1).type,)), behind(words, at))
    if words[at] == "impl" or not re.match(r"\w", words[at]):
        return Parsed(UNKNOWN, at + 1)
    return path_at(words, at)


def path_at(words: Sequence[str], at: int) -> Parsed:
    """Parses a type that is a path."""
    name, arguments = words[at], ()
    at += 1
    while at < len(words):
        if words[at] == "<":
            end = behind_angle(words, at)
            arguments = types_in(words, Span(at + 1, end - 1))
            at = end
        elif words[at] == "::" and at + 1 < len(words) and re.match(r"\w", words[at + 1]):
            name, arguments = words[at + 1], ()
            at += 2
        elif words[at] == "::":
            at += 1
        else:
            break
    return Parsed(Type(name, arguments), at)


def types_in(words: Sequence[str], within: Span) -> tuple[Type, ...]:
    """Parses a list of types."""
    return tuple(type_at(words, it.begin).type for it in parts(words, within))
