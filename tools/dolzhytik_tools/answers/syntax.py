"""Statements and expressions as trees."""
from __future__ import annotations

from dataclasses import dataclass, field
from typing import Union


@dataclass(frozen=True)
class Path:
    """A name, or a path of names."""

    names: tuple[str, ...]

    @property
    def name(self) -> str | None:
        """The name, or None for a path of several."""
        return self.names[0] if len(self.names) == 1 else None


@dataclass(frozen=True)
class Number:
    """A literal number."""

    value: int


@dataclass(frozen=True)
class Text:
    """A literal text, as the source has it between the quotes."""

    value: str


@dataclass(frozen=True)
class Parens:
    """A tuple, or an expression in parentheses."""

    items: tuple[Tree, ...]


@dataclass(frozen=True)
class Array:
    """An array."""

    items: tuple[Tree, ...]


@dataclass(frozen=True)
class Reference:
    """A reference to a value."""

    inner: Tree


@dataclass(frozen=True)
class Dereference:
    """The value behind a reference."""

    inner: Tree


@dataclass(frozen=True)
class Minus:
    """A negated value."""

    inner: Tree


@dataclass(frozen=True)
class Try:
    """A value behind `?`."""

    inner: Tree


@dataclass(frozen=True)
class Field:
    """A field of a value."""

    owner: Tree
    name: str


@dataclass(frozen=True)
class MethodCall:
    """A call of a method."""

    receiver: Tree
    name: str
    arguments: tuple[Tree, ...]
    line: int = field(default=0, compare=False)


@dataclass(frozen=True)
class PathCall:
    """A call of a function by its path, or a variant with its values."""

    path: tuple[str, ...]
    arguments: tuple[Tree, ...]
    line: int = field(default=0, compare=False)


@dataclass(frozen=True)
class Struct:
    """A struct with its fields."""

    path: tuple[str, ...]
    fields: dict[str, Tree]


@dataclass(frozen=True)
class AddAll:
    """A `match` on `add_all` that continues with `then` once everything is added."""

    arguments: tuple[Tree, ...]
    then: Tree


@dataclass(frozen=True)
class Unparsed:
    """A constant that the parser does not know: no function that uses it is answered."""


Tree = Union[
    Path, Number, Text, Parens, Array, Reference, Dereference, Minus, Try, Field, MethodCall, PathCall, Struct, AddAll, Unparsed,
]
NONE = Path(("None",))
UNIT = Parens(())


@dataclass(frozen=True)
class Statement:
    """A statement, with the name that it binds, if it is a `let`."""

    name: str | None
    value: Tree
    line: int = 0


def is_call_of(tree: Tree, *path: str) -> bool:
    """Returns whether a tree is a call of this path."""
    return isinstance(tree, PathCall) and tree.path == path


def is_struct(tree: Tree, name: str) -> bool:
    """Returns whether a tree is a struct of this name."""
    return isinstance(tree, Struct) and tree.path == (name,)
