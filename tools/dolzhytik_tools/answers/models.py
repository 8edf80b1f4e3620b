"""Items as values: those that the calls of a function add, and those that a definition lists."""
from __future__ import annotations

from collections.abc import Iterable
from dataclasses import dataclass, field, replace
from typing import Union


@dataclass(frozen=True)
class Integer:
    """A number."""

    value: int
    line: int = field(default=0, compare=False)
    origin: str = field(default="", compare=False)


@dataclass(frozen=True)
class Items:
    """A list. `text` is the literal that it was written as, if it was one."""

    items: tuple[Model, ...] = ()
    line: int = field(default=0, compare=False)
    origin: str = field(default="", compare=False)
    text: str | None = field(default=None, compare=False)


@dataclass(frozen=True)
class Fields:
    """A record: its fields, in the order of the source."""

    fields: tuple[tuple[str, Model], ...]
    line: int = field(default=0, compare=False)
    origin: str = field(default="", compare=False)

    def of(self, name: str) -> Model:
        return dict(self.fields)[name]


@dataclass(frozen=True)
class Applied:
    """A constructor or another word, with its arguments. `group` is the enum of a variant."""

    head: str
    arguments: tuple[Model, ...] = ()
    line: int = field(default=0, compare=False)
    origin: str = field(default="", compare=False)
    group: str = field(default="", compare=False)


@dataclass(frozen=True)
class Symbol:
    """A parameter of the function."""

    name: str
    line: int = field(default=0, compare=False)
    origin: str = field(default="", compare=False)


@dataclass(frozen=True)
class Opaque:
    """A value of which nothing is known."""

    line: int = field(default=0, compare=False)
    origin: str = field(default="", compare=False)


Model = Union[Integer, Items, Fields, Applied, Symbol, Opaque]
UNKNOWN = Opaque()


def text_model(text: str) -> Items:
    """Returns the bytes of a literal of ASCII."""
    return Items(tuple(Integer(ord(it)) for it in text), text=text)


def record(**fields: Model) -> Fields:
    return Fields(tuple(fields.items()))


def at(model: Model, line: int) -> Model:
    """Returns a model with the line of the source that adds it."""
    return replace(model, line=line)


def listed(models: Iterable[Model] | None) -> Model:
    """Returns a list of items, or a value of which nothing is known for None."""
    return UNKNOWN if models is None else Items(tuple(models))
