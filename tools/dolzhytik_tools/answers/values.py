"""The values that the tool follows from call to call. `term` proves what is known of a value."""
from __future__ import annotations

from dataclasses import dataclass, field

from .models import UNKNOWN, Model
from .syntax import Tree


@dataclass
class Value:
    """A value without a call: `tree` is how the source writes it."""

    tree: Tree | None = None


@dataclass
class Nothing(Value):
    """The result of a call of which nothing is used."""


@dataclass
class Plain(Value):
    """A literal, a parameter or a struct."""


@dataclass
class Listed(Value):
    """An array or a tuple."""

    parts: list[Value] = field(default_factory=list)


@dataclass
class Variant(Value):
    """A variant with its values."""

    path: tuple[str, ...] = ()
    parts: list[Value] = field(default_factory=list)


@dataclass
class Known(Value):
    """A value with a proof of what is known of it."""

    term: str | None = None


@dataclass
class Module(Known):
    """A module under construction, and its sections."""

    sections: list[Model] | None = None


@dataclass
class Body(Known):
    """A function's body; `is_lent` while a sink borrows it. `rows` are its instructions, and `model`
    is a body that a clause lists."""

    is_lent: bool = False
    runs: Model = UNKNOWN
    rows: list[Model] | None = None
    model: Model = UNKNOWN


@dataclass
class Constant(Known):
    """An expression. `rows` are its instructions, if they are known. `wide` proves an expression
    that was given as bytes, with padded numbers."""

    rows: list[str] | None = None
    wide: str | None = None
    model: Model = UNKNOWN


@dataclass
class Builder(Known):
    """A builder of a section or of a part of one. `count` is how many items were added, `items`
    the term of its content from the clause of the function that made it, and `behind` whether an
    encoder of a type still borrows it."""

    kind: str = ""
    holds: str = ""
    crate: str = ""
    count: int = 0
    behind: bool = False
    is_called: bool = False
    items: str | None = None
    # The added items, or the list that a clause has.
    added: list[Model] | None = None
    model: Model = UNKNOWN


@dataclass
class Process(Known):
    """A process of a core dump: its name as a term, and why that is UTF-8."""

    name: str = ""
    utf8: str = ""


@dataclass
class TypeEncoder(Known):
    """The encoder of the next type of a section."""

    section: Builder = field(default_factory=Builder)
    called: str = ""


@dataclass
class FinishedModule(Known):
    """The bytes of a module, and its sections."""

    sections: list[Model] | None = None


@dataclass
class Encoded(Known):
    """A buffer that has gained the encoding of these items."""

    model: Model = UNKNOWN


@dataclass
class Promise(Known):
    """The proof by a call that each name of a list is in range."""

    names: Tree | None = None


@dataclass
class Sink(Value):
    """The instruction sink of a body."""

    body: Body = field(default_factory=Body)


@dataclass
class SliceIterator(Value):
    """The iterator of a slice."""

    parameter: str = ""
    called: str = ""


@dataclass
class CopiedSteps(Value):
    """The calls of `copied` and `iter` over a slice."""

    copied: str = ""
    iterated: str = ""


@dataclass(frozen=True)
class Call:
    """A call: its arguments as trees and as values, the name of its step in the proof, the term of
    its contract, and whether `?` follows it."""

    name: str
    arguments: tuple[Tree, ...]
    values: list[Value]
    step: str
    at: str
    is_tried: bool
    line: int = 0
