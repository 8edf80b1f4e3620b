"""Compares the items that a function adds with those of its clause, and says where they first differ.

Only a sure difference is reported: two numbers, two literals, two constructors, or two lengths. A
value of which nothing is known differs from no other.
"""
from __future__ import annotations

from collections.abc import Mapping
from dataclasses import dataclass

from ..instructions.table import Case
from .models import Applied, Fields, Integer, Items, Model, Opaque, Symbol
from .tables import SECTION_WORDS, WORDS_THAT_DIFFER

ROWS = ("normal_row", "br_table_row")
NESTED = ("Numeric", "Aggregate", "PrefixedNumeric", "Vector", "VectorImmediate", "Atomic")


@dataclass(frozen=True)
class Difference:
    """Where two lists differ: the line of the source, and the report."""

    line: int
    text: str


@dataclass(frozen=True)
class Path:
    """The way to a value: the definition that it is of, the line of the source, the number of the
    item and its field, and the whole item on both sides."""

    origin: str
    line: int
    item: int = 0
    section: int = 0
    field: str = ""

    def into(self, found: Model, wanted: Model) -> Path:
        origin = self.origin if is_row(wanted) else wanted.origin or self.origin
        return Path(origin, found.line or self.line, self.item, self.section, self.field)

    @property
    def where(self) -> str:
        parts = ["section %d" % self.section] if self.section else []
        parts += ["item %d" % self.item] if self.item else []
        return " (%s)" % ", ".join(parts) if parts else ""


class Comparison:
    """Compares values, and renders them as the source writes them."""

    def __init__(self, cases: Mapping[str, Case]):
        self.calls = {it.name: it.call for it in cases.values()}

    def first(self, found: Model, wanted: Model, path: Path) -> Difference | None:
        """Returns the first difference between two values, or None."""
        if isinstance(found, Opaque) or isinstance(wanted, Opaque):
            return None
        path = path.into(found, wanted)
        if isinstance(found, Items) and isinstance(wanted, Items):
            return self.of_lists(found, wanted, path)
        if isinstance(found, Fields) and isinstance(wanted, Fields):
            return self.of_records(found, wanted, path)
        if isinstance(found, Applied) and isinstance(wanted, Applied):
            return self.of_words(found, wanted, path)
        simple = (Integer, Symbol, Items)
        if isinstance(found, simple) and isinstance(wanted, simple) and found != wanted:
            return self.difference(found, wanted, path)
        return None

    def of_lists(self, found: Items, wanted: Items, path: Path) -> Difference | None:
        if text_in(found) and text_in(wanted):
            return None if found == wanted else self.difference(found, wanted, path)
        for number, (one, other) in enumerate(zip(found.items, wanted.items), 1):
            difference = self.first(one, other, numbered(path, number, other))
            if difference and one.origin and other.origin and one.origin != other.origin and not is_row(other):
                at = numbered(path, number, other)
                return Difference(one.line or path.line, "%s, but %s has %s%s" % (one.origin, path.origin, other.origin, at.where))
            if difference:
                return difference
        return self.of_lengths(found, wanted, path)

    def of_lengths(self, found: Items, wanted: Items, path: Path) -> Difference | None:
        """One list ends before the other."""
        count, wanted_count = len(found.items), len(wanted.items)
        if count == wanted_count:
            return None
        more = found if count > wanted_count else wanted
        number = min(count, wanted_count) + 1
        item = more.items[number - 1]
        line = item.line if more is found and item.line else found.items[-1].line if found.items and found.items[-1].line else path.line
        extra = "%s, but %s ends before it" if more is found else "%s is missing: %s has it"
        at = numbered(Path(path.origin, line, path.item, path.section), number, item)
        return Difference(line, extra % (self.shown(item), at.origin) + at.where)

    def of_records(self, found: Fields, wanted: Fields, path: Path) -> Difference | None:
        names = [name for name, _ in found.fields]
        if set(names) != {name for name, _ in wanted.fields}:
            return None
        for name in names:
            difference = self.first(found.of(name), wanted.of(name), Path(path.origin, path.line, path.item, path.section, name))
            if difference:
                return difference
        return None

    def of_words(self, found: Applied, wanted: Applied, path: Path) -> Difference | None:
        if found.head != wanted.head:
            is_sure = all(self.is_sure(it.head) for it in (found, wanted))
            return self.difference(found, wanted, path) if is_sure else None
        if len(found.arguments) != len(wanted.arguments):
            return None
        for one, other in zip(found.arguments, wanted.arguments):
            difference = self.first(one, other, path)
            if difference:
                # An instruction is reported as a whole.
                return self.difference(found, wanted, path) if found.head in (*self.calls, *ROWS) and found.head not in SECTION_WORDS else difference
        return None

    def is_sure(self, word: str) -> bool:
        """Returns whether two of these words are never equal."""
        return word in self.calls or word in WORDS_THAT_DIFFER

    def difference(self, found: Model, wanted: Model, path: Path) -> Difference:
        name = path.field + " " if path.field else ""
        return Difference(path.line, "%s%s, but %s has %s%s%s" % (name, self.shown(found), path.origin, name, self.shown(wanted), path.where))

    def shown(self, model: Model) -> str:
        """Returns a value in a report; an instruction by its call."""
        if isinstance(model, Integer):
            return str(model.value)
        if isinstance(model, Symbol):
            return model.name
        if isinstance(model, Items):
            return '"%s"' % text_in(model) if text_in(model) else "[%s]" % ", ".join(map(self.shown, model.items))
        if isinstance(model, Fields):
            return "{ %s }" % ", ".join("%s: %s" % (name, self.shown(it)) for name, it in model.fields)
        if isinstance(model, Applied):
            return self.shown_word(model)
        return "_"

    def shown_word(self, model: Applied) -> str:
        if model.head == "normal_row" or (model.head in NESTED and len(model.arguments) == 1 and isinstance(model.arguments[0], Applied)):
            return self.shown(model.arguments[-1])
        if model.head == ",":
            return "(%s)" % ", ".join(map(self.shown, model.arguments))
        head = SECTION_WORDS.get(model.head) or ("br_table" if model.head == "br_table_row" else self.calls.get(model.head, model.head))
        if model.head in SECTION_WORDS:
            return head
        return " ".join([head, *map(self.argument, model.arguments)])

    def argument(self, model: Model) -> str:
        text = self.shown(model)
        return "(%s)" % text if isinstance(model, Applied) and " " in text and model.head != "," else text


def is_row(model: Model) -> bool:
    """Returns whether a value is an instruction as a reader returns it."""
    return isinstance(model, Applied) and model.head in ROWS


def numbered(path: Path, number: int, item: Model) -> Path:
    """Returns the path to an item of a list."""
    if isinstance(item, Applied) and item.head in SECTION_WORDS:
        return Path(path.origin, path.line, 0, number)
    return Path(path.origin, path.line, number, path.section)


def text_in(model: Items) -> str | None:
    """Returns the literal of bytes that are ASCII with a letter, or None for another list."""
    if model.text:
        return model.text
    values = [it.value for it in model.items if isinstance(it, Integer)]
    is_text = len(values) == len(model.items) and all(0x20 <= it < 0x7F for it in values) and any(chr(it).isalpha() for it in values)
    return "".join(map(chr, values)) if is_text else None
