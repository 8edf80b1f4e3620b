"""Reads tools/kinds.tsv: the kinds of sections. The head of tools/kinds has the columns."""
from __future__ import annotations

import re
from collections.abc import Iterable
from dataclasses import dataclass

from ..errors import Stop
from ..repository import TOP, text_of

TABLE = "tools/kinds.tsv"
HEAD = "case\tknown by\tcontent\tformat\tview\twhole\tvalue\tstem\tcalls\tgrammars\tmapped\toffsets"
# The ids of sections, in their order.
IDS = ("Custom", "Type", "Import", "Function", "Table", "Memory", "Global", "Export", "Start", "Element", "Code", "Data", "DataCount", "Tag")
GRAMMARS = {"builders": "builders_alone", "both": "both_grammars"}
# Calls beside those of the traits, and how `encode_items` encodes without one.
CALLS = ("-", "read", "read append", "records", "own")
# What the offsets that a custom section holds point into.
OFFSETS = ("-", "code", "section", "module")
# Sections with such names hold offsets, whatever follows.
CODE_METADATA = "metadata.code."


@dataclass(frozen=True)
class Kind:
    """A line of the table."""

    line: int
    case: str
    known: str
    content: str
    format: str
    view: str
    whole: str
    value: str
    stem: str
    calls: str
    grammars: str
    mapped: str
    offsets: str

    @property
    def snake(self) -> str:
        return re.sub(r"(?<!^)([A-Z])", r"_\1", self.case).lower()

    @property
    def id(self) -> int | None:
        return IDS.index(self.known[3:]) if self.known.startswith("id ") else None

    @property
    def prefix(self) -> str | None:
        """What the names of its custom sections begin with."""
        return self.known[7:] if self.known.startswith("prefix ") else None

    @property
    def name(self) -> str | None:
        """The name of its custom section."""
        return None if self.known == "-" or self.id is not None or self.prefix else self.known

    @property
    def front(self) -> str | None:
        """How lists of custom sections that hold offsets name it."""
        return CODE_METADATA if self.known.startswith(CODE_METADATA) else self.name or self.prefix

    @property
    def is_custom(self) -> bool:
        return bool(self.name or self.prefix)

    @property
    def is_vector(self) -> bool:
        return self.format.startswith("vec ")

    @property
    def is_number(self) -> bool:
        return self.content == "ℕ"

    @property
    def has_own_lemma(self) -> bool:
        """Whether lemmas of its own are about its encoder."""
        return self.calls in ("records", "own") or self.known == "-"

    @property
    def calls_named(self) -> tuple[str, ...]:
        """The verbs of the calls with its stem."""
        if self.is_custom:
            return ("read", "append", "walk")
        return tuple(self.calls.split()) if self.calls.startswith("read") else ()

    @property
    def fields(self) -> list[tuple[str, str]]:
        """The names and types of the values in a case of `Items`."""
        if ": " not in self.value:
            return [("items", self.value)]
        return re.findall(r"(\w+): (.*?)(?=, \w+: |$)", self.value)

    @property
    def has_fields(self) -> bool:
        return len(self.fields) > 1

    @property
    def member(self) -> str:
        """The type of the members of its vector."""
        return self.value.removeprefix("Vec<").removesuffix(", A>")

    @property
    def written(self) -> str:
        return GRAMMARS[self.grammars]

    @property
    def bound(self) -> str:
        """The variable for its content."""
        return "xs" if self.is_vector else "n" if self.is_number else "x"

    @property
    def mapped_from(self) -> str:
        """The variable that `mapped` is a term over."""
        return re.findall(r"(?<![\w.])(?:xs|x|n)(?!\w)", self.mapped)[-1]

    @property
    def is_mapped(self) -> bool:
        return self.mapped != self.mapped_from


def term(text: str) -> str:
    """Returns a term as an argument."""
    return f"({text})" if " " in text else text


def kind_of(line: int, text: str) -> Kind:
    """Returns the kind of a line."""

    def stop(why: str) -> Stop:
        return Stop(f"{TABLE}:{line}: {why}: {text}")

    columns = text.split("\t")
    if len(columns) != len(HEAD.split("\t")) or not all(columns):
        raise stop(f"not {HEAD.split(chr(9))}, each of them")
    kind = Kind(line, *columns)
    if not re.fullmatch(r"[A-Z]\w*", kind.case):
        raise stop("a case that is no name")
    if kind.known.startswith("id ") and kind.known[3:] not in IDS:
        raise stop(f"an id that is none of {IDS}")
    if kind.grammars not in GRAMMARS:
        raise stop(f"grammars that are none of {tuple(GRAMMARS)}")
    if kind.offsets not in OFFSETS or kind.offsets != "-" and not kind.is_custom:
        raise stop(f"offsets that are none of {OFFSETS}, or not those of a custom section")
    if kind.known.startswith(CODE_METADATA) and kind.offsets != "code":
        raise stop(f"a section {CODE_METADATA}*, which holds offsets into code")
    if kind.calls not in CALLS or kind.is_custom and kind.calls != "-":
        raise stop(f"calls that are none of {CALLS}, or not those of a custom section")
    if not re.fullmatch(r"-|[a-z]\w*", kind.stem) or (kind.stem == "-") != (not kind.calls_named and kind.known != "-"):
        raise stop("a stem without a call, a call without a stem, or no stem")
    if kind.is_custom and not kind.format.endswith("_payload"):
        raise stop("a custom section whose format is no payload")
    if kind.is_vector != (kind.value.startswith("Vec<") and not kind.is_custom):
        raise stop("a vector in one of 'format' and 'value' alone")
    if not re.search(r"(?<![\w.])(?:xs|x|n)(?!\w)", kind.mapped):
        raise stop("a mapped content that is no term over xs, x or n")
    return kind


def unique(what: str, found: Iterable[tuple[Kind, str]]) -> None:
    """Stops if two kinds have the same text."""
    seen: dict[str, str] = {}
    for kind, text in found:
        if text in seen:
            raise Stop(f"{TABLE}:{kind.line}: {what} is also that of {seen[text]}: {text}")
        seen[text] = kind.case


def read(text: str) -> list[Kind]:
    """Returns the kinds of the table."""
    head, *lines = text.split("\n")[:-1]
    if head != HEAD:
        raise Stop(f"{TABLE}:1: not {HEAD.split(chr(9))}")
    kinds = [kind_of(number, line) for number, line in enumerate(lines, 2)]
    unique("the case", ((it, it.case) for it in kinds))
    unique("what it is known by", ((it, it.known) for it in kinds if it.known != "-"))
    unique("the stem", ((it, it.stem) for it in kinds if it.stem != "-"))
    unique("the payload", ((it, it.format) for it in kinds if it.is_custom))
    return kinds


def kinds_of_sections() -> list[Kind]:
    """Returns the kinds of the repository."""
    return read(text_of(TOP / TABLE))
