"""Reads tools/instructions.tsv: the cases, and the enum of each. The head of tools/instructions has
the columns."""
from __future__ import annotations

import re
from collections.abc import Iterable
from dataclasses import dataclass

from ..errors import Stop
from .layouts import FORMS, LAYOUTS, ONE, Layout

TABLE = "tools/instructions.tsv"
HEAD = "op\tcase\tlayout\tfields\tcall\tparameters\tfields in Rust\tform"


@dataclass(frozen=True)
class Enum:
    """An enum of instructions: whether its cases have no fields, and its doc comment."""

    name: str
    prefix: int | None
    is_bare: bool
    says: str

    @property
    def module(self) -> str:
        return re.sub(r"(?<!^)([A-Z])", r"_\1", self.name).lower()


INSTRUCTION = Enum("Instruction", None, False, "An instruction.")
# Each is a case of `Instruction`, in the order of its cases.
NESTED = (
    Enum("Numeric", None, True, "Numeric instructions: the one-byte opcodes 45 to C4."),
    Enum("Aggregate", 0xFB, True, "Instructions on aggregates and references without immediates: those after the prefix FB."),
    Enum("PrefixedNumeric", 0xFC, True, "Numeric instructions after the prefix FC: truncations that saturate, and wide arithmetic."),
    Enum("Vector", 0xFD, True, "Vector instructions without immediates: those after the prefix FD."),
    Enum("VectorImmediate", 0xFD, False, "Vector instructions with immediates: those after the prefix FD."),
    Enum("Atomic", 0xFE, False, "Atomic instructions: those after the prefix FE."),
)
ENUMS = {it.name: it for it in (INSTRUCTION, *NESTED)}
PREFIXES = (0xFB, 0xFC, 0xFD, 0xFE)
# The prefix whose numbers are hexadecimal in files.
IN_HEXADECIMAL = 0xFE
# The most cases that the prover accepts of an enum that owns memory, as `Instruction` does, and of
# one that is `Copy`.
ROOM, ROOM_OF_COPIES = 128, 256


def group(prefix: int | None, number: int, layout: str) -> str:
    """Returns the name of the enum of a case."""
    is_bare = layout == "-"
    if prefix is None:
        return "Numeric" if 0x45 <= number <= 0xC4 else "Instruction"
    if prefix == 0xFE:
        return "Atomic"
    if prefix == 0xFD:
        return "Vector" if is_bare else "VectorImmediate"
    return {0xFB: "Aggregate", 0xFC: "PrefixedNumeric"}[prefix] if is_bare else "Instruction"


@dataclass(frozen=True)
class Case:
    """A line of the table."""

    line: int
    prefix: int | None
    number: int
    name: str
    layout: str
    fields: tuple[str, ...]
    call: str
    parameters: tuple[str, ...]
    declared: tuple[str, ...]
    form: str

    @property
    def enum(self) -> Enum:
        return ENUMS[group(self.prefix, self.number, self.layout)]

    @property
    def shape(self) -> str:
        return LAYOUTS[self.layout].shape

    @property
    def given(self) -> Layout:
        """Its fields."""
        return ONE if self.form == "one" else LAYOUTS[self.layout]

    @property
    def letters(self) -> tuple[str, ...]:
        return tuple("abc"[: len(self.given.parts)])

    @property
    def digits(self) -> str:
        """Its number, as in the files."""
        return f"0x{self.number:02X}" if self.prefix in (None, IN_HEXADECIMAL) else str(self.number)

    @property
    def rank(self) -> tuple[int, int]:
        """The key that orders opcodes: the byte, or the prefix and the number."""
        return (self.number, -1) if self.prefix is None else (self.prefix, self.number)


def case_of(line: int, text: str) -> Case:
    """Returns the case of a line."""

    def stop(why: str) -> Stop:
        return Stop(f"{TABLE}:{line}: {why}: {text}")

    columns = text.split("\t")
    if not 5 <= len(columns) <= 8:
        raise stop(f"not {HEAD.split()}")
    op, name, layout, fields, call, parameters, declared, form = columns + [""] * (8 - len(columns))
    found = re.fullmatch(r"([0-9A-F]{2})(?: (\d+))?", op)
    if not found:
        raise stop("no op")
    prefix, number = (int(found[1], 16), int(found[2])) if found[2] else (None, int(found[1], 16))
    if (number in PREFIXES) if prefix is None else prefix not in PREFIXES:
        raise stop("a prefix alone, or an unknown one")
    if layout not in LAYOUTS or form not in FORMS or (form == "one") > (layout == "ts"):
        raise stop("an unknown layout or form")
    names, handed, ordered = fields.split(), parameters.split(), declared.split()
    case = Case(line, prefix, number, name, layout, tuple(names), call, tuple(handed or names), tuple(ordered or names), form)
    size = len(case.given.parts)
    if not re.fullmatch(r"[A-Z]\w*", name) or not re.fullmatch(r"[a-z]\w*", call):
        raise stop("no name of a case, or of a call")
    if names and len(names) != size or len(case.parameters) != size or (form == "by name") > bool(names):
        raise stop(f"the layout has {size} fields")
    if names and (sorted(case.parameters) != sorted(names)) or sorted(case.declared) != sorted(names):
        raise stop("parameters, or fields in Rust, that are no fields")
    return case


def read(text: str) -> list[Case]:
    """Returns the cases of the table. Each is there once, in the order of opcodes; only the forms
    of one instruction share an opcode."""
    head, *lines = text.removesuffix("\n").split("\n")
    if head != HEAD:
        raise Stop(f"{TABLE}:1: not the names of the columns")
    cases = [case_of(i, line) for i, line in enumerate(lines, 2)]
    for before, case in zip(cases, cases[1:]):
        if case.rank < before.rank or case.rank == before.rank and not (before.form == "one" and case.layout == before.layout):
            raise Stop(f"{TABLE}:{case.line}: an op that an earlier line has, or that is before the one above: {case.name}")
    for what in ("name", "call"):
        seen: dict[str, int] = {}
        for case in cases:
            if seen.setdefault(getattr(case, what), case.line) != case.line:
                raise Stop(f"{TABLE}:{case.line}: the {what} {getattr(case, what)} is in line {seen[getattr(case, what)]} already")
    for enum in ENUMS.values():
        room = ROOM - len(NESTED) if enum == INSTRUCTION else ROOM_OF_COPIES
        for case in of_enum(cases, enum)[room:]:
            raise Stop(f"{TABLE}:{case.line}: the prover takes no more cases of {enum.name}: {case.name} needs an enum of its own within `Instruction`")
    return cases


def of_enum(cases: Iterable[Case], enum: Enum) -> list[Case]:
    return [it for it in cases if it.enum == enum]
