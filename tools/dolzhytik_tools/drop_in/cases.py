"""The cases of the flat `Instruction` of the package, and which calls are proved."""
from __future__ import annotations

import re

from ..errors import Stop
from ..instructions import table
from ..instructions.encodings import unsigned

HEAD = "// Written by tools/drop-in from tools/instructions.tsv: change that.\n"
# Proved calls that have other names.
PROVED_NAMES = {"drop": "drop_"}


def item_of(ty: str) -> str | None:
    """Returns the type of the items of a list, or None."""
    found = re.fullmatch(r"Cow<'a, \[(\w+)\]>", ty)
    return found.group(1) if found else None


class Case:
    """A case of `Instruction`: its opcode, its immediates, and its call."""

    def __init__(self, case: table.Case):
        self.case, self.name, self.call, self.shape, self.group = case, case.name, case.call, case.layout, case.enum.name
        self.prefix, self.code, self.is_one = case.prefix, case.number, case.form == "one"
        self.types = ["Cow<'a, [%s]>" % part.item if part.item else part.type for part in case.given.parts]
        # The names of the fields in the order of the layout; a tuple has none.
        self.fields = list(case.fields)
        # The immediates in the order of the layout, of the fields, and of the call.
        self.parts = list(zip(case.fields or case.parameters, self.types))
        self.declared = [(name, dict(self.parts)[name]) for name in case.declared]
        self.parameters = [(name, dict(self.parts)[name]) for name in case.parameters]

    def op(self) -> str:
        """Returns the opcode as one number: the prefix, if there is one, above three bytes."""
        if self.prefix is None:
            return "0x%02X" % self.code
        return "0x%02X%06X" % (self.prefix, self.code)

    def op_bytes(self) -> list[int]:
        """Returns the bytes of the opcode."""
        return [self.code] if self.prefix is None else [self.prefix] + unsigned(self.code)

    def of(self, parts: list[str]) -> str:
        """Returns the case with these immediates, in the order of the layout: a value, or a
        pattern."""
        if self.fields:
            return "%s { %s }" % (self.name, ", ".join(a if a == b else "%s: %s" % (a, b) for a, b in zip(self.fields, parts)))
        return self.name + ("(%s)" % ", ".join(parts) if parts else "")

    def proved(self, parts: list[str], module: str) -> str:
        """Returns the proved value with these immediates, whose types are of a module."""
        value = "%s::%s::%s" % (module, self.group, self.of(parts))
        return value if self.group == "Instruction" else "%s::Instruction::%s(%s)" % (module, self.group, value)

    def pattern(self) -> str:
        """Returns the pattern of the case with any immediates."""
        return self.name + (" { .. }" if self.fields else "(..)" if self.types else "")

    def letters(self) -> list[str]:
        """Returns the names of its immediates in a pattern."""
        return list("abc"[: len(self.types)])


def read(text: str) -> list[Case]:
    """Returns the cases of the table."""
    return [Case(it) for it in table.read(text)]


def proved_calls(cases: list[Case], text: str) -> dict[str, str]:
    """Returns the names of calls in the proved sink, whose text this is. Their parameters must be
    as many."""
    found = re.findall(r"pub fn (\w+)(?:<[^(]*>)?\(&mut self(?:, ([^)]*))?\)", text)
    given = {name: len(re.findall(r"\w+: ", parameters)) for name, parameters in found if name != "op"}
    names = {case.call: PROVED_NAMES.get(case.call, case.call) for case in cases}
    for case in cases:
        if given.pop(names[case.call], len(case.parts)) != len(case.parts):
            raise Stop("the proved call %s has other parameters" % case.call)
    if given or len(found) < 40:
        raise Stop("rust/src/insn/sink.rs has other calls: %s" % ", ".join(given))
    return {case.call: names[case.call] for case in cases if names[case.call] in dict(found)}
