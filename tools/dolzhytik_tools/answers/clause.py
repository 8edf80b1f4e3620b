"""The clause of a function, which the tool proves."""
from __future__ import annotations

import re
from dataclasses import dataclass

from ..errors import Stop
from .sources import Function
from .terms import arguments, pair_in, words_of

RESULT = re.compile(r"IfOk result \(λ (\w+)\. (.*)\)", re.S)
MODULE = re.compile(r"DecodesSections (.*) (\w+)\.old → OnOk result \(DecodesSections (.*) (\w+)\.new\)", re.S)
BUFFER = re.compile(r"OnOk result \(GainsDecoding(Padded)? (.*) (\w+)\.old\.items (\w+)\.new\.items\)", re.S)


@dataclass(frozen=True)
class Clause:
    """`kind` is the form of the result, `items` the term of what was added, `before` the parameter
    of the module that gains it, `start` the sections before, and `is_padded` whether numbers may be
    padded."""

    kind: str
    items: str
    before: str | None
    is_padded: bool
    line: int = 0
    start: str = ""


def clause_of(function: Function) -> Clause:
    """Returns the one clause of a function; stops at other clauses."""
    if function.requires:
        raise Stop("it has a `requires`")
    if len(function.ensures) != 1 or function.ensures[0].name:
        raise Stop("it has %s" % ("no clause" if not function.ensures else "a clause with a name" if len(function.ensures) == 1 else "several clauses"))
    # A parameter whose name is a word of the prover is in quotes.
    text = re.sub("[«»]", "", function.ensures[0].text)
    is_padded = "GainsDecodingPadded" in text or "padded_code_decoding" in text
    found = of_result(text) or of_module(text) or of_buffer(text)
    if found is None:
        raise Stop("its clause is of no form that the tool knows")
    kind, items, before = found
    module = MODULE.fullmatch(text)
    return Clause(kind, items, before, is_padded, function.ensures[0].line, module.group(1) if module else "")


Form = tuple[str, str, "str | None"]


def of_result(text: str) -> Form | None:
    """The result is bytes of sections, or has a predicate."""
    found = RESULT.fullmatch(text)
    if not found:
        return None
    name, said = found.group(1), arguments(words_of(found.group(2)))
    if len(said) == 3 and said[0] == "DecodesSections" and said[2] == name + ".items":
        return "bytes", said[1], None
    if len(said) == 3 and said[1] == name:
        return said[0], said[2], None
    if len(said) == 4 and said[:3] == ["SaysStack", name + ".0", name + ".1"]:
        return said[0], pair_in(said[3])[1], None
    return None


def of_module(text: str) -> Form | None:
    """A module gains sections."""
    found = MODULE.fullmatch(text)
    return ("adds", found.group(3), found.group(2)) if found and found.group(2) == found.group(4) else None


def of_buffer(text: str) -> Form | None:
    """A buffer gains an encoding."""
    found = BUFFER.fullmatch(text)
    said = arguments(words_of(found.group(2))) if found else []
    return ("encoded", said[1], None) if len(said) == 2 else None
