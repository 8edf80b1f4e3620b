"""Proofs of functions that encode a section into an empty buffer and read it back."""
from __future__ import annotations

import re
from dataclasses import dataclass

from ..errors import Stop
from .parser import Parser
from .proof import MARK
from .sources import Function
from .syntax import Path, PathCall, Statement, Tree, Try

# KIND is the kind of the section, WRITTEN the contract of the call that encoded it, SINK the buffer
# for minimal encodings and MODULE the module of the goals.
READ_BACK = """
use Rattle.std.proofs.Common.{◌++◌, ap, ◌∙◌}
use Rattle.wasm_reader.proofs.Causes.{cause_stays}
use Rattle.wasm_reader.specs.Kinds.{KIND}
use Rattle.wasm_reader.proofs.Calls.{written, decodes_written, written_not_rejected, shortens_written}
use Rattle.wasm_reader.specs.declared.kinds.SectionKind.TheVariants as kinds
use MODULE.Goals as goal

pub returns-in_err-items-clause-memory : goal.returns-in_err-items-clause-memory
returns-in_err-items-clause-memory g c = cause_stays c.from_residual-in_err-items.result _ c.from_residual-in_err-items.ensures.1 λ n. written_not_rejected kinds.KIND (c.in_err-items.ensures.none n) (written KIND c.requires WRITTEN)

pub returns-clause-read : goal.returns-clause-read
returns-clause-read g c = decodes_written c.in_ok-items.ensures.found.1 (written KIND c.requires WRITTEN)

pub returns-clause-same : goal.returns-clause-same
returns-clause-same g c =
    let gained = WRITTEN in
    let same = shortens_written c.in_ok-items.ensures.shortened.1 (written KIND c.requires gained) in
    record { encoding = gained.encoding; added = same ∙ ap (λ t. c.args.SINK.now.items ++ t) (gained.added ∙ ap (λ t. t ++ gained.encoding) c.requires); unique = gained.unique }
"""


@dataclass(frozen=True)
class Reading:
    """The kind of the section that is read, and the buffer that gains its minimal encoding."""

    kind: str
    sink: str


def reads_back(function: Function) -> bool:
    """Returns whether a function requires an empty buffer, and promises the section that is read,
    the bytes of its minimal encoding, and that only memory may lack."""
    requires, ensures = function.requires, [it.name for it in function.ensures]
    return [it.name for it in requires] == [None] and requires[0].text.endswith(".old.items ≡ []") and ensures == ["read", "same", "memory"]


def read_back(function: Function) -> str:
    """Returns the proof file of such a function: a call that encodes, and one of
    `read_and_shorten`."""
    statements, end = Parser(function.body).body()
    buffer = Path((function.requires[0].text.partition(".")[0],))
    if len(statements) != 2 or end != PathCall(("Ok",), (Path(("items",)),)):
        raise Stop("more than one section that is written and read")
    writer, reading = written_by(statements[0].value, buffer), read_by(statements[1], buffer)
    words = {
        "KIND": reading.kind,
        "WRITTEN": "c.in_ok-%s.ensures" % writer,
        "SINK": reading.sink,
        "MODULE": "%s.%s" % (function.source.antt, function.name),
    }
    return MARK + re.sub("|".join(words), lambda found: words[found.group()], READ_BACK)


def tried_call(tree: Tree) -> PathCall | None:
    """Returns the call that `?` follows, if the tree is one."""
    return tree.inner if isinstance(tree, Try) and isinstance(tree.inner, PathCall) else None


def written_by(tree: Tree, buffer: Path) -> str:
    """Returns the function that encodes the section into the buffer."""
    call = tried_call(tree)
    if call is None or len(call.path) != 1 or call.arguments[0] != buffer:
        raise Stop("a section that no call writes into the buffer")
    return call.path[0]


def read_by(statement: Statement, buffer: Path) -> Reading:
    """Returns the arguments of `read_and_shorten`."""
    call = tried_call(statement.value)
    if statement.name != "items" or call is None or call.path != ("read_and_shorten",):
        raise Stop("a section that `read_and_shorten` does not read")
    kind, text, sink = call.arguments
    if not isinstance(kind, Path) or kind.names[0] != "SectionKind" or text != buffer or not isinstance(sink, Path):
        raise Stop("the arguments of `read_and_shorten`")
    return Reading(kind.names[1], sink.names[0])
