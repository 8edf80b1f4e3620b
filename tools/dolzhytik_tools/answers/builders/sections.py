"""Calls of the sections of functions, tables, memories, globals, exports, imports and tags."""
from __future__ import annotations

from typing import TYPE_CHECKING

from ...errors import Stop
from ..syntax import Path, PathCall, Struct
from ..tables import VARIANTS
from ..terms import shown
from ..values import Builder, Call, Constant
from .base import Adders

if TYPE_CHECKING:
    from ..caller import Caller


def plain_item(caller: Caller, section: Builder, item: str, call: Call, why: str) -> str:
    """The term of a section after an item that is in range."""
    return "%s %s %s %s.ok (%s)" % (caller.proof.lemma("wasm_sections", "adds_item"), section.term, item, call.at, why)


def function(caller: Caller, section: Builder, call: Call) -> str:
    number = caller.evidence.number(call.arguments[0])
    return plain_item(caller, section, number.term, call, number.why)


def memory(caller: Caller, section: Builder, call: Call) -> str:
    item = caller.clause_terms.item(section)
    return plain_item(caller, section, item, call, caller.evidence.record(call.arguments[0], "MemoryType"))


def tag(caller: Caller, section: Builder, call: Call) -> str:
    item = caller.clause_terms.item(section)
    return plain_item(caller, section, item, call, caller.evidence.record(call.arguments[0], "TagType"))


def table(caller: Caller, section: Builder, call: Call) -> str:
    why = caller.evidence.record(call.arguments[0], "TableType")
    lemma, item = caller.proof.lemma("wasm_sections", "adds_table"), caller.clause_terms.item(section)
    return "%s %s %s.table_type %s.ok (%s)" % (lemma, section.term, item, call.at, why)


def table_with_init(caller: Caller, section: Builder, call: Call) -> str:
    why, init = caller.evidence.record(call.arguments[0], "TableType"), call.values[1]
    item = caller.clause_terms.item(section)
    if not isinstance(init, Constant) or init.rows is None or init.term is None or caller.clause.is_padded:
        raise Stop("a first value of which nothing is known")
    lemma, rows = caller.proof.lemma("wasm_sections", "adds_table_with_init"), caller.evidence.list_of(init.rows)
    return "%s %s %s.table_type %s _ %s.ok (%s) %s" % (lemma, section.term, item, rows, call.at, why, init.term)


def global_(caller: Caller, section: Builder, call: Call) -> str:
    init, proof = call.values[1], caller.proof
    if not isinstance(init, Constant):
        raise Stop("a first value of which nothing is known")
    why = caller.evidence.record(call.arguments[0], "GlobalType")
    if caller.clause.is_padded:
        item = caller.clause_terms.item(section)
        lemma = proof.lemma("wasm_sections", "adds_global_padded")
        return "%s %s %s _ %s.ok %s %s" % (lemma, section.term, item, call.at, why, stored_padded(caller, init, item))
    if init.term is None:
        raise Stop("a raw expression, and a clause without padded numbers")
    lemma, item = proof.lemma("wasm_sections", "adds_global"), caller.clause_terms.item(section)
    return "%s %s %s _ %s.ok %s %s" % (lemma, section.term, item, call.at, why, init.term)


def stored_padded(caller: Caller, constant: Constant, item: str) -> str:
    """Returns why an expression stores what an item says, with padded numbers too."""
    if constant.wide:
        return constant.wide
    return "(%s _ %s.init %s)" % (caller.proof.lemma("wasm_code", "included_constant"), item, constant.term)


def raw_global(caller: Caller, section: Builder, call: Call) -> str:
    bytes = caller.raw.bytes_of(call.arguments[0])
    if not caller.clause.is_padded or bytes[0] != 0x7F or bytes[1] > 1 or bytes[-1] != 0x0B:
        raise Stop("a raw global other than a constant of 32 bits")
    stored = caller.raw.constant(bytes[2:-1]).term
    lemma, item = caller.proof.lemma("wasm_sections", "adds_global_padded"), caller.clause_terms.item(section)
    return "%s %s %s %s %s.ok tt %s" % (lemma, section.term, item, caller.raw.listed(bytes[2:-1]), call.at, stored)


def export(caller: Caller, section: Builder, call: Call) -> str:
    utf8, why = caller.evidence.utf8(call.arguments[0]), caller.evidence.number(call.arguments[2]).why
    lemma, item = caller.proof.lemma("wasm_sections", "adds_export"), caller.clause_terms.item(section)
    return "%s %s %s %s.ok %s.was_encodable %s (%s)" % (lemma, section.term, item, call.at, call.at, shown(utf8), why)


def import_(caller: Caller, section: Builder, call: Call) -> str:
    first, second = caller.evidence.utf8(call.arguments[0]), caller.evidence.utf8(call.arguments[1])
    why = caller.evidence.entity(call.arguments[2]).why
    return plain_item(caller, section, caller.clause_terms.item(section), call, "%s, (%s, %s)" % (first, second, why))


def imports(caller: Caller, section: Builder, call: Call) -> str:
    """Imports of one type, by a list of names."""
    tree = caller.scope.settled(call.arguments[0])
    if not isinstance(tree, Struct) or tree.path != ("Imports", "Compact2"):
        raise Stop("imports that are not of one type")
    names = tree.fields["names"]
    if not isinstance(names, PathCall) or names.path != ("CowSlice", "Borrowed") or not isinstance(names.arguments[0], Path):
        raise Stop("a list of names that is no parameter")
    name = names.arguments[0].names[0]
    promise = caller.scope.promise(Path((name,)))
    if promise is None or name not in caller.function.parameters:
        raise Stop("a list of names that no call of `plain_names` has looked at")
    entity = caller.evidence.entity(tree.fields["ty"])
    if entity.index is None:
        raise Stop("imports that are no functions")
    caller.proof.use(VARIANTS["EntityType"], entity.kind)
    module = caller.evidence.name(tree.fields["module"])
    caller.evidence.use_why(module)
    lemma = caller.proof.lemma("wasm_sections", "adds_alike")
    of = "%s (%s %s) c.args.%s.now" % (module.term, entity.kind, entity.index, name)
    whys = "%s.ok %s.was_encodable %s (%s) %s" % (call.at, call.at, shown(module.why), entity.why, promise.term)
    return "%s %s %s %s" % (lemma, section.term, of, whys)


ADDERS: Adders = {
    ("FunctionSection", "function"): function,
    ("MemorySection", "memory"): memory,
    ("TagSection", "tag"): tag,
    ("TableSection", "table"): table,
    ("TableSection", "table_with_init"): table_with_init,
    ("GlobalSection", "global"): global_,
    ("GlobalSection", "raw"): raw_global,
    ("ExportSection", "export"): export,
    ("ImportSection", "import"): import_,
    ("ImportSection", "imports"): imports,
}
