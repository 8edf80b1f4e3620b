"""Calls of symbol tables and linking sections."""
from __future__ import annotations

from typing import TYPE_CHECKING

from ...errors import Stop
from ..syntax import NONE, PathCall
from ..terms import chained, elements, shown
from ..values import Builder, Call
from .base import Adders

if TYPE_CHECKING:
    from ..caller import Caller


def symbol(caller: Caller, table: Builder, call: Call) -> str:
    if call.name not in ("function", "global", "table"):
        raise Stop("the call `%s` of a symbol table" % call.name)
    flags, index = caller.evidence.symbol_flags(call.arguments[0]), caller.evidence.number(call.arguments[1]).why
    named = caller.scope.settled(call.arguments[2])
    if named == NONE:
        fits = "tt"
    elif isinstance(named, PathCall) and named.path == ("Some",):
        fits = "(%s, %s.was_encodable)" % (caller.evidence.utf8(named.arguments[0]), call.at)
    else:
        raise Stop("the name of a symbol, which is neither `None` nor `Some`")
    return added_symbol(caller, table, call, "%s, %s, %s" % (flags, index, fits))


def data(caller: Caller, table: Builder, call: Call) -> str:
    flags, utf8 = caller.evidence.symbol_flags(call.arguments[0]), caller.evidence.utf8(call.arguments[1])
    defined = caller.scope.settled(call.arguments[2])
    if defined == NONE:
        why = "tt"
    elif isinstance(defined, PathCall) and defined.path == ("Some",):
        fields = caller.evidence.fields(defined.arguments[0], "DataSymbolDefinition", "index", "offset", "size")
        why = "record { index = %s; offset = %s; size = %s }" % tuple(caller.evidence.number(it).why for it in fields)
    else:
        raise Stop("the definition of a symbol, which is neither `None` nor `Some`")
    return added_symbol(caller, table, call, "%s, (%s, %s.was_encodable), %s" % (flags, utf8, call.at, why))


def added_symbol(caller: Caller, table: Builder, call: Call, whys: str) -> str:
    lemma, item = caller.proof.lemma("wasm_custom", "adds_symbol"), caller.clause_terms.item(table)
    return "%s %s %s %s.ok %s.counted (%s)" % (lemma, table.term, item, call.at, call.at, whys)


def symbol_table(caller: Caller, section: Builder, call: Call) -> str:
    table = call.values[0]
    if not isinstance(table, Builder):
        raise Stop("symbols of which nothing is known")
    listed = elements(table.items) if table.items else None
    if listed is None:
        raise Stop("symbols that no clause lists")
    caller.proof.common("refl")
    lemma = caller.proof.lemma("wasm_custom", "adds_symbols")
    return "%s %s %s %s.ok %s" % (lemma, section.term, table.term, call.at, chained(["refl"] * len(listed)))


def target_arch(caller: Caller, section: Builder, call: Call) -> str:
    lemma, name = caller.proof.lemma("wasm_custom", "adds_target"), caller.evidence.name(call.arguments[0])
    return "%s %s %s %s.ok %s" % (lemma, section.term, name.term, call.at, shown(caller.evidence.utf8(call.arguments[0])))


ADDERS: Adders = {
    ("SymbolTable", None): symbol,
    ("SymbolTable", "data"): data,
    ("LinkingSection", "symbol_table"): symbol_table,
    ("LinkingSection", "target_arch"): target_arch,
}
